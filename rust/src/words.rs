//! The fields of the tables' words, as `include/turnipcart.h` lists them.
use std::ops::Range;

/// The song's keys, in the order of their table.
#[derive(Clone, Copy, Debug, PartialEq, Eq)]
#[allow(missing_docs)]
pub enum Key {
    Name,
    Artist,
    Original,
    Capo,
    Bpm,
    Time,
    Warning,
    End,
}

pub(crate) const SILENCE: u32 = 63;
pub(crate) const NO_BPM: u64 = 511;

const BASES: [&str; 34] = [
    "A", "A#", "Ab", "Am", "A#m", "Abm", "B", "Bb", "Bm", "Bbm", "C", "C#", "Cm", "C#m", "D", "Db", "D#", "Dm", "Dbm", "D#m", "E", "Eb",
    "Em", "Ebm", "F", "F#", "Fm", "F#m", "G", "Gb", "G#", "Gm", "Gbm", "G#m",
];

/// The spelling of a base chord by its number, 0 to 33; an empty one for every other number.
pub fn base_name(base: u32) -> &'static str {
    BASES.get(base as usize).copied().unwrap_or("")
}

fn stretch(offset: u64, length: u64) -> Range<usize> {
    offset as usize..(offset + length) as usize
}

/// Where a key's setting stands in the text, if the song has it.
pub(crate) fn setting(word: u32) -> Option<Range<usize>> {
    (word >> 31 == 1).then(|| stretch(u64::from(word >> 15 & 0xffff), u64::from(word >> 6 & 0x1ff)))
}

/// A section's header line, measures, N and bpm.
pub(crate) fn section(word: u64) -> (usize, Range<usize>, u32, Option<u32>) {
    let bpm = word & 0x1ff;
    let measures = stretch(word >> 31 & 0xffff, word >> 15 & 0xffff);
    ((word >> 47) as usize, measures, (word >> 9 & 0x3f) as u32, (bpm != NO_BPM).then_some(bpm as u32))
}

/// The places of a measure's beats.
pub(crate) fn measure(word: u32) -> Range<usize> {
    stretch(u64::from(word >> 11), u64::from(word >> 5 & 0x3f))
}

/// A beat's base, where its extension stands in the text, and whether it is a head.
pub(crate) fn beat(word: u32) -> (u32, Range<usize>, bool) {
    (word >> 26, stretch(u64::from(word >> 10 & 0xffff), u64::from(word >> 5 & 0x1f)), word >> 4 & 1 == 1)
}

/// An item's text, its measures and its style.
pub(crate) fn item(word: u64) -> (Range<usize>, Range<usize>, u64) {
    (stretch(word >> 48, word >> 32 & 0xffff), stretch(word >> 16 & 0xffff, word >> 2 & 0x3fff), word & 3)
}
