//! The archive's calls, each in a safe function; nothing outside this file is unsafe.
#![allow(unsafe_code)]
use crate::{Cause, Refusal, COPY_ENOUGH, KEYS};

/// Six numbers in this order, as the archive lays them down.
#[repr(C)]
#[derive(Default)]
struct Answer {
    refusal: usize,
    line: usize,
    sections: usize,
    measures: usize,
    beats: usize,
    items: usize,
}

/// Three numbers in this order.
#[repr(C)]
#[derive(Default)]
struct Search {
    refusal: usize,
    place: usize,
    probes: usize,
}

/// Three numbers in this order.
#[repr(C)]
#[derive(Default)]
struct Copied {
    refusal: usize,
    line: usize,
    length: usize,
}

extern "C" {
    fn turnipcart_read(
        text: *const u8,
        text_length: usize,
        keys: *mut u32,
        keys_length: usize,
        sections: *mut u64,
        sections_length: usize,
        measures: *mut u32,
        measures_length: usize,
        beats: *mut u32,
        beats_length: usize,
        items: *mut u64,
        items_length: usize,
        answer: *mut Answer,
    ) -> usize;

    fn turnipcart_count(text: *const u8, text_length: usize, answer: *mut Answer) -> usize;

    fn turnipcart_find(measures: *const u32, measures_length: usize, beat: u32, found: *mut Search) -> usize;
    fn turnipcart_cues(
        sections: *const u64,
        sections_length: usize,
        measures: *const u32,
        measures_length: usize,
        cues: *mut u64,
        cues_length: usize,
        end: *mut u64,
    ) -> usize;

    fn turnipcart_concert(beats: *const u32, beats_length: usize, shift: i32, second: *mut u32, second_length: usize) -> usize;

    fn turnipcart_flat(text: *const u8, text_length: usize, copy: *mut u8, copy_length: usize, copied: *mut Copied) -> usize;

    fn turnipcart_explain(text: *const u8, text_length: usize, cause: *mut Cause) -> usize;
}

/// The five tables that a program lends, each of any length. Words behind a song's own keep what they held, and all do where it is
/// refused.
pub struct Tables<'a> {
    /// 8 words.
    pub keys: &'a mut [u32],
    /// One word for each section.
    pub sections: &'a mut [u64],
    /// One word for each measure.
    pub measures: &'a mut [u32],
    /// One word for each beat.
    pub beats: &'a mut [u32],
    /// One word for each of the prompter's lines.
    pub items: &'a mut [u64],
}

/// How many words the tables of a song take, besides the 8 of keys.
#[derive(Clone, Copy, Debug, PartialEq, Eq)]
pub struct Counts {
    /// Sections of the song.
    pub sections: usize,
    /// Measures of the song.
    pub measures: usize,
    /// Beats of the song.
    pub beats: usize,
    /// Lines of the prompter.
    pub items: usize,
}

impl Answer {
    fn counts(&self) -> Result<Counts, Refusal> {
        match self.refusal {
            0 => Ok(Counts { sections: self.sections, measures: self.measures, beats: self.beats, items: self.items }),
            number => Err(Refusal { number, line: self.line }),
        }
    }
}

/// Refusal 1 to 17 or the counts, without tables.
pub fn count(text: &[u8]) -> Result<Counts, Refusal> {
    let mut answer = Answer::default();
    // SAFETY: the pointer comes from a slice with its length, and `answer` is this function's own.
    unsafe { turnipcart_count(text.as_ptr(), text.len(), &mut answer) };
    answer.counts()
}

/// Why the chart is refused, and where; none where it is accepted.
pub fn explain(text: &[u8]) -> Option<Cause> {
    let mut cause = Cause::default();
    // SAFETY: the pointer comes from a slice with its length, and `cause` is this function's own.
    let number = unsafe { turnipcart_explain(text.as_ptr(), text.len(), &mut cause) };
    (number != 0).then_some(cause)
}

/// Reads the chart into lent tables. Slices are never null and mutable ones never overlap, which is all that the archive asks.
pub fn read_into(text: &[u8], tables: &mut Tables) -> Result<Counts, Refusal> {
    let Tables { keys, sections, measures, beats, items } = tables;
    let mut answer = Answer::default();
    // SAFETY: each pointer comes from a reference with its own length, and the mutable ones are apart from all others.
    unsafe {
        turnipcart_read(
            text.as_ptr(),
            text.len(),
            keys.as_mut_ptr(),
            keys.len(),
            sections.as_mut_ptr(),
            sections.len(),
            measures.as_mut_ptr(),
            measures.len(),
            beats.as_mut_ptr(),
            beats.len(),
            items.as_mut_ptr(),
            items.len(),
            &mut answer,
        )
    };
    answer.counts()
}

/// Where a beat was found, and how many records were read.
#[derive(Clone, Copy, Debug, PartialEq, Eq)]
pub struct Found {
    /// The record's place in the measures table, from 0; none where no record that holds the beat was found.
    pub place: Option<usize>,
    /// At most 16.
    pub probes: usize,
}

/// Finds the record of a measures table that holds the beat, by halving. Lend a song's own measures and no words behind them.
pub fn find(measures: &[u32], beat: u32) -> Found {
    let mut found = Search::default();
    // SAFETY: the pointer comes from a slice with its length, and `found` is this function's own.
    unsafe { turnipcart_find(measures.as_ptr(), measures.len(), beat, &mut found) };
    Found { place: (found.refusal == 0).then_some(found.place), probes: found.probes }
}

/// Writes the start of each measure, in microseconds, into the beginning of the cue table and gives the song's end. Lend a song's own
/// sections and measures and no words behind them.
pub fn cues(sections: &[u64], measures: &[u32], cues: &mut [u64]) -> Result<u64, Refusal> {
    let mut end = 0;
    // SAFETY: each pointer comes from a slice with its own length, and the mutable ones are apart from the others.
    let number = unsafe {
        turnipcart_cues(sections.as_ptr(), sections.len(), measures.as_ptr(), measures.len(), cues.as_mut_ptr(), cues.len(), &mut end)
    };
    match number {
        0 => Ok(end),
        number => Err(Refusal { number, line: 0 }),
    }
}

/// Writes a beats table, moved by so many semitones, into the beginning of a second one.
pub fn concert(beats: &[u32], semitones: i32, second: &mut [u32]) -> Result<(), Refusal> {
    // SAFETY: each pointer comes from a slice with its own length, and the mutable one is apart from the other.
    match unsafe { turnipcart_concert(beats.as_ptr(), beats.len(), semitones, second.as_mut_ptr(), second.len()) } {
        0 => Ok(()),
        number => Err(Refusal { number, line: 0 }),
    }
}

/// Copies the song, for paper, into the beginning of the lent buffer, with nothing folded: a chart that reads the same, each measure as it is
/// played on a line of its own. Gives the copy's length; where it is refused (1 to 17 as [`count`] has it, then 20) no byte changes.
/// [`COPY_ENOUGH`](crate::COPY_ENOUGH) bytes are enough for every copy.
pub fn flat_into(text: &[u8], copy: &mut [u8]) -> Result<usize, Refusal> {
    let mut copied = Copied::default();
    // SAFETY: each pointer comes from a slice with its own length, the mutable one is apart from the other, and `copied` is this function's own.
    match unsafe { turnipcart_flat(text.as_ptr(), text.len(), copy.as_mut_ptr(), copy.len(), &mut copied) } {
        0 => Ok(copied.length),
        number => Err(Refusal { number, line: copied.line }),
    }
}

/// The flat copy of the song, as [`flat_into`] writes it. Refusal 20 says that it would have more than 65,536 bytes.
pub fn flat(text: &[u8]) -> Result<String, Refusal> {
    let mut copy = vec![0; COPY_ENOUGH];
    let length = flat_into(text, &mut copy)?;
    copy.truncate(length);
    Ok(String::from_utf8(copy).expect("a copy is UTF-8, as its song is"))
}

/// The keys table of a song that has not been read.
pub(crate) const NO_KEYS: [u32; KEYS] = [0; KEYS];
