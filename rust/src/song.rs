//! A song with tables of its own, and its parts as iterators.
use crate::calls::NO_KEYS;
use crate::words::{self, Key, SILENCE};
use crate::{concert, count, find, flat, read_into, Found, Refusal, Tables, KEYS};
use std::ops::Range;

/// An accepted chart: its text, and every word of its tables.
#[derive(Clone, Debug)]
pub struct Song<'a> {
    text: &'a [u8],
    keys: [u32; KEYS],
    sections: Vec<u64>,
    measures: Vec<u32>,
    beats: Vec<u32>,
    items: Vec<u64>,
}

/// A section as it is played.
#[derive(Clone, Debug)]
pub struct Section<'s> {
    song: &'s Song<'s>,
    /// The line of its header, from 1.
    pub line: usize,
    /// N, the beats of a whole measure.
    pub time: u32,
    /// Its bpm, else the song's.
    pub bpm: Option<u32>,
    places: Range<usize>,
}

/// A measure as it is played.
#[derive(Clone, Debug)]
pub struct Measure<'s> {
    song: &'s Song<'s>,
    /// Its place in the song, from 0.
    pub place: usize,
    beats: Range<usize>,
}

/// What one beat plays.
#[derive(Clone, Copy, Debug, PartialEq, Eq)]
pub struct Beat<'s> {
    /// The base chord's spelling and its extension; none in silence.
    pub chord: Option<(&'static str, &'s [u8])>,
    /// The first beat of a position as written.
    pub head: bool,
}

/// How a line of the prompter is shown.
#[derive(Clone, Copy, Debug, PartialEq, Eq)]
pub enum Style {
    /// As it is.
    Plain,
    /// Written between `***`.
    Info,
    /// Written between `:::`.
    Crew,
}

/// A line of the prompter.
#[derive(Clone, Debug, PartialEq, Eq)]
pub struct Item<'s> {
    /// Its words.
    pub text: &'s [u8],
    /// The places of the measures that it stands for.
    pub measures: Range<usize>,
    /// How it is shown.
    pub style: Style,
}

impl<'a> Song<'a> {
    /// Reads the chart into tables of its own; the text is kept, for chords and words are parts of it.
    pub fn read(text: &'a [u8]) -> Result<Self, Refusal> {
        let counts = count(text)?;
        let mut song = Song {
            text,
            keys: NO_KEYS,
            sections: vec![0; counts.sections],
            measures: vec![0; counts.measures],
            beats: vec![0; counts.beats],
            items: vec![0; counts.items],
        };
        read_into(
            text,
            &mut Tables {
                keys: &mut song.keys,
                sections: &mut song.sections,
                measures: &mut song.measures,
                beats: &mut song.beats,
                items: &mut song.items,
            },
        )?;
        Ok(song)
    }

    /// A key's setting, if the song has it.
    pub fn key(&self, key: Key) -> Option<&'a [u8]> {
        words::setting(self.keys[key as usize]).map(|place| &self.text[place])
    }

    /// The sections in their order.
    pub fn sections(&self) -> impl Iterator<Item = Section<'_>> {
        self.sections.iter().map(|&word| {
            let (line, places, time, bpm) = words::section(word);
            Section { song: self, line, time, bpm, places }
        })
    }

    /// All measures of the song.
    pub fn measures(&self) -> impl Iterator<Item = Measure<'_>> {
        (0..self.measures.len()).map(|place| self.measure(place))
    }

    /// The lines of the prompter.
    pub fn items(&self) -> impl Iterator<Item = Item<'_>> {
        self.items.iter().map(|&word| {
            let (text, measures, style) = words::item(word);
            let style = [Style::Plain, Style::Info, Style::Crew][style as usize % 3];
            Item { text: &self.text[text], measures, style }
        })
    }

    /// How many beats the song has.
    pub fn beats(&self) -> usize {
        self.beats.len()
    }

    /// The place of the measure that holds a beat, beats counted from 0 through the song.
    pub fn find(&self, beat: u32) -> Found {
        find(&self.measures, beat)
    }

    /// The song with every chord moved by so many semitones, -11 to 20, and written with sharps.
    pub fn at_concert_pitch(&self, semitones: i32) -> Result<Self, Refusal> {
        let mut moved = self.clone();
        concert(&self.beats, semitones, &mut moved.beats)?;
        Ok(moved)
    }

    /// The song with nothing folded, for paper: a chart that reads the same. Refusal 20 where it would have more than 65,536 bytes.
    pub fn flat_copy(&self) -> Result<String, Refusal> {
        flat(self.text)
    }

    fn measure(&self, place: usize) -> Measure<'_> {
        Measure { song: self, place, beats: words::measure(self.measures[place]) }
    }
}

impl<'s> Section<'s> {
    /// The section's measures, none where its pattern is empty.
    pub fn measures(&self) -> impl Iterator<Item = Measure<'s>> {
        let song = self.song;
        self.places.clone().map(move |place| song.measure(place))
    }
}

impl<'s> Measure<'s> {
    /// The measure's beats.
    pub fn beats(&self) -> impl Iterator<Item = Beat<'s>> {
        let song = self.song;
        song.beats[self.beats.clone()].iter().map(move |&word| {
            let (base, extension, head) = words::beat(word);
            let chord = (base != SILENCE).then(|| (words::base_name(base), &song.text[extension]));
            Beat { chord, head }
        })
    }
}
