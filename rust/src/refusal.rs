//! Why a call refuses.
use std::error::Error;
use std::fmt;

/// The number, for a chart from 1 to 18 and for its flat copy also 20, and the line, 0 where there is none.
#[derive(Clone, Copy, Debug, PartialEq, Eq)]
pub struct Refusal {
    /// As document 01 and docs/REFUSALS.md number them.
    pub number: usize,
    /// Counted from 1.
    pub line: usize,
}

const TEXTS: [&str; 21] = [
    "accepted",
    "the file is too long",
    "a broken character",
    "a block out of order",
    "a key that is unknown, doubled or not allowed here",
    "a setting that is malformed or out of range",
    "a definition's head",
    "chords against the rules",
    "another line out of place",
    "no section",
    "a reference without a definition above it",
    "a reference that goes too deep",
    "positions that do not divide the measure",
    "`%` with no chord before it",
    "too many measures",
    "nothing is left, or a modifier on an empty pattern",
    "a lyric line without its count",
    "counts that do not sum",
    "a table is too short",
    "no measure holds the beat",
    "the copy is too long",
];

impl Refusal {
    /// The refusal in a few words.
    pub fn text(&self) -> &'static str {
        match self.number {
            21 => "a move out of range",
            22 => "a word that is no beat",
            25 => "tables that do not join up",
            26 => "a section without a bpm from 1 to 400",
            number => TEXTS.get(number).copied().unwrap_or("refused"),
        }
    }
}

impl fmt::Display for Refusal {
    fn fmt(&self, out: &mut fmt::Formatter<'_>) -> fmt::Result {
        write!(out, "refused {}", self.number)?;
        if self.line > 0 {
            write!(out, " on line {}", self.line)?;
        }
        write!(out, ": {}", self.text())
    }
}

impl Error for Refusal {}
