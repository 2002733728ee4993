//! Why a chart is refused, and where.
use crate::Refusal;
use std::ops::Range;

/// Ten numbers in this order, as the archive lays them down. `include/turnipcart.h` lists every kind with its place and its numbers.
#[repr(C)]
#[derive(Clone, Copy, Debug, Default, PartialEq, Eq)]
pub struct Cause {
    refusal: usize,
    line: usize,
    /// 100 times the refusal's number, and the number of the clause that holds (`enum turnipcart_cause_kind`).
    pub kind: usize,
    /// The line of the place, counted from 1; 0 where there is no place.
    pub place_line: usize,
    /// The first byte of the place in the text.
    pub offset: usize,
    /// Bytes of the place; 0 where something is missing there.
    pub length: usize,
    /// One more line worth showing, 0 where there is none.
    pub other_line: usize,
    /// A number that a sentence needs, else 0.
    pub first: usize,
    /// See [`Cause::first`].
    pub second: usize,
    /// See [`Cause::first`].
    pub third: usize,
}

impl Cause {
    /// The verdict, with its own line.
    pub fn refusal(&self) -> Refusal {
        Refusal { number: self.refusal, line: self.line }
    }

    /// The bytes that are to change, all on one line; none where the refusal names no line.
    pub fn place(&self) -> Option<Range<usize>> {
        (self.place_line > 0).then(|| self.offset..self.offset + self.length)
    }
}
