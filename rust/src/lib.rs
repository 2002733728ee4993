//! A proved reader of SongCode chord charts, for Rust.
//!
//! [`Song::read`] reads a chart into tables of its own, each as long as the song needs; its sections, measures, beats and items are
//! iterators over them. [`count`] gives refusal or counts without tables, [`explain`] says why a chart is refused and where,
//! [`flat`] copies a song with nothing folded, for paper, and [`read_into`] and [`flat_into`] fill memory that a program lends, with no heap.
//! `include/turnipcart.h` documents the calls, the words, every refusal and every cause. All that is unsafe stands in one file, `calls.rs`.
//!
//! Read one byte more than [`TEXT_LIMIT`] of a file, so that one that is too long is refused as such.

mod calls;
mod cause;
mod refusal;
mod song;
mod words;

pub use calls::{concert, count, cues, explain, find, flat, flat_into, read_into, Counts, Found, Tables};
pub use cause::Cause;
pub use refusal::Refusal;
pub use song::{Beat, Item, Measure, Section, Song, Style};
pub use words::{base_name, Key};

/// Bytes of the longest text that is read.
pub const TEXT_LIMIT: usize = 65536;
/// Words of the keys table.
pub const KEYS: usize = 8;
/// Lengths of the other tables that no song is too long for.
pub const SECTIONS_ENOUGH: usize = 13107;
/// See [`SECTIONS_ENOUGH`].
pub const MEASURES_ENOUGH: usize = 65535;
/// See [`SECTIONS_ENOUGH`].
pub const BEATS_ENOUGH: usize = 65535 * 32;
/// See [`SECTIONS_ENOUGH`].
pub const ITEMS_ENOUGH: usize = 13107;
/// Bytes of a buffer that is long enough for every flat copy.
pub const COPY_ENOUGH: usize = 65536;
/// Bytes of stack that every call is content with.
pub const STACK: usize = 393216;
