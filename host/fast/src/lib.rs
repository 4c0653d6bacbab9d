//! The arf rules written for speed: the schema table, the reader and the writer
//! of values, frames and the call table.
//!
//! The answers are those of every other implementation. What differs is how
//! they are found: one pass over a payload or a sheet, into memory that the
//! thread keeps between calls, and a copy at the end. The static library is
//! measured against this crate.

#![forbid(unsafe_code)]
// The forms that clippy would write instead were not measured.
#![allow(clippy::int_plus_one, clippy::manual_div_ceil)]

mod bytes;
mod calls;
mod frame;
mod keys;
mod reader;
mod scratch;
mod table;
mod utf8;
mod writer;

pub use calls::{Call, CallTable, Outcome, Received, Released, Tally, SLOTS};
pub use frame::{read_frame, write_frame, Frame, FrameAnswer, Header};
pub use reader::{read, Reading};
pub use table::check_table;
pub use utf8::is_valid as is_utf8;
pub use writer::write;

/// The most bytes a payload may have.
pub const MAX_PAYLOAD: usize = 16_384;

/// The most pairs a map may have.
const MAX_PAIRS: usize = 64;

/// Levels below the root.
const LEVELS: u32 = 15;

/// A refusal: its number, and where.
#[derive(Clone, Copy, Debug, PartialEq, Eq)]
pub struct Refusal {
    pub number: u32,
    pub place: usize,
}

impl Refusal {
    /// A refusal at place 0.
    const fn of(number: u32) -> Self {
        Refusal { number, place: 0 }
    }
}
