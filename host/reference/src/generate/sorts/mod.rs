//! The sorts of case of each code, and their shares.

mod calls;
mod frames;
mod payloads;
mod records;
mod sheets;
mod tables;

use super::rng::Rng;
use super::{draw, Code};
use crate::cases::{Case, WriteCase};
use calls::{HISTORY, RECEIVE, RELEASE, RUN};
use frames::{FRAME, FRAME_WRITE};
pub use payloads::ACROSS;
use payloads::{BESIDE, READ, SCALAR};
use records::{INDEX, LOOK_UP, SALVAGE};
use sheets::{FORWARD, VALUE_FRAME, WRITE};
use tables::{EXTENDS, TABLE};

/// The codes that share one random stream.
pub const CODES: &[Code] = &[
    (1, 10, TABLE),
    (2, 10, EXTENDS),
    (3, 22, READ),
    (4, 12, SCALAR),
    (5, 20, WRITE),
    (6, 8, FRAME),
    (7, 5, FRAME_WRITE),
    (8, 8, RUN),
    (9, 8, RECEIVE),
];

/// The codes with a random stream each.
pub const LATER_CODES: &[Code] = &[
    (10, 8, RELEASE),
    (11, 12, HISTORY),
    (15, 12, VALUE_FRAME),
    (16, 14, BESIDE),
    (17, 12, SALVAGE),
    (18, 12, FORWARD),
    (19, 10, INDEX),
    (20, 10, LOOK_UP),
];

/// A case of a code of any sort.
pub fn ordinary(rng: &mut Rng, code: u8) -> Case {
    let mut codes = CODES.iter().chain(LATER_CODES);
    let found = codes.find(|(number, ..)| *number == code);
    draw(rng, found.map_or(TABLE, |(_, _, sorts)| sorts), None)
}

/// A sheet for the value writer: any, or one that it answers with a number.
pub fn writer_sheet(rng: &mut Rng, number: Option<u32>) -> WriteCase {
    loop {
        if let Case::Write(case) = draw(rng, WRITE, number) {
            return case;
        }
    }
}
