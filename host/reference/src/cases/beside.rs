//! The case of code 16: the payload reader with two tables.

use super::entries::{outcome, reading_numbers, Entry, CELL_FILL};
use super::format::{line, put_bytes, put_words, sheet_sum, Input, MAX_CELLS};
use crate::{read_beside, Reading};

/// Code 16: our table, the writer's, and a payload.
#[derive(Clone, Debug, PartialEq, Eq)]
pub struct BesideCase {
    pub ours: Vec<u8>,
    pub theirs: Vec<u8>,
    pub type_number: u32,
    pub payload: Vec<u8>,
    pub cells: usize,
}

impl Entry for BesideCase {
    fn take(input: &mut Input) -> Option<Self> {
        Some(BesideCase {
            ours: input.bytes()?,
            theirs: input.bytes()?,
            type_number: input.u32()?,
            payload: input.bytes()?,
            cells: input.limited(MAX_CELLS)?,
        })
    }

    fn put(&self, out: &mut Vec<u8>) {
        put_bytes(out, &self.ours);
        put_bytes(out, &self.theirs);
        put_words(out, &[self.type_number]);
        put_bytes(out, &self.payload);
        put_words(out, &[self.cells as u32]);
    }

    fn answer(&self, text: &mut String) {
        let mut sheet = vec![CELL_FILL; self.cells];
        let (ours, theirs) = (&self.ours, &self.theirs);
        let read = read_beside(ours, theirs, self.type_number, &self.payload, &mut sheet);
        let (number, place, reading) = outcome(read, Reading::default());
        let mut numbers = vec![number, place];
        numbers.extend(reading_numbers(reading));
        numbers.push(sheet_sum(&sheet));
        line(text, &numbers);
    }
}
