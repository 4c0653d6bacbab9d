//! The case of code 18: the forwarding write.

use super::entries::{outcome, Entry, BYTE_FILL};
use super::format::{line, put_bytes, put_sheet, put_words, sum, Input, MAX_OUTPUT};
use crate::{forward, Tail};

/// Code 18: a sheet and the tail of the payload that it was read from.
#[derive(Clone, Debug, PartialEq, Eq)]
pub struct ForwardCase {
    pub schema: Vec<u8>,
    pub type_number: u32,
    pub sheet: Vec<u32>,
    pub data: Vec<u8>,
    pub tail: Tail,
    pub room: usize,
}

impl Entry for ForwardCase {
    fn take(input: &mut Input) -> Option<Self> {
        Some(ForwardCase {
            schema: input.bytes()?,
            type_number: input.u32()?,
            sheet: input.sheet()?,
            data: input.bytes()?,
            tail: Tail {
                place: input.u32()?,
                length: input.u32()?,
            },
            room: input.limited(MAX_OUTPUT)?,
        })
    }

    fn put(&self, out: &mut Vec<u8>) {
        put_bytes(out, &self.schema);
        put_words(out, &[self.type_number]);
        put_sheet(out, &self.sheet);
        put_bytes(out, &self.data);
        put_words(out, &[self.tail.place, self.tail.length, self.room as u32]);
    }

    fn answer(&self, text: &mut String) {
        let mut out = vec![BYTE_FILL; self.room];
        let (schema, sheet, data) = (&self.schema, &self.sheet, &self.data);
        let written = forward(schema, self.type_number, sheet, data, self.tail, &mut out);
        let (number, place, length) = outcome(written, 0);
        line(text, &[number, place, length as u64, sum(out)]);
    }
}
