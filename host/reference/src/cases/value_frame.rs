//! The case of code 15: the writer of a frame and its value at once.

use super::entries::{outcome, Entry, BYTE_FILL};
use super::format::{line, put_bytes, put_header, put_sheet, put_words, sum, Input, MAX_OUTPUT};
use crate::frame::Header;
use crate::write_value_frame;

/// Code 15: a header, and the sheet of the value behind it.
#[derive(Clone, Debug, PartialEq, Eq)]
pub struct ValueFrameCase {
    pub header: Header,
    pub schema: Vec<u8>,
    pub type_number: u32,
    pub sheet: Vec<u32>,
    pub data: Vec<u8>,
    pub room: usize,
}

impl Entry for ValueFrameCase {
    fn take(input: &mut Input) -> Option<Self> {
        Some(ValueFrameCase {
            header: input.header()?,
            schema: input.bytes()?,
            type_number: input.u32()?,
            sheet: input.sheet()?,
            data: input.bytes()?,
            room: input.limited(MAX_OUTPUT)?,
        })
    }

    fn put(&self, out: &mut Vec<u8>) {
        put_header(out, &self.header);
        put_bytes(out, &self.schema);
        put_words(out, &[self.type_number]);
        put_sheet(out, &self.sheet);
        put_bytes(out, &self.data);
        put_words(out, &[self.room as u32]);
    }

    fn answer(&self, text: &mut String) {
        let mut out = vec![BYTE_FILL; self.room];
        let (schema, sheet, data) = (&self.schema, &self.sheet, &self.data);
        let written = write_value_frame(
            &self.header,
            schema,
            self.type_number,
            sheet,
            data,
            &mut out,
        );
        let (number, place, length) = outcome(written, 0);
        line(text, &[number, place, length as u64, sum(out)]);
    }
}
