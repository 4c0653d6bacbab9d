//! The cases of whole records.

use super::entries::{outcome, Entry, BYTE_FILL, CELL_FILL};
use super::format::{line, put_bytes, put_words, sheet_sum, sum, Input, MAX_CELLS, MAX_OUTPUT};
use crate::index::{look_up, make_index};
use crate::refusal::Reason;
use crate::salvage::{salvage, Salvaged};

/// Code 17: the salvage of a record.
#[derive(Clone, Debug, PartialEq, Eq)]
pub struct SalvageCase {
    pub record: Vec<u8>,
    /// The bytes of the buffer for the copy.
    pub room: usize,
    /// The cells of the buffer for the list.
    pub cells: usize,
}

impl Entry for SalvageCase {
    fn take(input: &mut Input) -> Option<Self> {
        Some(SalvageCase {
            record: input.bytes()?,
            room: input.limited(MAX_OUTPUT)?,
            cells: input.limited(MAX_CELLS)?,
        })
    }

    fn put(&self, out: &mut Vec<u8>) {
        put_bytes(out, &self.record);
        put_words(out, &[self.room as u32, self.cells as u32]);
    }

    fn answer(&self, text: &mut String) {
        let mut copy = vec![BYTE_FILL; self.room];
        let mut list = vec![CELL_FILL; self.cells];
        let (number, salvaged) = match salvage(&self.record, &mut copy, &mut list) {
            Ok(salvaged) => (0, salvaged),
            Err(reason) => (reason.number(), Salvaged::default()),
        };
        let counts = [salvaged.kept, salvaged.copied, salvaged.spans];
        let [kept, copied, spans] = counts.map(|count| count as u64);
        let sums = [sum(copy), sheet_sum(&list)];
        line(
            text,
            &[number.into(), kept, copied, spans, sums[0], sums[1]],
        );
    }
}

/// Code 19: the index of a record.
#[derive(Clone, Debug, PartialEq, Eq)]
pub struct IndexCase {
    pub schema: Vec<u8>,
    pub record: Vec<u8>,
    pub room: usize,
}

impl Entry for IndexCase {
    fn take(input: &mut Input) -> Option<Self> {
        Some(IndexCase {
            schema: input.bytes()?,
            record: input.bytes()?,
            room: input.limited(MAX_OUTPUT)?,
        })
    }

    fn put(&self, out: &mut Vec<u8>) {
        put_bytes(out, &self.schema);
        put_bytes(out, &self.record);
        put_words(out, &[self.room as u32]);
    }

    fn answer(&self, text: &mut String) {
        let mut out = vec![BYTE_FILL; self.room];
        let result = make_index(&self.schema, &self.record, &mut out);
        let (number, place, length) = outcome(result, 0);
        line(text, &[number, place, length as u64, sum(out)]);
    }
}

/// Code 20: the text about one call, put into a buffer.
#[derive(Clone, Debug, PartialEq, Eq)]
pub struct LookUpCase {
    pub index: Vec<u8>,
    pub record: Vec<u8>,
    pub correlation: u64,
    pub room: usize,
}

impl Entry for LookUpCase {
    fn take(input: &mut Input) -> Option<Self> {
        Some(LookUpCase {
            index: input.bytes()?,
            record: input.bytes()?,
            correlation: input.u64()?,
            room: input.limited(MAX_OUTPUT)?,
        })
    }

    fn put(&self, out: &mut Vec<u8>) {
        put_bytes(out, &self.index);
        put_bytes(out, &self.record);
        out.extend(self.correlation.to_le_bytes());
        put_words(out, &[self.room as u32]);
    }

    fn answer(&self, text: &mut String) {
        let mut out = vec![BYTE_FILL; self.room];
        let (number, found) = look_up(&self.index, &self.record, self.correlation);
        let (number, length) = match out.get_mut(..found.len()) {
            Some(front) => {
                front.copy_from_slice(found.as_bytes());
                (number, found.len())
            }
            None => (Reason::OutputTooSmall.number(), 0),
        };
        line(text, &[number.into(), length as u64, sum(out)]);
    }
}
