//! An index beside a record: where the entries of each call stand, and how each
//! was answered.
//!
//! An index is rows of 16 bytes and a trailer of as many. A row has the call's
//! correlation, the place of the entry's side byte, and the answer's number;
//! the trailer has the place of the first row, the number of rows, the length
//! of the record, and the layout number.

use std::fmt::Write;

use crate::listing::{run, MAX_FILE};
use crate::refusal::{Reason, Refusal};
use crate::schema::check_table;

/// The bytes of a row, and of the trailer.
pub const ROW: usize = 16;

/// Where the first row stands.
const FIRST: u32 = 0;

/// The layout number.
const LAYOUT: u32 = 1;

const HEADING: &str = "place answer\n";

/// A row. Rows rise by correlation and then by place.
#[derive(Clone, Copy, Debug, PartialEq, Eq, PartialOrd, Ord)]
pub struct Row {
    pub correlation: u64,
    pub place: u32,
    pub answer: u32,
}

impl Row {
    pub fn bytes(&self) -> [u8; ROW] {
        let mut bytes = [0; ROW];
        bytes[..8].copy_from_slice(&self.correlation.to_le_bytes());
        bytes[8..12].copy_from_slice(&self.place.to_le_bytes());
        bytes[12..].copy_from_slice(&self.answer.to_le_bytes());
        bytes
    }

    fn from_bytes(bytes: &[u8; ROW]) -> Row {
        let [low, high, place, answer] = words(bytes);
        Row {
            correlation: u64::from(low) | u64::from(high) << 32,
            place,
            answer,
        }
    }

    /// What no two rows may share, and what they rise by.
    const fn key(&self) -> (u64, u32) {
        (self.correlation, self.place)
    }
}

fn words(bytes: &[u8; ROW]) -> [u32; 4] {
    let (words, _) = bytes.as_chunks::<4>();
    std::array::from_fn(|index| u32::from_le_bytes(words[index]))
}

/// The trailer of an index of so many rows.
pub fn trailer(rows: usize, record: usize) -> [u8; ROW] {
    let words = [FIRST, rows as u32, record as u32, LAYOUT];
    let mut bytes = [0; ROW];
    for (four, word) in bytes.chunks_mut(4).zip(words) {
        four.copy_from_slice(&word.to_le_bytes());
    }
    bytes
}

/// Makes the index of a record: a row for each entry that the listing prints.
/// Gives its length.
pub fn make_index(schema: &[u8], record: &[u8], out: &mut [u8]) -> Result<usize, Refusal> {
    check_table(schema)?;
    if record.len() > MAX_FILE {
        return Err(Reason::RecordTooLong.at(0));
    }
    let mut rows = Vec::new();
    run(schema, record, |entry| {
        rows.push(Row {
            correlation: entry.header.correlation,
            place: entry.place as u32,
            answer: entry.received.number(),
        });
    });
    rows.sort_by_key(Row::key);
    let length = ROW * (rows.len() + 1);
    let out = out.get_mut(..length).ok_or(Reason::OutputTooSmall.at(0))?;
    let parts = rows.iter().map(Row::bytes);
    let parts = parts.chain([trailer(rows.len(), record.len())]);
    for (to, part) in out.chunks_mut(ROW).zip(parts) {
        to.copy_from_slice(&part);
    }
    Ok(length)
}

/// The rows of an index of a record.
fn rows(index: &[u8], record: &[u8]) -> Result<Vec<Row>, Reason> {
    let (parts, []) = index.as_chunks::<ROW>() else {
        return Err(Reason::IndexShape);
    };
    let (trailer, parts) = parts.split_last().ok_or(Reason::IndexShape)?;
    let [first, count, length, layout] = words(trailer);
    if first != FIRST || count as usize != parts.len() || layout != LAYOUT {
        return Err(Reason::IndexShape);
    }
    let rows: Vec<Row> = parts.iter().map(Row::from_bytes).collect();
    if !rows.is_sorted_by(|row, next| row.key() < next.key()) {
        return Err(Reason::IndexShape);
    }
    match length as usize == record.len() {
        true => Ok(rows),
        false => Err(Reason::OtherRecord),
    }
}

/// The text about one call, and the number that stands at its end: 0, or that
/// of a refusal.
pub fn look_up(index: &[u8], record: &[u8], correlation: u64) -> (u32, String) {
    let mut text = String::from(HEADING);
    let number = match rows(index, record) {
        Ok(rows) => {
            let of_call = rows.iter().filter(|row| row.correlation == correlation);
            for Row { place, answer, .. } in of_call {
                let _ = writeln!(text, "{place} {answer}");
            }
            0
        }
        Err(reason) => reason.number(),
    };
    let _ = writeln!(text, "stopped {number}");
    (number, text)
}
