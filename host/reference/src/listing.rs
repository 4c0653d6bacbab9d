//! The listing of a record: entries of a side byte, C or S, and a frame.

use std::fmt::Write;

use crate::calls::CallTable;
use crate::frame::{read_frame, FrameAnswer, Header};
use crate::receive::Received;
use crate::refusal::Reason;
use crate::schema::check_table;
use crate::tallies;

/// The most bytes a record or a schema file may have here.
pub const MAX_FILE: usize = 65_536;

/// The cells of the sheet: 4,096 rows.
const SHEET_CELLS: usize = 4 * 4_096;

const HEADING: &str = "frame side kind call answer place rows open\n";

/// The whole text for a schema file and a record.
pub fn list(schema: &[u8], record: &[u8]) -> String {
    let mut text = String::from(HEADING);
    let (number, left) = if schema.len() > MAX_FILE || record.len() > MAX_FILE {
        (Reason::RecordTooLong.number(), 0)
    } else if let Err(refusal) = check_table(schema) {
        (refusal.number(), record.len())
    } else {
        let mut number = 0u32;
        run(schema, record, |entry| {
            number += 1;
            line(&mut text, number, entry);
        })
    };
    add(&mut text, format_args!("stopped {number} left {left}\n"));
    text
}

/// An entry that has a line: its place in the record, and what it is.
pub(crate) struct Entry {
    pub(crate) place: usize,
    pub(crate) side: u8,
    pub(crate) header: Header,
    pub(crate) received: Received,
}

/// Runs a record from an empty call table until an entry stops it, and hands on
/// each entry that has a line. Gives the answer that stopped the run and the
/// bytes left from that entry on.
pub(crate) fn run(schema: &[u8], record: &[u8], mut each: impl FnMut(&Entry)) -> (u32, usize) {
    let mut table = CallTable::fresh();
    let mut tallies = tallies::fresh(schema);
    let mut sheet = vec![0; SHEET_CELLS];
    let mut rest = record;
    while let [side, bytes @ ..] = rest {
        let received = table.receive(schema, &mut tallies, *side, bytes, &mut sheet);
        let FrameAnswer::Whole(frame) = read_frame(bytes) else {
            return (received.number(), rest.len());
        };
        if received.used == 0 || !matches!(side, b'C' | b'S') {
            return (received.number(), rest.len());
        }
        each(&Entry {
            place: record.len() - rest.len(),
            side: *side,
            header: frame.header,
            received,
        });
        rest = &bytes[received.used..];
    }
    (0, 0)
}

/// The line of one entry.
fn line(text: &mut String, number: u32, entry: &Entry) {
    let received = &entry.received;
    add(
        text,
        format_args!(
            "{number} {} {} {} {} {} {} {}\n",
            char::from(entry.side),
            entry.header.kind,
            entry.header.correlation,
            received.number(),
            received.place(),
            received.reading().rows,
            received.open,
        ),
    );
}

/// Adds to a text; writing to a string cannot fail.
fn add(text: &mut String, arguments: std::fmt::Arguments) {
    let _ = text.write_fmt(arguments);
}
