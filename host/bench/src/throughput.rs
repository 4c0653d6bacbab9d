//! Frames as a user meets them: a record listed, and many small frames.

use std::fmt::Write;
use std::hint::black_box;
use std::time::Instant;

use crate::lines::{Compared, Connections, Run, FAST, LIBRARY, REFERENCE};
use crate::measure::{by_turns, medians, side, Room};
use crate::samples;

/// A sheet of 4,096 rows, as a listing has it.
const SHEET: Room = Room {
    cells: 4 * 4_096,
    bytes: 0,
};

/// Frames with the side byte of each, which fill a record: calls that open and
/// complete, with a receipt each way.
fn frames_of_receipts() -> Vec<(u8, Vec<u8>)> {
    let receipt = samples::receipt().payload;
    let (mut frames, mut length) = (Vec::new(), 0);
    for call in 0.. {
        let (sent, answered) = (
            samples::frame(1, call, &receipt),
            samples::frame(6, call, &receipt),
        );
        length += 2 + sent.len() + answered.len();
        if length > arf::MAX_RECORD {
            break;
        }
        frames.extend([(b'C', sent), (b'S', answered)]);
    }
    frames
}

/// Judges frames on every side, from a fresh call table on.
fn compare<'a>(schema: &'a [u8], frames: &[(u8, Vec<u8>)]) -> Result<Connections<'a>, String> {
    let mut sides = Connections::new(schema, &[]);
    for (from, bytes) in frames {
        sides.receive(*from, bytes, Room::rows(20))?;
    }
    Ok(sides)
}

/// The numbers of an entry's line, of which the answer has number, place and
/// rows; and how many bytes its frame used.
struct Entry {
    answer: (u32, usize, usize),
    open: usize,
    used: usize,
}

/// The listing of a record, by one implementation's receive.
fn list(record: &[u8], mut receive: impl FnMut(u8, &[u8]) -> Entry) -> String {
    let mut text = String::from("frame side kind call answer place rows open\n");
    let (mut rest, mut number) = (record, 1);
    while let [side, bytes @ ..] = rest {
        let entry = receive(*side, bytes);
        let Some((kind, call)) = bytes.get(..25).filter(|_| entry.used > 0).map(|header| {
            let call = header[17..]
                .first_chunk()
                .map_or(0, |id| u64::from_le_bytes(*id));
            (header[3], call)
        }) else {
            break;
        };
        let side = *side as char;
        let Entry {
            answer: (answer, place, rows),
            open,
            used,
        } = entry;
        writeln!(
            text,
            "{number} {side} {kind} {call} {answer} {place} {rows} {open}"
        )
        .expect("a text takes every line");
        rest = &bytes[used..];
        number += 1;
    }
    text.push_str(&format!("stopped 0 left {}\n", rest.len()));
    text
}

fn list_by_library(schema: &[u8], record: &[u8], sheet: &mut [u32]) -> String {
    let mut table = arf::CallTable::fresh();
    let methods = arf::Schema::new(schema)
        .expect("the schema is good")
        .methods();
    let mut tallies = vec![arf::Tally::ZERO; methods.len()];
    list(record, |side, bytes| {
        let received = table.receive(schema, side, bytes, sheet, &mut tallies);
        let answer = match received.outcome {
            arf::Outcome::Accepted(reading) => (0, 0, reading.rows),
            arf::Outcome::More => (1, 0, 0),
            arf::Outcome::Refused(refusal) => (refusal.number, refusal.place, 0),
        };
        Entry {
            answer,
            open: received.open,
            used: received.used,
        }
    })
}

fn list_by_fast(schema: &[u8], record: &[u8], sheet: &mut [u32], methods: usize) -> String {
    let mut table = fast::CallTable::fresh();
    let mut tallies = vec![fast::Tally::default(); methods];
    list(record, |side, bytes| {
        let received = table.receive(schema, side, bytes, sheet, &mut tallies);
        let answer = match received.outcome {
            fast::Outcome::Accepted(reading) => (0, 0, reading.rows),
            fast::Outcome::More => (1, 0, 0),
            fast::Outcome::Refused(refusal) => (refusal.number, refusal.place, 0),
        };
        Entry {
            answer,
            open: received.open,
            used: received.used,
        }
    })
}

/// What a record's listing takes: its bytes and frames, and the nanoseconds by
/// the library and by `fast`.
pub struct Listed {
    pub bytes: usize,
    pub frames: usize,
    pub times: [f64; 2],
}

/// A record of the most bytes, listed through the host crate. The sheet is
/// cleared before each listing.
pub fn listed(run: Run) -> Compared<Listed> {
    let (schema, frames) = (&samples::receipt().schema[..], frames_of_receipts());
    compare(schema, &frames)?;
    let record = frames
        .iter()
        .flat_map(|(from, bytes)| [&[*from], &bytes[..]].concat());
    let record = &record.collect::<Vec<u8>>()[..];
    let methods = reference::tallies::fresh(schema).len();
    let library = |sheet: &mut [u32], _: &mut [u8]| {
        list_by_library(black_box(schema), black_box(record), sheet)
    };
    let quick = |sheet: &mut [u32], _: &mut [u8]| {
        list_by_fast(black_box(schema), black_box(record), sheet, methods)
    };
    let expected = reference::list(schema, record);
    let sheet = &mut vec![0; SHEET.cells];
    for (side, text) in [
        (LIBRARY, library(sheet, &mut [])),
        (FAST, quick(sheet, &mut [])),
    ] {
        if text != expected {
            return Err(format!("{side} and {REFERENCE} differ in the listing"));
        }
    }
    run.times(|| Listed {
        bytes: record.len(),
        frames: frames.len(),
        times: medians([side(SHEET, library), side(SHEET, quick)]),
    })
}

/// How many small frames are received in a round, and in how many rounds.
const FRAMES: usize = 50_000;
const ROUNDS: usize = 21;

/// Nanoseconds for a small frame, by the library and by `fast`: calls that open
/// and complete, with a payload of two bytes each way. The two take rounds by
/// turns, and the sheet is cleared before each.
pub fn received(run: Run) -> Compared<[f64; 2]> {
    let schema = &samples::table_of_methods(1)[..];
    let frames: Vec<(u8, Vec<u8>)> = (0..FRAMES as u64)
        .map(|number| match number % 2 {
            0 => (b'C', samples::frame_of([1, 2, 0], 1, number / 2, &[1, 7])),
            _ => (b'S', samples::frame_of([1, 2, 0], 6, number / 2, &[1, 7])),
        })
        .collect();
    let Connections {
        library: (mut ours, mut rows),
        fast: (mut quick, mut quick_rows),
        ..
    } = compare(schema, &frames)?;
    let sheet = &mut vec![0; SHEET.cells];
    let mut library = |sheet: &mut [u32]| {
        for (side, bytes) in &frames {
            let received = ours.receive(schema, *side, bytes, sheet, &mut rows);
            assert_eq!(received.used, bytes.len());
        }
    };
    let mut fast = |sheet: &mut [u32]| {
        for (side, bytes) in &frames {
            let received = quick.receive(schema, *side, bytes, sheet, &mut quick_rows);
            assert_eq!(received.used, bytes.len());
        }
    };
    run.times(|| {
        by_turns(ROUNDS, |side| {
            sheet.fill(0);
            let start = Instant::now();
            match side {
                0 => library(sheet),
                _ => fast(sheet),
            }
            start.elapsed().as_nanos() as f64 / FRAMES as f64
        })
    })
}
