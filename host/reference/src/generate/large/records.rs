//! Records of 65,536 bytes, or nearly: entries without a hole, as many holes as
//! there can be; their indexes, and indexes of thousands of rows.

use crate::cases::{Case, IndexCase, LookUpCase, SalvageCase};
use crate::frame::{frame_length, Header, Kind};
use crate::generate::frames::frame_bytes;
use crate::generate::listings::worked_example;
use crate::generate::rng::Rng;
use crate::index::{look_up, make_index, trailer, Row, ROW};
use crate::listing::MAX_FILE;

/// The bytes of the shortest entry.
const SHORTEST: usize = 27;

/// The most rows of an index that a case may have.
const MOST_ROWS: usize = 70_000 / ROW - 1;

fn entry(rng: &mut Rng, kind: Kind, correlation: u64, length: usize) -> Vec<u8> {
    let header = Header {
        kind: kind as u32,
        identifiers: [1, 2, 3],
        correlation,
    };
    let payload = match length {
        2 => vec![1, 7],
        _ => rng.bytes(length),
    };
    [vec![kind.side()], frame_bytes(&header, &payload)].concat()
}

/// An entry of one of a few calls, or of any.
fn any_entry(rng: &mut Rng, length: usize) -> Vec<u8> {
    let any = rng.bits();
    let correlation = rng.pick(&[0, 1, 2, 3, any >> 60, any, u64::MAX]);
    let kinds = [Kind::Invoke, Kind::Response, Kind::Cancel, Kind::Error];
    let kind = rng.pick(&kinds);
    entry(rng, kind, correlation, length)
}

/// A record of so many bytes, whole entries alone: short ones, or of all sizes.
fn entries(rng: &mut Rng, size: usize) -> Vec<u8> {
    let long = rng.one_in(2);
    let mut record = Vec::new();
    while record.len() < size {
        let left = size - record.len();
        let length = match long {
            true => rng.pick(&[0, 2, 16_384, 1_000]),
            false => rng.pick(&[0, 0, 2, 5]),
        };
        // After the entry there is room for another one, or none at all.
        let fits = |length: &usize| {
            let used = 1 + frame_length(*length);
            used == left || used + SHORTEST <= left
        };
        let mut lengths = [length, left - SHORTEST, 0].into_iter();
        record.extend(any_entry(rng, lengths.find(fits).unwrap_or(0)));
    }
    record
}

/// As many spans as there can be: a byte before each entry and at the end.
fn most_spans(rng: &mut Rng) -> Vec<u8> {
    let mut record = Vec::new();
    while record.len() + 1 + SHORTEST < MAX_FILE {
        record.push(rng.pick(b"CSX\0"));
        record.extend(any_entry(rng, 0));
    }
    record.resize(MAX_FILE, 0);
    record
}

fn salvage_case(record: Vec<u8>, room: usize, cells: usize) -> Case {
    Case::Salvage(SalvageCase {
        record,
        room,
        cells,
    })
}

/// A record without a hole, with just the room for its copy or a byte less (52).
pub fn salvage_whole(rng: &mut Rng) -> Case {
    let size = MAX_FILE - rng.pick(&[0, 0, 1]);
    let record = entries(rng, size);
    let room = record.len() - rng.pick(&[0, 0, 1]);
    salvage_case(record, room, rng.pick(&[0, 0, 1, 70_000]))
}

/// 2,341 spans, with just the cells for them or one less (53).
pub fn salvage_most_spans(rng: &mut Rng) -> Case {
    let record = most_spans(rng);
    let spans = MAX_FILE.div_ceil(1 + SHORTEST);
    let room = (spans - 1) * SHORTEST;
    let (room, cells) = rng.pick(&[(room, 2 * spans), (room, 2 * spans - 1), (room - 1, 0)]);
    salvage_case(record, room, cells)
}

/// A long record with a hole somewhere: bytes that miss, or that are changed.
pub fn salvage_torn(rng: &mut Rng) -> Case {
    let mut record = entries(rng, MAX_FILE);
    for _ in 0..rng.range(1, 40) {
        let at = rng.below(record.len() - 100);
        match rng.below(3) {
            0 => drop(record.drain(at..at + rng.range(1, 100))),
            1 => record[at] ^= 1 << rng.below(8),
            _ => record[at..at + 50].fill(0),
        }
    }
    salvage_case(record, MAX_FILE, 2 * 2_341)
}

/// The index of a record of thousands of entries, or of 65,535 or 65,537 bytes,
/// with just the room or a byte less (45, 52).
pub fn index(rng: &mut Rng) -> Case {
    let mut case = worked_example();
    let size = MAX_FILE - rng.pick(&[0, 0, 1, 30_000]);
    case.record = entries(rng, size);
    if rng.one_in(12) {
        case.record.resize(MAX_FILE + 1, b'C');
    }
    let mut out = vec![0; MAX_FILE];
    let needed = make_index(&case.schema, &case.record, &mut out).unwrap_or(0);
    Case::Index(IndexCase {
        schema: case.schema,
        record: case.record,
        room: needed.saturating_sub(rng.pick(&[0, 0, 0, 1])),
    })
}

/// Rows that rise, thousands of them, many of one call.
fn rows(rng: &mut Rng) -> Vec<Row> {
    let count = rng.pick(&[100, 1_000, 2_427, MOST_ROWS]);
    let calls = rng.pick(&[1, 2, 50, 3_000]);
    let mut rows: Vec<Row> = (0..count)
        .map(|index| Row {
            correlation: match rng.one_in(20) {
                true => u64::MAX - rng.below(3) as u64,
                false => rng.below(calls) as u64,
            },
            place: (SHORTEST * index) as u32,
            answer: rng.pick(&[0, 0, 0, 11, 16, 25]),
        })
        .collect();
    rows.sort();
    rows
}

/// Spoils the order or the shape of an index (65); nothing in some.
fn spoil(rng: &mut Rng, rows: &mut [Row], index: &mut Vec<u8>) {
    let last = rows.len() - 1;
    let any = rng.range(1, last);
    let at = rng.pick(&[last, last, 1, any]);
    let end = index.len() - ROW;
    match rng.below(8) {
        0 => rows.swap(at - 1, at),
        1 => {
            (rows[at].correlation, rows[at].place) = (rows[at - 1].correlation, rows[at - 1].place)
        }
        2 => drop(index.pop()),
        3 => drop(index.drain(..ROW)),
        4 => {
            let cell = rng.pick(&[0, 1, 3]);
            index[end + 4 * cell] ^= 1 << rng.below(8);
        }
        _ => return,
    }
    let rows: Vec<u8> = rows.iter().flat_map(Row::bytes).collect();
    if index.len() == rows.len() + ROW {
        index[..rows.len()].copy_from_slice(&rows);
    }
}

/// A look-up in an index of thousands of rows, right, spoilt (65) or of a record
/// of another length (66), with just the room or a byte less (52).
pub fn look_up_many(rng: &mut Rng) -> Case {
    let mut rows = rows(rng);
    let correlation = rng.pick(&rows).correlation;
    let length = rng.pick(&[0, 30, 500]);
    let mut index: Vec<u8> = rows.iter().flat_map(Row::bytes).collect();
    index.extend(trailer(rows.len(), length));
    spoil(rng, &mut rows, &mut index);
    let record = vec![b'C'; length + usize::from(rng.one_in(5))];
    let (_, text) = look_up(&index, &record, correlation);
    Case::LookUp(LookUpCase {
        index,
        record,
        correlation,
        room: text.len() - rng.pick(&[0, 0, 0, 1]),
    })
}
