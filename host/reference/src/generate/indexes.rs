//! Cases for the index of a record, and for the look-up of one call in it.

use super::frames::frame_bytes;
use super::line::{open, Line, Sent};
use super::listings::{longest_invokes, random, worked_example};
use super::rng::Rng;
use super::runs;
use super::table::Table;
use super::value::varuint;
use crate::cases::{Case, IndexCase, ListingCase, LookUpCase};
use crate::frame::{Header, Kind};
use crate::index::{look_up, make_index, trailer, Row, ROW};
use crate::listing::MAX_FILE;

/// Makes a run of frames.
pub type Run = fn(&mut Rng) -> Case;

/// An action of a run.
pub type Action = fn(&mut Rng, &Line) -> Option<Sent>;

/// A run as a record with its schema; sometimes cut, or with a byte changed.
fn record_of(rng: &mut Rng, case: Case) -> ListingCase {
    match case {
        Case::Run(run) => random(rng, run.schema, &run.frames),
        _ => worked_example(),
    }
}

/// The index of a record, whatever room is lent; none where it is refused.
fn index_of(schema: &[u8], record: &[u8]) -> Option<Vec<u8>> {
    let mut out = vec![0; record.len() + ROW];
    let length = make_index(schema, record, &mut out).ok()?;
    out.truncate(length);
    Some(out)
}

fn index_case(ListingCase { schema, record }: ListingCase, room: usize) -> Case {
    Case::Index(IndexCase {
        schema,
        record,
        room,
    })
}

/// A case with just enough room or a little more.
fn with_room(rng: &mut Rng, case: ListingCase) -> Case {
    let needed = index_of(&case.schema, &case.record).map_or(0, |index| index.len());
    index_case(case, needed + rng.pick(&[0, 0, 0, 1, 15, 40]))
}

/// The record of a run.
pub fn indexed(rng: &mut Rng, run: Run) -> Case {
    let case = run(rng);
    let case = record_of(rng, case);
    with_room(rng, case)
}

/// The record of a run in which one sort of frame comes up again and again.
pub fn indexed_with(rng: &mut Rng, action: Action) -> Case {
    let case = runs::run_with(rng, action);
    let case = record_of(rng, case);
    with_room(rng, case)
}

/// A record of few calls with many entries each: the calls take turns.
pub fn taking_turns(rng: &mut Rng) -> Case {
    let mut case = worked_example();
    let calls = [rng.bits(), rng.bits() >> 1, 1 << 63, u64::MAX, 0, 9];
    let calls = &calls[..rng.range(1, 6)];
    case.record = Vec::new();
    for _ in 0..rng.range(2, 14) {
        let kind = rng.pick(&[Kind::Invoke, Kind::Response, Kind::Cancel, Kind::Error]);
        let payload: &[u8] = match kind {
            Kind::Invoke => &[1, 7],
            Kind::Response => &[1, 1, 1, 0],
            _ => &[],
        };
        let header = Header {
            kind: kind as u32,
            identifiers: [1, 2, 3],
            correlation: rng.pick(calls),
        };
        let side = if rng.one_in(12) { b'C' } else { kind.side() };
        case.record.push(side);
        case.record.extend(frame_bytes(&header, payload));
    }
    with_room(rng, case)
}

/// A record that stops at a value of more than 4,096 rows (30).
pub fn stopped_at_30(rng: &mut Rng) -> Case {
    let mut case = worked_example();
    let elements = rng.pick(&[2_047, 2_048]);
    let payload = [vec![1], varuint(elements), [1, 7].repeat(elements as usize)].concat();
    for (kind, payload) in [
        (Kind::Invoke, &[1, 7][..]),
        (Kind::Response, &payload),
        (Kind::Invoke, &[1, 7]),
    ] {
        let header = Header {
            kind: kind as u32,
            identifiers: [1, 2, 3],
            correlation: 3,
        };
        case.record.push(kind.side());
        case.record.extend(frame_bytes(&header, payload));
    }
    with_room(rng, case)
}

/// A record of 65,536 bytes with as many entries as fit.
pub fn longest(rng: &mut Rng) -> Case {
    let mut case = worked_example();
    case.record = longest_invokes(rng);
    with_room(rng, case)
}

/// A record above 65,536 bytes (45), with room or without.
pub fn too_long(rng: &mut Rng) -> Case {
    let mut case = worked_example();
    let more = rng.pick(&[1, 1, 30, 4_000]);
    case.record.resize(MAX_FILE + more, b'C');
    index_case(case, rng.pick(&[0, 0, 16, 50_000]))
}

/// No entry at all: no record, one that stops at once, or a table of nothing.
pub fn no_rows(rng: &mut Rng) -> Case {
    let mut case = worked_example();
    match rng.below(4) {
        0 => case.record.clear(),
        1 => case.record[0] = b'X',
        2 => case.record.truncate(20),
        _ => {
            case.schema = Table::default().bytes();
            case.record.truncate(1);
        }
    }
    with_room(rng, case)
}

/// An index that there is no room for (52).
pub fn short_room(rng: &mut Rng) -> Case {
    let case = runs::run_good(rng);
    let case = record_of(rng, case);
    let needed = index_of(&case.schema, &case.record).map_or(0, |index| index.len());
    let missing = rng.pick(&[1, 1, 1, 15, 16, 17, 1_000]);
    index_case(case, needed.saturating_sub(missing))
}

/// A record under a table with a fault (40 to 44), seldom above 65,536 bytes.
pub fn bad_table(rng: &mut Rng, fault: fn(&mut Rng) -> Vec<u8>) -> Case {
    let line = Line::fresh(rng);
    let sent: Vec<Sent> = (0..2).filter_map(|_| open(rng, &line)).collect();
    let schema = fault(rng);
    let mut case = random(rng, schema, &sent);
    if rng.one_in(60) {
        case.record.resize(MAX_FILE + 1, b'C');
    }
    index_case(case, rng.pick(&[0, 16, 48, 100]))
}

/// An index in the making: its rows, the length of its record, and the bytes of
/// that record, which nobody reads.
pub struct Draft {
    rows: Vec<Row>,
    record: Vec<u8>,
}

impl Draft {
    fn bytes(&self) -> Vec<u8> {
        let mut bytes: Vec<u8> = self.rows.iter().flat_map(Row::bytes).collect();
        bytes.extend(trailer(self.rows.len(), self.record.len()));
        bytes
    }
}

fn correlation(rng: &mut Rng) -> u64 {
    match rng.below(6) {
        0 => rng.pick(&[0, 1, 255, 256, u32::MAX.into(), 1 << 32, 1 << 63, u64::MAX]),
        1 => rng.bits(),
        _ => rng.below(4) as u64,
    }
}

/// Rows that rise, of a few calls; places and answers need not make sense.
fn draft(rng: &mut Rng) -> Draft {
    let mut rows: Vec<Row> = (0..rng.below(10))
        .map(|_| Row {
            correlation: correlation(rng),
            place: match rng.one_in(6) {
                true => rng.word(),
                false => rng.below(300) as u32,
            },
            answer: match rng.one_in(8) {
                true => rng.word(),
                false => rng.below(32) as u32,
            },
        })
        .collect();
    rows.sort();
    rows.dedup_by_key(|row| (row.correlation, row.place));
    let length = rng.pick(&[0, 1, 27, 60, 300]);
    let record = rng.bytes(length);
    Draft { rows, record }
}

/// One of the calls of an index, or another.
fn call(rng: &mut Rng, rows: &[Row]) -> u64 {
    match rows.is_empty() || rng.one_in(5) {
        true => correlation(rng),
        false => rng.pick(rows).correlation,
    }
}

/// A look-up with just enough room or a little more.
fn look_up_case(rng: &mut Rng, index: Vec<u8>, record: Vec<u8>, correlation: u64) -> Case {
    let (_, text) = look_up(&index, &record, correlation);
    Case::LookUp(LookUpCase {
        index,
        record,
        correlation,
        room: text.len() + rng.pick(&[0, 0, 1, 30]),
    })
}

/// A look-up in the index that a record of a run has: of the call of a row, or
/// of a number that is none.
pub fn found(rng: &mut Rng) -> Case {
    loop {
        let case = runs::run_good(rng);
        let ListingCase { schema, record } = record_of(rng, case);
        if let Some(index) = index_of(&schema, &record) {
            let (numbers, _) = index.as_chunks::<8>();
            let correlation = u64::from_le_bytes(rng.pick(numbers));
            return look_up_case(rng, index, record, correlation);
        }
    }
}

/// A look-up in an index whose rows rise.
pub fn drafted(rng: &mut Rng) -> Case {
    let draft = draft(rng);
    let correlation = call(rng, &draft.rows);
    look_up_case(rng, draft.bytes(), draft.record, correlation)
}

/// A look-up in an index of a record of another length (66).
pub fn other_record(rng: &mut Rng) -> Case {
    let mut draft = draft(rng);
    let correlation = call(rng, &draft.rows);
    let index = draft.bytes();
    match rng.below(3) {
        0 => draft.record.push(b'C'),
        1 if !draft.record.is_empty() => drop(draft.record.pop()),
        _ => {
            let length = rng.pick(&[0, 16, 61, 300]);
            draft.record.resize(length, 0);
        }
    }
    look_up_case(rng, index, draft.record, correlation)
}

/// The two records above the limit of 65,536 bytes that a look-up may see: its
/// own, which is right, and another one.
pub fn long_record(rng: &mut Rng) -> Case {
    let mut draft = draft(rng);
    draft.record.resize(MAX_FILE + 1, b'C');
    let index = draft.bytes();
    if rng.one_in(3) {
        draft.record.truncate(1);
    }
    let correlation = call(rng, &draft.rows);
    look_up_case(rng, index, draft.record, correlation)
}

/// Changes one number of the trailer.
fn wrong_trailer(rng: &mut Rng, index: &mut [u8], rows: usize) {
    let rows = rows as u32;
    let (cell, number) = match rng.below(3) {
        0 => (0, rng.pick(&[1, 16, rows * 16, u32::MAX])),
        1 => {
            let wrong = [rows + 1, rows.wrapping_sub(1), rows + (1 << 28), u32::MAX];
            (1, rng.pick(&wrong))
        }
        _ => (3, rng.pick(&[0, 2, 256, u32::MAX])),
    };
    let at = index.len() - ROW + 4 * cell;
    index[at..at + 4].copy_from_slice(&number.to_le_bytes());
}

/// An index of a wrong shape (65), also for a record of another length.
pub fn wrong_shape(rng: &mut Rng) -> Case {
    let mut draft = draft(rng);
    let correlation = call(rng, &draft.rows);
    let mut index = draft.bytes();
    match rng.below(5) {
        0 => index.truncate(rng.below(index.len())),
        1 => index.extend(vec![0; rng.range(1, 16)]),
        2 => drop(index.drain(..rng.range(1, 16).min(index.len()))),
        _ => wrong_trailer(rng, &mut index, draft.rows.len()),
    }
    if rng.one_in(4) {
        draft.record.push(0);
    }
    look_up_case(rng, index, draft.record, correlation)
}

/// An index with two rows that do not rise (65).
pub fn wrong_order(rng: &mut Rng) -> Case {
    loop {
        let mut draft = draft(rng);
        if draft.rows.is_empty() {
            continue;
        }
        let correlation = call(rng, &draft.rows);
        let at = rng.below(draft.rows.len());
        let row = draft.rows[at];
        match rng.below(4) {
            0 if at > 0 => draft.rows.swap(at - 1, at),
            // The same call and place twice, the answer the same or higher.
            1 => draft.rows.insert(at + 1, row),
            2 => draft.rows.insert(
                at + 1,
                Row {
                    answer: row.answer.saturating_add(1),
                    ..row
                },
            ),
            // A call whose number would be lower if it had a sign.
            3 => draft.rows.insert(
                0,
                Row {
                    correlation: row.correlation | 1 << 63,
                    ..row
                },
            ),
            _ => continue,
        }
        if rng.one_in(4) {
            draft.record.push(0);
        }
        return look_up_case(rng, draft.bytes(), draft.record, correlation);
    }
}

/// A look-up whose text has no room (52), be it that of a refusal.
pub fn short_text(rng: &mut Rng, make: fn(&mut Rng) -> Case) -> Case {
    let mut case = make(rng);
    if let Case::LookUp(look_up_case) = &mut case {
        let LookUpCase {
            index,
            record,
            correlation,
            room,
        } = look_up_case;
        let (_, text) = look_up(index, record, *correlation);
        *room = text
            .len()
            .saturating_sub(rng.pick(&[1, 1, 1, 5, 10, 1_000]));
    }
    case
}
