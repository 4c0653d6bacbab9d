//! Answers that cross a cancel: a cancelled call stays open until its ERROR or
//! its release.

mod common;

use common::{all_forms, table_t, written, CELL};
use reference::cases::{Case, Event};
use reference::frame::Kind;
use reference::generate::table::Table;
use reference::generate::Generator;
use reference::{
    list, read_frame, tallies, write_frame, Call, CallTable, FrameAnswer, Header, Outcome, Reading,
    Reason, Refusal, Schema,
};

fn frame(kind: Kind, form: u32, correlation: u64, payload: &[u8]) -> Vec<u8> {
    let header = Header {
        kind: kind as u32,
        identifiers: [0, 0, form],
        correlation,
    };
    written(&header, payload)
}

/// A right payload for a kind of a form.
fn payload(form: u32, kind: Kind) -> &'static [u8] {
    let bit = match kind {
        Kind::Invoke => 8,
        Kind::Response => 4,
        Kind::InStream => 2,
        Kind::OutStream => 1,
        _ => 0,
    };
    match form & bit {
        0 => &[],
        _ => &[1, 7],
    }
}

/// The calls of a connection under the table of all forms.
#[derive(Clone)]
struct Line {
    table: CallTable,
}

impl Line {
    /// Sends a frame from its own side and gives the answer's number.
    fn send(&mut self, kind: Kind, form: u32, correlation: u64, payload: &[u8]) -> u32 {
        let before = self.table;
        let bytes = frame(kind, form, correlation, payload);
        let mut sheet = [CELL; 8];
        let schema = all_forms();
        let mut tallies = tallies::fresh(&schema);
        let received = self
            .table
            .receive(&schema, &mut tallies, kind.side(), &bytes, &mut sheet);
        let number = received.number();
        assert_eq!(received.used, bytes.len());
        assert_eq!(received.open, self.table.open_count());
        if number == 16 {
            assert_eq!(received.outcome, Outcome::Refused(Reason::Dropped.at(0)));
            assert_eq!(
                (received.place(), received.reading()),
                (0, Reading::default())
            );
        }
        if !matches!(number, 0 | 20..=29) {
            assert_eq!((self.table, sheet), (before, [CELL; 8]));
        }
        assert!(self.table.is_good(&Schema::check(&schema).unwrap()));
        number
    }

    /// A frame of call 9 with a right payload.
    fn kind(&mut self, form: u32, kind: Kind) -> u32 {
        self.send(kind, form, 9, payload(form, kind))
    }

    fn release(&mut self, correlation: u64) -> (u32, usize) {
        let before = self.table;
        let schema = all_forms();
        let mut tallies = tallies::fresh(&schema);
        let released = self.table.release(&schema, &mut tallies, correlation);
        assert_eq!(released.place(), 0);
        assert_eq!(released.open, self.table.open_count());
        if released.number() != 0 {
            assert_eq!(self.table, before);
        }
        (released.number(), released.open)
    }

    fn opened(form: u32) -> Line {
        let mut line = Line {
            table: CallTable::fresh(),
        };
        assert_eq!(line.kind(form, Kind::Invoke), 0);
        line
    }
}

const CLIENT: [Kind; 3] = [Kind::InStream, Kind::InClose, Kind::Cancel];
const SERVER: [Kind; 3] = [Kind::OutStream, Kind::OutClose, Kind::Response];

/// What a cancelled call must do, whatever it saw before.
fn check_cancelled(form: u32, live: &Line) {
    let mut line = live.clone();
    assert_eq!(line.release(9), (14, 1));
    assert_eq!(line.kind(form, Kind::Cancel), 0);
    let record = live.table.slots[0];
    let cancelled = Call {
        cancelled: true,
        ..record
    };
    assert_eq!(line.table.slots[0], cancelled);
    for kind in SERVER {
        for bytes in [payload(form, kind), &[], &[0], &[1, 2, 3, 4]] {
            assert_eq!(line.send(kind, form, 9, bytes), 16, "{kind:?}");
        }
        assert_eq!(line.send(kind, form ^ 1, 9, &[]), 12);
        assert_eq!(line.send(kind, form, 8, &[]), 11);
    }
    for kind in CLIENT {
        for bytes in [payload(form, kind), &[], &[0]] {
            assert_eq!(line.send(kind, form, 9, bytes), 14, "{kind:?}");
        }
        assert_eq!(line.send(kind, form ^ 1, 9, &[]), 12);
        assert_eq!(line.send(kind, form, 8, &[]), 11);
    }
    assert_eq!(line.kind(form, Kind::Invoke), 10);
    assert_eq!(line.send(Kind::Invoke, form, 9, &[0, 0]), 10);
    assert_eq!(line.send(Kind::Invoke, 16, 9, &[]), 9);
    assert_eq!(line.send(Kind::Error, form ^ 1, 9, b"why"), 12);
    check_end(form, &line);
}

/// A cancelled call ends by its ERROR and by its release, and its identifier
/// is then free.
fn check_end(form: u32, cancelled: &Line) {
    for bytes in [&b""[..], b"why"] {
        let mut line = cancelled.clone();
        assert_eq!(line.send(Kind::Error, form, 9, bytes), 0);
        assert_eq!(line.table, CallTable::fresh());
        assert_eq!(line.kind(form, Kind::Error), 11);
        assert_eq!(line.release(9), (11, 0));
        assert_eq!(line.kind(form, Kind::Invoke), 0);
    }
    let mut line = cancelled.clone();
    assert_eq!(line.release(8), (11, 1));
    assert_eq!(line.release(9), (0, 0));
    assert_eq!(line.table, CallTable::fresh());
    assert_eq!(line.release(9), (11, 0));
    assert_eq!(line.kind(form, Kind::Response), 11);
    assert_eq!(line.kind(form, Kind::Invoke), 0);
}

/// Cancels after every legal sequence of up to `left` more frames.
fn explore(form: u32, line: &Line, left: usize) {
    check_cancelled(form, line);
    for kind in SERVER.into_iter().chain([Kind::InStream, Kind::InClose]) {
        let mut next = line.clone();
        if next.kind(form, kind) == 0 && next.table.open_count() > 0 && left > 0 {
            explore(form, &next, left - 1);
        }
    }
}

#[test]
fn a_cancelled_call_of_every_form_and_state() {
    for form in 0..16 {
        explore(form, &Line::opened(form), 3);
    }
}

#[test]
fn a_cancel_with_bytes_ends_the_call() {
    for form in 0..16 {
        let mut line = Line::opened(form);
        assert_eq!(line.send(Kind::Cancel, form, 9, &[0]), 29);
        assert_eq!(line.table, CallTable::fresh());
        assert_eq!(line.kind(form, Kind::Response), 11);
        assert_eq!(line.release(9), (11, 0));
        // A second CANCEL is 14, with bytes too.
        let mut line = Line::opened(form);
        assert_eq!(line.kind(form, Kind::Cancel), 0);
        assert_eq!(line.kind(form, Kind::Cancel), 14);
        assert_eq!(line.send(Kind::Cancel, form, 9, &[0]), 14);
    }
}

#[test]
fn what_comes_before_16() {
    let mut line = Line::opened(15);
    assert_eq!(line.kind(15, Kind::Cancel), 0);
    let schema = all_forms();
    let answer = |line: &mut Line, side: u8, bytes: &[u8]| {
        let mut tallies = tallies::fresh(&schema);
        let received = line
            .table
            .receive(&schema, &mut tallies, side, bytes, &mut []);
        (received.number(), received.used)
    };
    let right = frame(Kind::Response, 15, 9, &[1, 7]);
    assert_eq!(answer(&mut line, b'S', &right), (16, right.len()));
    // The bytes after it do not matter, and no row is needed.
    let more = [&right[..], &[9; 9]].concat();
    assert_eq!(answer(&mut line, b'S', &more), (16, right.len()));
    assert_eq!(answer(&mut line, b'C', &right), (8, right.len()));
    assert_eq!(answer(&mut line, b'X', &right), (8, right.len()));
    assert_eq!(answer(&mut line, b'S', &right[..right.len() - 1]), (1, 0));
    let mut malformed = right.clone();
    malformed.splice(25..26, [0x82, 0x00]);
    assert_eq!(answer(&mut line, b'S', &malformed), (6, 0));
    let mut long = right.clone();
    long.splice(25..26, [0x81, 0x80, 0x01]);
    assert_eq!(answer(&mut line, b'S', &long), (7, 0));
    // The longest payload is dropped unread.
    let longest = frame(Kind::OutStream, 15, 9, &vec![0xFF; 16_384]);
    assert_eq!(answer(&mut line, b'S', &longest), (16, longest.len()));
}

#[test]
fn cancelled_calls_count_for_128() {
    let mut line = Line {
        table: CallTable::fresh(),
    };
    for correlation in 0..128 {
        assert_eq!(line.send(Kind::Invoke, 0, correlation, &[]), 0);
        assert_eq!(line.send(Kind::Cancel, 0, correlation, &[]), 0);
    }
    assert_eq!(line.table.open_count(), 128);
    assert_eq!(line.send(Kind::Invoke, 0, 128, &[]), 13);
    assert_eq!(line.send(Kind::Invoke, 0, 70, &[]), 10);
    assert_eq!(line.release(70), (0, 127));
    assert_eq!(line.send(Kind::Invoke, 0, 128, &[]), 0);
    assert_eq!(line.table.slots[70].correlation, 128);
    assert_eq!(line.send(Kind::Error, 0, 30, &[]), 0);
    assert_eq!(line.send(Kind::Invoke, 0, 70, &[]), 0);
    assert_eq!(line.table.slots[30].correlation, 70);
}

#[test]
fn refusals_of_a_release_in_their_order() {
    let record = Call {
        open: true,
        correlation: 9,
        ..Call::default()
    };
    let cancelled = Call {
        cancelled: true,
        ..record
    };
    let release = |schema: &[u8], slots: &[Call]| {
        let mut table = CallTable::fresh();
        table.slots[..slots.len()].copy_from_slice(slots);
        let before = table;
        let released = table.release(schema, &mut tallies::fresh(schema), 9);
        let open = slots.iter().filter(|call| call.open).count();
        match released.result {
            Ok(()) => assert_eq!(released.open, open - 1),
            Err(_) => assert_eq!((released.open, table), (open, before)),
        }
        released.result
    };
    let refused = |reason: Reason, place| Err::<(), Refusal>(reason.at(place));
    let good = table_t();
    assert_eq!(release(&good, &[cancelled]), Ok(()));
    assert_eq!(release(&good, &[record]), refused(Reason::NotAllowedNow, 0));
    assert_eq!(release(&good, &[]), refused(Reason::CallNotOpen, 0));
    // 15 before all but the table's: a mark in a free slot, two calls alike.
    let free = Call {
        cancelled: true,
        ..Call::default()
    };
    for slots in [
        &[free][..],
        &[cancelled, free],
        &[record, free],
        &[cancelled, cancelled],
    ] {
        let expected = refused(Reason::CallTableNotGood, 0);
        assert_eq!(release(&good, slots), expected);
    }
    let complete = Call {
        response: true,
        ..cancelled
    };
    let expected = refused(Reason::CallTableNotGood, 0);
    assert_eq!(release(&good, &[complete]), expected);
    // The table's own refusals first, with their rows.
    let mut faults = vec![(good[..139].to_vec(), Reason::SchemaShape, 0)];
    let many = Table {
        types: vec![[1, 0, 0]; 257],
        ..Table::default()
    };
    faults.push((many.bytes(), Reason::TooManyRows, 0));
    for (at, reason, row) in [
        (48, Reason::TypeRow, 4),
        (76, Reason::FieldEntry, 2),
        (104, Reason::MethodEntry, 0),
    ] {
        let mut bad = good.clone();
        bad[at] = 77;
        faults.push((bad, reason, row));
    }
    for (schema, reason, row) in faults {
        for slots in [&[cancelled][..], &[record], &[], &[free]] {
            assert_eq!(release(&schema, slots), refused(reason, row));
        }
    }
}

/// An entry of a record about method 1, 2, 3 of table T.
fn entry(kind: Kind, correlation: u64, payload: &[u8]) -> Vec<u8> {
    let header = Header {
        kind: kind as u32,
        identifiers: [1, 2, 3],
        correlation,
    };
    let mut out = vec![0; 64];
    let length = write_frame(&header, payload, &mut out).unwrap();
    [&[kind.side()], &out[..length]].concat()
}

#[test]
fn a_listing_with_answers_that_cross() {
    let record = [
        entry(Kind::Invoke, 9, &[1, 7]),
        entry(Kind::Cancel, 9, &[]),
        entry(Kind::Response, 9, &[1, 1, 1, 0]),
        entry(Kind::Response, 9, &[1, 2, 5, 0, 5, 1, 7]),
        entry(Kind::OutStream, 9, &[]),
        entry(Kind::Invoke, 9, &[1, 7]),
        entry(Kind::Cancel, 9, &[0]),
        entry(Kind::Error, 9, b"late"),
        entry(Kind::Response, 9, &[1, 1, 1, 0]),
        entry(Kind::Invoke, 9, &[1, 7]),
        entry(Kind::Cancel, 9, &[0]),
        entry(Kind::Response, 9, &[1, 1, 1, 0]),
    ];
    let expected = "\
frame side kind call answer place rows open
1 C 1 9 0 0 2 1
2 C 8 9 0 0 0 1
3 S 6 9 16 0 0 1
4 S 6 9 16 0 0 1
5 S 4 9 16 0 0 1
6 C 1 9 10 0 0 1
7 C 8 9 14 0 0 1
8 S 7 9 0 0 0 0
9 S 6 9 11 0 0 0
10 C 1 9 0 0 2 1
11 C 8 9 29 0 0 0
12 S 6 9 11 0 0 0
stopped 0 left 0
";
    assert_eq!(list(&table_t(), &record.concat()), expected);
}

/// A model of a connection by its calls alone: the identifiers that are open,
/// and whether each is cancelled.
type Model = std::collections::BTreeMap<u64, bool>;

/// What a frame that was answered with a number does to the model.
fn follow(model: &mut Model, header: &Header, number: u32) {
    let call = header.correlation;
    let cancelled = model.get(&call).copied();
    let kind = Kind::from_number(header.kind).unwrap();
    match number {
        10 => assert!(cancelled.is_some() && kind == Kind::Invoke),
        11 => assert!(cancelled.is_none() && kind != Kind::Invoke),
        13 => assert_eq!(model.len(), 128),
        14 if cancelled == Some(true) => assert_eq!(kind.side(), b'C'),
        14 => assert_eq!(cancelled, Some(false)),
        16 => assert!(cancelled == Some(true) && kind.side() == b'S' && kind != Kind::Error),
        20..=29 | 31 => {
            assert!(cancelled != Some(true));
            model.remove(&call);
        }
        0 => match kind {
            Kind::Invoke => drop(model.insert(call, false)),
            Kind::Cancel => assert_eq!(model.insert(call, true), Some(false)),
            Kind::Error => assert!(model.remove(&call).is_some()),
            _ => assert_eq!(cancelled, Some(false)),
        },
        _ => {}
    }
}

#[test]
fn generated_histories_keep_a_plain_model() {
    let mut generator = Generator::new(31, &[11]);
    let mut seen = [0; 4];
    for _ in 0..1_500 {
        let Some(Case::History(case)) = generator.case() else {
            panic!("no case");
        };
        let mut table = CallTable::fresh();
        let mut tallies = tallies::fresh(&case.schema);
        let mut model = Model::new();
        for event in &case.events {
            match event {
                Event::Release(call) => {
                    let number = table.release(&case.schema, &mut tallies, *call).number();
                    let expected = match model.get(call) {
                        None => 11,
                        Some(false) => 14,
                        Some(true) => 0,
                    };
                    assert!(number == expected || number >= 40);
                    if number == 0 {
                        model.remove(call);
                        seen[0] += 1;
                    }
                }
                Event::Frame((side, bytes)) => {
                    let mut sheet = vec![CELL; case.cells];
                    let received =
                        table.receive(&case.schema, &mut tallies, *side, bytes, &mut sheet);
                    if let FrameAnswer::Whole(frame) = read_frame(bytes) {
                        let late = model.get(&frame.header.correlation) == Some(&true);
                        follow(&mut model, &frame.header, received.number());
                        seen[1] += usize::from(received.number() == 16);
                        seen[2] += usize::from(late && received.number() == 0);
                    }
                }
            }
            let open: Model = table
                .slots
                .iter()
                .filter(|call| call.open)
                .map(|call| (call.correlation, call.cancelled))
                .collect();
            // A call that RESPONSE or a close completed is no more open.
            model.retain(|call, _| open.contains_key(call));
            assert_eq!(open, model);
        }
        seen[3] += usize::from(!model.is_empty());
    }
    assert!(seen[0] > 200 && seen[1] > 400 && seen[2] > 100, "{seen:?}");
    assert!(seen[3] > 500, "{seen:?}");
}
