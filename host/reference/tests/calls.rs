//! Frames against the call table.

mod common;

use common::{table_t, written, CELL, NO_TYPE};
use reference::calls::{Form, FORMS};
use reference::frame::Kind;
use reference::generate::table::Table;
use reference::{tallies, Call, CallTable, Header, Outcome, Reading, Reason, Received};
use Reason::*;

/// A table with a method 0, 0, form for each of the sixteen forms. Types 2 and
/// 3 are structs of one and of two bytes.
fn all_forms() -> Vec<u8> {
    let method = |form: u32| {
        let side = |bit: u32, number: u32| if form & bit != 0 { number } else { NO_TYPE };
        [
            0,
            0,
            form,
            form,
            side(8, 2),
            side(4, 3),
            side(2, 2),
            side(1, 3),
        ]
    };
    Table {
        types: vec![[6, 0, 0], [1, 0, 0], [16, 0, 1], [16, 1, 2]],
        fields: vec![[0, 0], [0, 0], [1, 1]],
        methods: (0..16).map(method).collect(),
    }
    .bytes()
}

fn frame(kind: Kind, identifiers: [u32; 3], correlation: u64, payload: &[u8]) -> Vec<u8> {
    let header = Header {
        kind: kind as u32,
        identifiers,
        correlation,
    };
    written(&header, payload)
}

/// A connection under the table of all forms.
struct Line {
    schema: Vec<u8>,
    table: CallTable,
}

impl Line {
    fn new() -> Line {
        Line {
            schema: all_forms(),
            table: CallTable::fresh(),
        }
    }

    /// Sends bytes and checks what every answer must keep.
    fn send(&mut self, side: u8, bytes: &[u8], cells: usize) -> Received {
        let before = self.table;
        let mut sheet = vec![CELL; cells];
        let mut tallies = tallies::fresh(&self.schema);
        let (schema, tallies) = (&self.schema, &mut tallies[..]);
        let received = self.table.receive(schema, tallies, side, bytes, &mut sheet);
        let rows = received.reading().rows;
        assert!(sheet[4 * rows..].iter().all(|&cell| cell == CELL));
        assert_eq!(received.open, self.table.open_count());
        let number = received.number();
        let uses = matches!(number, 0 | 8..=14 | 16 | 20..=29 | 31);
        assert_eq!(received.used > 0, uses, "{number}");
        if !matches!(number, 0 | 20..=29 | 31) {
            assert_eq!(self.table, before);
        }
        let changed = (0..128).filter(|&slot| self.table.slots[slot] != before.slots[slot]);
        assert!(changed.count() <= 1);
        received
    }

    /// The number for a frame of a form's method from its own side.
    fn kind(&mut self, form: u32, kind: Kind, payload: &[u8]) -> u32 {
        let bytes = frame(kind, [0, 0, form], 9, payload);
        let received = self.send(kind.side(), &bytes, 40);
        if received.used > 0 {
            assert_eq!(received.used, bytes.len());
        }
        received.number()
    }

    fn open(&mut self, form: u32) {
        let payload = payload(form, Kind::Invoke);
        assert_eq!(self.kind(form, Kind::Invoke, payload), 0);
    }
}

/// A right payload for a kind of a form.
fn payload(form: u32, kind: Kind) -> &'static [u8] {
    match kind {
        Kind::Invoke if form & 8 != 0 => &[1, 7],
        Kind::Response if form & 4 != 0 => &[3, 7, 1],
        Kind::InStream if form & 2 != 0 => &[1, 7],
        Kind::OutStream if form & 1 != 0 => &[1, 7],
        _ => &[],
    }
}

#[test]
fn forms_are_table_1() {
    for (number, form) in FORMS.iter().enumerate() {
        let (input, output) = (number & 2 != 0, number & 1 != 0);
        let expected = Form {
            in_stream: input,
            in_close: input,
            out_stream: output,
            out_close: output,
        };
        assert_eq!(*form, expected);
    }
}

/// A plain model of one call: RESPONSE seen, input closed, output closed.
type Marks = (bool, bool, bool);

/// Whether the model allows a kind, and the marks afterwards.
fn model(form: u32, (response, input, output): Marks, kind: Kind) -> Option<Marks> {
    let (has_input, has_output) = (form & 2 != 0, form & 1 != 0);
    let output_open = has_output && response && !output;
    match kind {
        Kind::InStream if has_input && !input => Some((response, input, output)),
        Kind::InClose if has_input && !input => Some((response, true, output)),
        Kind::OutStream if output_open => Some((response, input, output)),
        Kind::OutClose if output_open => Some((response, input, true)),
        Kind::Response if !response => Some((true, input, output)),
        _ => None,
    }
}

fn complete(form: u32, (response, input, output): Marks) -> bool {
    response && (input || form & 2 == 0) && (output || form & 1 == 0)
}

/// Tries every kind after every legal sequence of up to `left` more frames.
fn explore(form: u32, marks: Marks, line: &Line, left: usize) {
    let kinds = [
        Kind::InStream,
        Kind::InClose,
        Kind::OutStream,
        Kind::OutClose,
        Kind::Response,
    ];
    for kind in kinds {
        let mut next = Line {
            schema: line.schema.clone(),
            table: line.table,
        };
        let number = next.kind(form, kind, payload(form, kind));
        match model(form, marks, kind) {
            None => assert_eq!(number, 14),
            Some(after) => {
                assert_eq!(number, 0);
                let over = complete(form, after);
                assert_eq!(next.table.open_count(), usize::from(!over));
                if !over && left > 0 {
                    explore(form, after, &next, left - 1);
                }
            }
        }
    }
}

#[test]
fn every_order_of_every_form() {
    for form in 0..16 {
        let mut line = Line::new();
        line.open(form);
        explore(form, (false, false, false), &line, 4);
    }
}

#[test]
fn error_ends_at_once() {
    for form in 0..16 {
        for payload in [&b"why"[..], b""] {
            let mut line = Line::new();
            line.open(form);
            let bytes = frame(Kind::Error, [0, 0, form], 9, payload);
            let received = line.send(b'S', &bytes, 0);
            assert_eq!(received.outcome, Outcome::Accepted(Reading::default()));
            assert_eq!(line.table, CallTable::fresh());
            assert_eq!(line.kind(form, Kind::Error, payload), 11);
            line.open(form);
        }
    }
}

#[test]
fn readings_of_accepted_frames() {
    let mut line = Line::new();
    let bytes = frame(Kind::Invoke, [0, 0, 15], 9, &[0x81, 7, 5, 5]);
    let received = line.send(b'C', &bytes, 8);
    let reading = Reading {
        rows: 2,
        tail_place: 2,
        tail_length: 2,
        comparisons: 0,
    };
    assert_eq!(received.outcome, Outcome::Accepted(reading));
    let bytes = frame(Kind::Response, [0, 0, 15], 9, &[1, 7]);
    let received = line.send(b'S', &[&bytes[..], &bytes].concat(), 8);
    let reading = Reading {
        rows: 2,
        tail_place: 2,
        tail_length: 0,
        comparisons: 0,
    };
    assert_eq!(received.outcome, Outcome::Accepted(reading));
    assert_eq!(received.used, bytes.len());
    let bytes = frame(Kind::OutClose, [0, 0, 15], 9, &[]);
    let received = line.send(b'S', &bytes, 0);
    assert_eq!(received.outcome, Outcome::Accepted(Reading::default()));
}

#[test]
fn sides() {
    for number in 1..=8 {
        let kind = Kind::from_number(number).unwrap();
        let client = matches!(number, 1 | 2 | 3 | 8);
        assert_eq!(kind.side(), if client { b'C' } else { b'S' });
        for side in 0..=255 {
            let mut line = Line::new();
            let bytes = frame(kind, [9, 9, 9], 9, &[1, 2, 3]);
            let received = line.send(side, &bytes, 0);
            let own = side == kind.side();
            let expected = match (own, number) {
                (false, _) => 8,
                (true, 1) => 9,
                (true, _) => 11,
            };
            assert_eq!(received.number(), expected);
        }
    }
}

#[test]
fn order_of_refusals() {
    let mut line = Line::new();
    line.open(15);
    let invoke = |identifiers, correlation| frame(Kind::Invoke, identifiers, correlation, &[0]);
    assert_eq!(line.send(b'C', &invoke([1, 0, 0], 9), 0).number(), 9);
    assert_eq!(line.send(b'C', &invoke([0, 0, 15], 9), 0).number(), 10);
    assert_eq!(line.send(b'C', &invoke([0, 0, 15], 8), 0).number(), 25);
    let close = |identifiers, correlation| frame(Kind::OutClose, identifiers, correlation, &[0]);
    assert_eq!(line.send(b'S', &close([1, 0, 0], 8), 0).number(), 11);
    assert_eq!(line.send(b'S', &close([1, 0, 0], 9), 0).number(), 12);
    assert_eq!(line.send(b'S', &close([0, 0, 14], 9), 0).number(), 12);
    assert_eq!(line.send(b'S', &close([0, 0, 15], 9), 0).number(), 14);
    assert_eq!(line.kind(15, Kind::Response, &[1, 7]), 0);
    assert_eq!(line.send(b'S', &close([0, 0, 15], 9), 0).number(), 29);
    assert_eq!(line.table, CallTable::fresh());
}

#[test]
fn payload_refusals_end_the_call() {
    let bad: [(&[u8], Reason, u32); 6] = [
        (&[], ExceedsRemaining, 0),
        (&[1], ExceedsRemaining, 1),
        (&[0], RequiredFieldAbsent, 0),
        (&[3, 7, 2], NotABool, 2),
        (&[1, 7, 7], SurplusBytes, 2),
        (&[0x83, 7, 1], ExceedsRemaining, 3),
    ];
    for (payload, reason, place) in bad {
        let mut line = Line::new();
        line.open(15);
        let bytes = frame(Kind::Response, [0, 0, 15], 9, payload);
        let received = line.send(b'S', &bytes, 40);
        let expected = Outcome::Refused(reason.at(place as usize));
        assert_eq!((received.outcome, received.used), (expected, bytes.len()));
        assert_eq!((received.open, line.table), (0, CallTable::fresh()));
        let bytes = frame(
            Kind::Invoke,
            [0, 0, 15],
            9,
            &payload[..payload.len().min(1)],
        );
        if payload.len() < 2 {
            assert!(line.send(b'C', &bytes, 40).number() >= 20);
            assert_eq!(line.table, CallTable::fresh());
        }
    }
}

/// A struct with a map of uint8 to uint8 of so many pairs.
fn mapped(pairs: u8) -> Vec<u8> {
    let pairs: Vec<u8> = (0..pairs).flat_map(|key| [key, 0]).collect();
    [&[1, pairs.len() as u8 / 2], &pairs[..]].concat()
}

/// A connection with one method of form 15, whose four types have a map.
fn maps_line() -> Line {
    let schema = Table {
        types: vec![[6, 0, 0], [15, 0, 0], [16, 0, 1]],
        fields: vec![[1, 0]],
        methods: vec![[0, 0, 15, 15, 2, 2, 2, 2]],
    };
    Line {
        schema: schema.bytes(),
        table: CallTable::fresh(),
    }
}

#[test]
fn maps_of_65_pairs_end_the_call() {
    let send = |line: &mut Line, kind: Kind, pairs: u8| {
        let bytes = frame(kind, [0, 0, 15], 9, &mapped(pairs));
        let received = line.send(kind.side(), &bytes, 4 * 130);
        assert_eq!(received.used, bytes.len());
        received
    };
    let refused = Outcome::Refused(TooManyPairs.at(1));
    let mut line = maps_line();
    let received = send(&mut line, Kind::Invoke, 65);
    assert_eq!((received.outcome, received.open), (refused, 0));
    for kind in [Kind::InStream, Kind::Response, Kind::OutStream] {
        let received = send(&mut line, Kind::Invoke, 64);
        assert_eq!((received.number(), received.open), (0, 1));
        if kind == Kind::OutStream {
            assert_eq!(send(&mut line, Kind::Response, 63).number(), 0);
        }
        let received = send(&mut line, kind, 65);
        assert_eq!((received.outcome, received.open), (refused, 0));
        assert_eq!(received.reading(), Reading::default());
        assert_eq!(line.table, CallTable::fresh());
        assert_eq!(send(&mut line, kind, 64).number(), 11);
    }
}

#[test]
fn comparisons_of_frames() {
    let mut line = maps_line();
    let mut due = |kind: Kind, payload: &[u8], cells| {
        let bytes = frame(kind, [0, 0, 15], 9, payload);
        let received = line.send(kind.side(), &bytes, cells);
        (received.number(), received.reading().comparisons)
    };
    let most = 4 * 130;
    assert_eq!(due(Kind::Invoke, &mapped(65), 0), (31, 0));
    assert_eq!(due(Kind::Invoke, &mapped(64), most - 1), (30, 0));
    assert_eq!(due(Kind::Invoke, &mapped(64), most), (0, 2_016));
    assert_eq!(due(Kind::InStream, &mapped(0), most), (0, 0));
    assert_eq!(due(Kind::InStream, &mapped(2), most), (0, 1));
    assert_eq!(due(Kind::InStream, &mapped(10), most), (0, 45));
    assert_eq!(due(Kind::InStream, &mapped(64), most - 1), (30, 0));
    assert_eq!(due(Kind::InClose, &[], most), (0, 0));
    assert_eq!(due(Kind::InStream, &mapped(64), most), (14, 0));
    assert_eq!(due(Kind::Response, &mapped(63), most), (0, 1_953));
    assert_eq!(due(Kind::OutStream, &mapped(3), most), (0, 3));
    assert_eq!(due(Kind::Error, &mapped(64), most), (0, 0));
}

#[test]
fn payloads_where_none_belongs() {
    for kind in [Kind::InClose, Kind::Response, Kind::Cancel] {
        let mut line = Line::new();
        line.open(2);
        assert_eq!(line.kind(2, kind, &[1]), 29);
        assert_eq!(line.table, CallTable::fresh());
    }
    let mut line = Line::new();
    assert_eq!(line.kind(0, Kind::Invoke, &[1]), 29);
    assert_eq!(line.table, CallTable::fresh());
}

#[test]
fn a_small_sheet_changes_nothing() {
    let mut line = Line::new();
    let bytes = frame(Kind::Invoke, [0, 0, 15], 9, &[1, 7]);
    for cells in 0..8 {
        assert_eq!(line.send(b'C', &bytes, cells).number(), 30);
    }
    assert_eq!(line.send(b'C', &bytes, 8).number(), 0);
    let bytes = frame(Kind::Response, [0, 0, 15], 9, &[3, 7, 1]);
    assert_eq!(line.send(b'S', &bytes, 11).number(), 30);
    let bytes = frame(Kind::Response, [0, 0, 15], 9, &[3, 7, 2]);
    assert_eq!(line.send(b'S', &bytes, 0).number(), 22);
}

#[test]
fn calls_128_and_129() {
    let mut line = Line::new();
    let invoke = |correlation| frame(Kind::Invoke, [0, 0, 0], correlation, &[]);
    for correlation in 0..128 {
        let received = line.send(b'C', &invoke(correlation), 0);
        assert_eq!(
            (received.number(), received.open),
            (0, correlation as usize + 1)
        );
    }
    let received = line.send(b'C', &invoke(128), 0);
    assert_eq!((received.number(), received.open), (13, 128));
    assert_eq!(line.send(b'C', &invoke(5), 0).number(), 10);
    for correlation in [70, 30] {
        let cancel = frame(Kind::Cancel, [0, 0, 0], correlation, &[]);
        assert_eq!(line.send(b'C', &cancel, 0).number(), 0);
    }
    // A cancelled call still counts.
    assert_eq!(line.send(b'C', &invoke(1_000), 0).number(), 13);
    for correlation in [70, 30] {
        let error = frame(Kind::Error, [0, 0, 0], correlation, &[]);
        assert_eq!(line.send(b'S', &error, 0).number(), 0);
    }
    assert_eq!(line.send(b'C', &invoke(1_000), 0).open, 127);
    assert_eq!(line.table.slots[30].correlation, 1_000);
    assert_eq!(line.send(b'C', &invoke(70), 0).open, 128);
    assert_eq!(line.table.slots[70].correlation, 70);
}

#[test]
fn frame_faults_and_bad_tables() {
    let mut line = Line::new();
    let good = frame(Kind::Invoke, [0, 0, 0], 9, &[]);
    for (place, number) in [(0, 2), (2, 3), (3, 4), (4, 5)] {
        let mut bytes = good.clone();
        bytes[place] = 0xEE;
        assert_eq!(line.send(b'X', &bytes, 0).number(), number);
    }
    let malformed = [&good[..25], &[0xFF; 10]].concat();
    assert_eq!(line.send(b'X', &malformed, 0).number(), 6);
    let long = [&good[..25], &[0x81, 0x80, 1]].concat();
    assert_eq!(line.send(b'X', &long, 0).number(), 7);
    assert_eq!(line.send(b'X', &good[..20], 0).outcome, Outcome::MoreNeeded);
    line.open(15);
    for (schema, number) in [(vec![], 40), (table_t()[..139].to_vec(), 40)] {
        line.schema = schema;
        let received = line.send(b'C', &good, 0);
        assert_eq!((received.number(), received.open), (number, 1));
    }
    let mut bad = table_t();
    bad[48] = 15;
    line.schema = bad;
    let received = line.send(b'C', &good, 0);
    assert_eq!(received.outcome, Outcome::Refused(TypeRow.at(4)));
}

#[test]
fn call_tables_that_are_not_good() {
    let call = Call {
        open: true,
        correlation: 5,
        method: 3,
        ..Call::default()
    };
    let free = Call::default();
    let marks = |method, response, input_closed, output_closed| Call {
        method,
        response,
        input_closed,
        output_closed,
        ..call
    };
    let elements = |method, input_elements, output_elements| Call {
        method,
        input_elements,
        output_elements,
        ..call
    };
    let judge = |slots: &[(usize, Call)]| {
        let mut line = Line::new();
        for &(slot, call) in slots {
            line.table.slots[slot] = call;
        }
        line.send(b'C', &[0xEE; 30], 0).number()
    };
    assert_eq!(judge(&[(7, call)]), 2);
    let good = [
        marks(3, true, false, false),
        marks(3, false, true, false),
        marks(3, true, true, false),
        marks(3, true, false, true),
        marks(2, true, false, false),
        marks(1, true, false, false),
        marks(15, false, false, false),
        // Elements of the output before RESPONSE are no fault of a record.
        elements(1, 0, 65_535),
        elements(2, 65_535, 0),
        elements(3, 1, 1),
    ];
    let cancelled = |call: Call| Call {
        cancelled: true,
        ..call
    };
    for call in good {
        assert_eq!(judge(&[(0, call)]), 2, "{call:?}");
        assert_eq!(judge(&[(0, cancelled(call))]), 2, "{call:?}");
    }
    let bad = [
        Call {
            correlation: 1,
            ..free
        },
        Call { method: 1, ..free },
        Call {
            response: true,
            ..free
        },
        Call {
            input_closed: true,
            ..free
        },
        Call {
            output_closed: true,
            ..free
        },
        Call {
            cancelled: true,
            ..free
        },
        Call {
            input_elements: 1,
            ..free
        },
        Call {
            output_elements: 1,
            ..free
        },
        elements(0, 1, 0),
        elements(0, 0, 1),
        elements(1, 1, 0),
        elements(2, 0, 1),
        elements(2, 5, 65_535),
        marks(16, false, false, false),
        marks(u32::MAX, false, false, false),
        marks(1, false, true, false),
        marks(2, true, false, true),
        marks(3, false, false, true),
        marks(3, true, true, true),
        marks(2, true, true, false),
        marks(1, true, false, true),
        marks(0, true, false, false),
    ];
    for call in bad {
        assert_eq!(judge(&[(127, call)]), 15, "{call:?}");
        assert_eq!(judge(&[(127, cancelled(call))]), 15, "{call:?}");
    }
    assert_eq!(judge(&[(0, call), (127, call)]), 15);
    assert_eq!(judge(&[(0, call), (127, cancelled(call))]), 15);
    let other = Call {
        correlation: 6,
        ..call
    };
    assert_eq!(judge(&[(0, call), (127, other)]), 2);
}
