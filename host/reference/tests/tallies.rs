//! Stream elements counted in each record, and the tallies of each method.

mod common;

use std::collections::BTreeMap;

use common::{all_forms, written, CELL};
use reference::cases::{Case, Event};
use reference::frame::Kind;
use reference::generate::table::Table;
use reference::generate::Generator;
use reference::tallies::{fresh, Figure};
use reference::{
    read_frame, Call, CallTable, FrameAnswer, Header, Outcome, Reason, Received, Schema, Tally,
};

fn frame(kind: Kind, form: u32, payload: &[u8]) -> Vec<u8> {
    let header = Header {
        kind: kind as u32,
        identifiers: [0, 0, form],
        correlation: 9,
    };
    written(&header, payload)
}

/// A connection under the table of all forms, with figures that tell the rows
/// apart.
#[derive(Clone)]
struct Line {
    schema: Vec<u8>,
    table: CallTable,
    tallies: Vec<Tally>,
}

/// The value of every type.
const VALUE: &[u8] = &[1, 7];

impl Line {
    fn new() -> Line {
        let row = |number: u32| Tally::from_figures([0, 1, 2, 3, 4].map(|place| number + place));
        Line {
            schema: all_forms(),
            table: CallTable::fresh(),
            tallies: (0..16).map(|number| row(100 * number)).collect(),
        }
    }

    /// A connection with call 9 of a form open, with the given record.
    fn with(call: Call) -> Line {
        let mut line = Line::new();
        line.table.slots[5] = Call {
            open: true,
            correlation: 9,
            ..call
        };
        line
    }

    fn of_form(method: u32) -> Line {
        Line::with(Call {
            method,
            ..Call::default()
        })
    }

    /// Sends a frame from its own side and checks what every answer must keep.
    fn receive(&mut self, kind: Kind, form: u32, payload: &[u8], cells: usize) -> Received {
        let before = self.clone();
        let bytes = frame(kind, form, payload);
        let mut sheet = vec![CELL; cells];
        let (schema, tallies) = (&self.schema, &mut self.tallies);
        let received = self
            .table
            .receive(schema, tallies, kind.side(), &bytes, &mut sheet);
        assert_eq!(received.open, self.table.open_count());
        let number = received.number();
        let used = matches!(number, 0 | 8..=14 | 16 | 20..=29 | 31);
        assert_eq!(received.used, if used { bytes.len() } else { 0 });
        if number != 0 {
            assert_eq!(sheet, vec![CELL; cells]);
            assert_eq!(received.reading().rows, 0);
        }
        if !matches!(number, 0 | 20..=29 | 31) {
            assert!(self.table == before.table && self.tallies == before.tallies);
        }
        for (row, (old, new)) in before.tallies.iter().zip(&self.tallies).enumerate() {
            assert!(old == new || row == form as usize);
        }
        received
    }

    /// The number for a frame of call 9, with room for its rows.
    fn send(&mut self, kind: Kind, form: u32, payload: &[u8]) -> u32 {
        self.receive(kind, form, payload, 8).number()
    }

    fn release(&mut self) -> u32 {
        let before = self.clone();
        let (schema, tallies) = (&self.schema, &mut self.tallies);
        let released = self.table.release(schema, tallies, 9);
        assert_eq!(released.open, self.table.open_count());
        assert_eq!(released.place(), 0);
        if released.number() != 0 {
            assert!(self.table == before.table && self.tallies == before.tallies);
        }
        released.number()
    }

    /// The figure of a method that is other than at the start, and must have
    /// risen by one; none where all are as they were.
    fn risen(&self, method: u32) -> Option<usize> {
        let start = Line::new().tallies;
        let mut risen = None;
        for (row, (old, new)) in start.iter().zip(&self.tallies).enumerate() {
            for (place, (old, new)) in old.figures().iter().zip(new.figures()).enumerate() {
                if *old != new {
                    assert_eq!((row, new, risen), (method as usize, old + 1, None));
                    risen = Some(place);
                }
            }
        }
        risen
    }

    fn set(&mut self, method: u32, figure: Figure, value: u32) {
        let tally = &mut self.tallies[method as usize];
        let mut figures = tally.figures();
        figures[figure as usize] = value;
        *tally = Tally::from_figures(figures);
    }
}

const OPENED: Option<usize> = Some(0);
const COMPLETED: Option<usize> = Some(1);
const ERRORED: Option<usize> = Some(2);
const CANCELLED: Option<usize> = Some(3);
const FAILED: Option<usize> = Some(4);

#[test]
fn numbers_of_the_refusals() {
    assert_eq!(Reason::ElementLimit.number(), 17);
    assert_eq!(Reason::TallyFull.number(), 18);
    assert_eq!(Reason::TallyRows.number(), 19);
}

/// A record of form 15 whose RESPONSE has come, with so many elements.
fn streaming(input_elements: u16, output_elements: u16) -> Call {
    Call {
        method: 15,
        response: true,
        input_elements,
        output_elements,
        ..Call::default()
    }
}

#[test]
fn elements_are_counted_each_way() {
    let mut line = Line::with(streaming(0, 0));
    let counts = |line: &Line| {
        let call = line.table.slots[5];
        (call.input_elements, call.output_elements)
    };
    assert_eq!(line.send(Kind::InStream, 15, VALUE), 0);
    assert_eq!(counts(&line), (1, 0));
    assert_eq!(line.send(Kind::OutStream, 15, VALUE), 0);
    assert_eq!(line.send(Kind::OutStream, 15, VALUE), 0);
    assert_eq!(counts(&line), (1, 2));
    // A frame that the sheet has no room for is none, nor is a close.
    let received = line.receive(Kind::InStream, 15, VALUE, 7);
    assert_eq!(received.number(), 30);
    assert_eq!(line.send(Kind::InClose, 15, &[]), 0);
    assert_eq!(line.send(Kind::InStream, 15, VALUE), 14);
    assert_eq!(counts(&line), (1, 2));
    // After a CANCEL nothing is counted.
    assert_eq!(line.send(Kind::Cancel, 15, &[]), 0);
    assert_eq!(line.send(Kind::OutStream, 15, VALUE), 16);
    assert_eq!(counts(&line), (1, 2));
    assert_eq!(line.risen(15), None);
    // RESPONSE and INVOKE are no elements; a new call starts from 0.
    assert_eq!(line.release(), 0);
    assert_eq!(line.send(Kind::Invoke, 15, VALUE), 0);
    assert_eq!(line.send(Kind::Response, 15, VALUE), 0);
    let call = line.table.slots[0];
    assert_eq!((call.input_elements, call.output_elements), (0, 0));
}

#[test]
fn the_limit_of_elements() {
    for kind in [Kind::InStream, Kind::OutStream] {
        let counts = |elements| match kind {
            Kind::InStream => streaming(elements, 3),
            _ => streaming(3, elements),
        };
        let mut line = Line::with(counts(65_533));
        assert_eq!(line.send(kind, 15, VALUE), 0);
        assert_eq!(line.send(kind, 15, VALUE), 0);
        let full = Line::with(counts(65_535));
        assert_eq!(line.table, full.table);
        let received = line.receive(kind, 15, VALUE, 8);
        assert_eq!(
            received.outcome,
            Outcome::Refused(Reason::ElementLimit.at(0))
        );
        // Before the payload, the rows and the tallies.
        line.set(15, Figure::Failed, u32::MAX);
        for payload in [VALUE, &[], &[0], &[9; 9]] {
            assert_eq!(line.receive(kind, 15, payload, 0).number(), 17);
        }
        // The other stream, and all else, goes on.
        let other = match kind {
            Kind::InStream => Kind::OutStream,
            _ => Kind::InStream,
        };
        assert_eq!(line.send(other, 15, VALUE), 0);
        assert_eq!(line.send(Kind::InClose, 15, &[]), 0);
        assert_eq!(line.send(Kind::OutClose, 15, &[]), 0);
        assert_eq!(line.table, CallTable::fresh());
    }
}

#[test]
fn a_whole_stream_from_a_fresh_start() {
    let schema = all_forms();
    let mut tallies = fresh(&schema);
    let mut table = CallTable::fresh();
    let mut sheet = [CELL; 8];
    let mut send = |kind: Kind, payload: &[u8]| {
        let bytes = frame(kind, 2, payload);
        let received = table.receive(&schema, &mut tallies, b'C', &bytes, &mut sheet);
        (received.number(), table.slots[0].input_elements)
    };
    assert_eq!(send(Kind::Invoke, &[]), (0, 0));
    for number in 1..=65_535 {
        assert_eq!(send(Kind::InStream, VALUE), (0, number));
    }
    assert_eq!(send(Kind::InStream, VALUE), (17, 65_535));
    assert_eq!(send(Kind::InClose, &[]), (0, 65_535));
}

#[test]
fn what_comes_before_the_limit_of_elements() {
    // The stream is closed, or RESPONSE has not come: 14.
    let closed = Call {
        input_closed: true,
        ..streaming(65_535, 0)
    };
    assert_eq!(Line::with(closed).send(Kind::InStream, 15, VALUE), 14);
    let early = Call {
        response: false,
        ..streaming(0, 65_535)
    };
    assert_eq!(Line::with(early).send(Kind::OutStream, 15, VALUE), 14);
    // The call is cancelled: 14 for the client, 16 for the server.
    let cancelled = Call {
        cancelled: true,
        ..streaming(65_535, 65_535)
    };
    assert_eq!(Line::with(cancelled).send(Kind::InStream, 15, VALUE), 14);
    assert_eq!(Line::with(cancelled).send(Kind::OutStream, 15, VALUE), 16);
    // Other identifiers: 12.
    let full = streaming(65_535, 65_535);
    assert_eq!(Line::with(full).send(Kind::InStream, 14, VALUE), 12);
}

#[test]
fn what_each_end_of_a_call_raises() {
    let after = |mut line: Line, kind, form, payload: &[u8], number| {
        assert_eq!(line.send(kind, form, payload), number);
        let open = line.table.open_count();
        (line.risen(form), open)
    };
    for form in 0..16u32 {
        let input: &[u8] = if form & 8 != 0 { VALUE } else { &[] };
        let output: &[u8] = if form & 4 != 0 { VALUE } else { &[] };
        let opened = after(Line::new(), Kind::Invoke, form, input, 0);
        assert_eq!(opened, (OPENED, 1));
        let open = || Line::of_form(form);
        let ends = form & 3 == 0;
        let expected = if ends { (COMPLETED, 0) } else { (None, 1) };
        assert_eq!(after(open(), Kind::Response, form, output, 0), expected);
        assert_eq!(after(open(), Kind::Error, form, b"why", 0), (ERRORED, 0));
        assert_eq!(after(open(), Kind::Cancel, form, &[], 0), (None, 1));
        assert_eq!(after(open(), Kind::Cancel, form, &[0], 29), (FAILED, 0));
        let bad = if form & 4 != 0 { 27 } else { 29 };
        let refused = after(open(), Kind::Response, form, &[1, 7, 7], bad);
        assert_eq!(refused, (FAILED, 0));
        // An INVOKE that is refused for its payload counts nowhere.
        let bad = if form & 8 != 0 { 27 } else { 29 };
        let refused = after(Line::new(), Kind::Invoke, form, &[1, 7, 7], bad);
        assert_eq!(refused, (None, 0));
        let cancelled = Call {
            method: form,
            cancelled: true,
            ..Call::default()
        };
        let late = after(Line::with(cancelled), Kind::Error, form, b"why", 0);
        assert_eq!(late, (CANCELLED, 0));
        let mut line = Line::with(cancelled);
        assert_eq!(line.release(), 0);
        assert_eq!((line.risen(form), line.table.open_count()), (CANCELLED, 0));
        let dropped = after(Line::with(cancelled), Kind::Response, form, output, 16);
        assert_eq!(dropped, (None, 1));
    }
}

#[test]
fn closes_that_complete_and_closes_that_fail() {
    for (kind, last) in [
        (
            Kind::InClose,
            Call {
                output_closed: true,
                ..streaming(0, 0)
            },
        ),
        (
            Kind::OutClose,
            Call {
                input_closed: true,
                ..streaming(0, 0)
            },
        ),
    ] {
        let mut line = Line::with(last);
        assert_eq!(line.send(kind, 15, &[]), 0);
        assert_eq!((line.risen(15), line.table.open_count()), (COMPLETED, 0));
        let mut line = Line::with(streaming(0, 0));
        assert_eq!(line.send(kind, 15, &[]), 0);
        assert_eq!((line.risen(15), line.table.open_count()), (None, 1));
        for call in [last, streaming(0, 0)] {
            let mut line = Line::with(call);
            assert_eq!(line.send(kind, 15, &[7]), 29);
            assert_eq!((line.risen(15), line.table.open_count()), (FAILED, 0));
        }
    }
}

/// A connection, a frame's kind, method and payload, the figure and the answer.
type Raise = (Line, Kind, u32, &'static [u8], Figure, u32);

/// Each way in which a tally rises.
fn rises() -> Vec<Raise> {
    let cancelled = Call {
        method: 12,
        cancelled: true,
        ..Call::default()
    };
    let last = Call {
        input_closed: true,
        ..streaming(3, 3)
    };
    let open = || Line::of_form(12);
    vec![
        (Line::new(), Kind::Invoke, 12, VALUE, Figure::Opened, 0),
        (open(), Kind::Response, 12, VALUE, Figure::Completed, 0),
        (open(), Kind::Error, 12, b"why", Figure::Errored, 0),
        (open(), Kind::Response, 12, &[1], Figure::Failed, 20),
        (open(), Kind::Cancel, 12, &[1], Figure::Failed, 29),
        (
            Line::with(cancelled),
            Kind::Error,
            12,
            b"why",
            Figure::Cancelled,
            0,
        ),
        (
            Line::with(last),
            Kind::OutClose,
            15,
            &[],
            Figure::Completed,
            0,
        ),
        (
            Line::with(last),
            Kind::OutStream,
            15,
            &[0],
            Figure::Failed,
            25,
        ),
    ]
}

const FIGURES: [Figure; 5] = [
    Figure::Opened,
    Figure::Completed,
    Figure::Errored,
    Figure::Cancelled,
    Figure::Failed,
];

#[test]
fn a_full_tally_refuses_with_18() {
    for (line, kind, form, payload, figure, number) in rises() {
        // One below the limit it rises; at the limit nothing changes.
        let mut near = line.clone();
        near.set(form, figure, u32::MAX - 1);
        assert_eq!(near.send(kind, form, payload), number);
        assert!(near.tallies[form as usize].is_full(figure));
        let mut full = line.clone();
        full.set(form, figure, u32::MAX);
        let received = full.receive(kind, form, payload, 8);
        assert_eq!(received.outcome, Outcome::Refused(Reason::TallyFull.at(0)));
        // Any other figure of the row, and any other row, does not matter.
        let mut others = line.clone();
        for row in 0..16 {
            for other in FIGURES {
                if (row, other) != (form, figure) {
                    others.set(row, other, u32::MAX);
                }
            }
        }
        assert_eq!(others.send(kind, form, payload), number);
    }
}

#[test]
fn what_comes_before_18() {
    let mut line = Line::new();
    for figure in FIGURES {
        line.set(12, figure, u32::MAX);
    }
    // An INVOKE with a bad payload keeps its number, and so does 30.
    assert_eq!(line.send(Kind::Invoke, 12, &[1]), 20);
    assert_eq!(line.send(Kind::Invoke, 12, &[0]), 25);
    assert_eq!(line.receive(Kind::Invoke, 12, VALUE, 7).number(), 30);
    assert_eq!(line.receive(Kind::Invoke, 12, VALUE, 8).number(), 18);
    let mut line = Line::of_form(12);
    for figure in FIGURES {
        line.set(12, figure, u32::MAX);
    }
    assert_eq!(line.receive(Kind::Response, 12, VALUE, 7).number(), 30);
    assert_eq!(line.receive(Kind::Response, 12, VALUE, 8).number(), 18);
    assert_eq!(line.receive(Kind::Response, 12, &[1], 0).number(), 18);
    assert_eq!(line.send(Kind::InStream, 12, &[]), 14);
    assert_eq!(line.send(Kind::Invoke, 12, VALUE), 10);
    assert_eq!(line.send(Kind::Response, 13, VALUE), 12);
    // CANCEL raises nothing; then its release and its ERROR are 18.
    assert_eq!(line.release(), 14);
    assert_eq!(line.send(Kind::Cancel, 12, &[]), 0);
    assert_eq!(line.send(Kind::Response, 12, &[1]), 16);
    assert_eq!(line.release(), 18);
    assert_eq!(line.send(Kind::Error, 12, b"why"), 18);
    line.set(12, Figure::Cancelled, u32::MAX - 1);
    assert_eq!(line.release(), 0);
    assert_eq!(line.release(), 11);
    assert!(line.tallies[12].is_full(Figure::Cancelled));
}

#[test]
fn a_wrong_number_of_tally_rows() {
    let cancelled = Call {
        method: 12,
        cancelled: true,
        ..Call::default()
    };
    for rows in [0, 1, 15, 17, 256] {
        let mut line = Line::with(cancelled);
        line.tallies.resize(rows, Tally::default());
        let before = line.tallies.clone();
        assert_eq!(line.release(), 19);
        let mut receive = |table: CallTable, schema: &[u8], bytes: &[u8]| {
            let mut table = table;
            let received = table.receive(schema, &mut line.tallies, b'S', bytes, &mut []);
            assert_eq!(received.used, 0);
            received.number()
        };
        // Before all that the frame shows, whole or not.
        let right = frame(Kind::Error, 12, b"why");
        for bytes in [&right[..], &right[..9], &[], &[0; 30], &right[1..]] {
            assert_eq!(receive(line.table, &line.schema, bytes), 19);
        }
        // After the table's refusals and 15.
        let mut bad = line.table;
        bad.slots[9].cancelled = true;
        assert_eq!(receive(bad, &line.schema, &right), 15);
        assert_eq!(receive(bad, &line.schema[1..], &right), 40);
        let released = bad.release(&line.schema, &mut line.tallies, 9);
        assert_eq!(released.number(), 15);
        assert_eq!(line.tallies, before);
    }
    // No method, no row.
    let empty = Table::default().bytes();
    let mut table = CallTable::fresh();
    let number = |table: &mut CallTable, tallies: &mut [Tally]| {
        table.receive(&empty, tallies, b'C', &[], &mut []).number()
    };
    assert_eq!(number(&mut table, &mut []), 1);
    assert_eq!(number(&mut table, &mut [Tally::default()]), 19);
    assert_eq!(table.release(&empty, &mut [], 9).number(), 11);
}

#[test]
fn fresh_tallies_have_a_row_for_each_method() {
    assert_eq!(fresh(&all_forms()), vec![Tally::default(); 16]);
    assert_eq!(fresh(&common::table_t()), vec![Tally::default(); 1]);
    assert_eq!(fresh(&Table::default().bytes()), vec![]);
    assert_eq!(fresh(&[]), vec![]);
}

/// What a call is, by the history alone: its method number, whether it is
/// cancelled, and the elements each way.
type Seen = BTreeMap<u64, (usize, bool, u16, u16)>;

/// The history of a connection as its answers tell it: the calls now open, and
/// the figures of each method.
struct History {
    open: Seen,
    figures: Vec<[u32; 5]>,
}

impl History {
    fn frame(&mut self, methods: &[[u32; 3]], header: &Header, number: u32, is_over: bool) {
        let call = header.correlation;
        let kind = Kind::from_number(header.kind).unwrap();
        if kind == Kind::Invoke {
            if number == 0 {
                let same = |entry: &[u32; 3]| *entry == header.identifiers;
                let method = methods.iter().position(same).unwrap();
                self.figures[method][0] += 1;
                assert_eq!(self.open.insert(call, (method, false, 0, 0)), None);
            }
            return;
        }
        let failed = matches!(number, 20..=29 | 31);
        if number != 0 && !failed {
            return;
        }
        let record = self.open.get_mut(&call).unwrap();
        let (method, cancelled) = (record.0, record.1);
        let place = match kind {
            _ if failed => 4,
            Kind::Error if cancelled => 3,
            Kind::Error => 2,
            _ if is_over => 1,
            _ => {
                record.1 |= kind == Kind::Cancel;
                record.2 += u16::from(kind == Kind::InStream);
                record.3 += u16::from(kind == Kind::OutStream);
                return;
            }
        };
        self.figures[method][place] += 1;
        self.open.remove(&call);
    }

    fn release(&mut self, call: u64, number: u32) {
        if number == 0 {
            let (method, cancelled, ..) = self.open.remove(&call).unwrap();
            assert!(cancelled);
            self.figures[method][3] += 1;
        }
    }

    /// The law, and that table and tallies are what the history says.
    fn check(&self, table: &CallTable, tallies: &[Tally]) {
        let figures: Vec<[u32; 5]> = tallies.iter().map(Tally::figures).collect();
        assert_eq!(figures, self.figures);
        let record = |call: &Call| {
            let elements = (call.input_elements, call.output_elements);
            let method = call.method as usize;
            let record = (method, call.cancelled, elements.0, elements.1);
            (call.correlation, record)
        };
        let open = table.slots.iter().filter(|call| call.open);
        assert_eq!(open.map(record).collect::<Seen>(), self.open);
        for (method, [opened, ended @ ..]) in figures.iter().enumerate() {
            let of_method = |record: &&(usize, bool, u16, u16)| record.0 == method;
            let open = self.open.values().filter(of_method).count() as u32;
            assert_eq!(*opened, ended.iter().sum::<u32>() + open);
        }
    }
}

/// The identifiers of the methods of a schema table, none of a faulty one.
fn methods(schema: &[u8]) -> Vec<[u32; 3]> {
    let schema = Schema::check(schema).map(|schema| schema.methods().collect::<Vec<_>>());
    let methods = schema.unwrap_or_default().into_iter();
    methods.map(|method| method.identifiers).collect()
}

#[test]
fn opened_is_the_sum_of_the_others_and_the_open_calls() {
    let mut generator = Generator::new(41, &[8, 11]);
    let mut sums = [0; 5];
    let mut elements = 0;
    for _ in 0..3_000 {
        let (schema, cells, events) = match generator.case() {
            Some(Case::History(case)) => (case.schema, case.cells, case.events),
            Some(Case::Run(case)) => {
                let events = case.frames.into_iter().map(Event::Frame).collect();
                (case.schema, case.cells, events)
            }
            _ => panic!("no case"),
        };
        let methods = methods(&schema);
        let mut tallies = fresh(&schema);
        assert_eq!(tallies.len(), methods.len());
        let mut table = CallTable::fresh();
        let mut history = History {
            open: Seen::new(),
            figures: vec![[0; 5]; methods.len()],
        };
        for event in events {
            match event {
                Event::Release(call) => {
                    let released = table.release(&schema, &mut tallies, call);
                    history.release(call, released.number());
                }
                Event::Frame((side, bytes)) => {
                    let mut sheet = vec![CELL; cells];
                    let received = table.receive(&schema, &mut tallies, side, &bytes, &mut sheet);
                    let number = received.number();
                    assert!(!matches!(number, 17..=19));
                    if let FrameAnswer::Whole(frame) = read_frame(&bytes) {
                        let call = frame.header.correlation;
                        let is_over = table.find(call).is_none();
                        history.frame(&methods, &frame.header, number, is_over);
                    }
                }
            }
            history.check(&table, &tallies);
        }
        for figures in &history.figures {
            for (sum, figure) in sums.iter_mut().zip(figures) {
                *sum += figure;
            }
        }
        let counted = |record: &(usize, bool, u16, u16)| u32::from(record.2) + u32::from(record.3);
        elements += history.open.values().map(counted).sum::<u32>();
    }
    assert!(sums.iter().all(|&sum| sum > 300), "{sums:?}");
    assert!(elements > 500, "{elements}");
}

/// The counts and figures that the generated cases start from.
#[test]
fn counts_and_figures_near_their_limits_come_up() {
    let mut generator = Generator::new(42, &[9]);
    let mut answers = BTreeMap::new();
    let (mut raised, mut reached) = (0, 0);
    for _ in 0..3_000 {
        let Some(case @ Case::Receive(_)) = generator.case() else {
            panic!("no case");
        };
        let number = case.numbers()[0];
        *answers.entry(number).or_insert(0) += 1;
        let Case::Receive(case) = case else { continue };
        let mut table = case.table.clone();
        let mut tallies = case.tallies.clone();
        let mut sheet = vec![CELL; case.cells];
        table.receive(
            &case.schema,
            &mut tallies,
            case.side,
            &case.data,
            &mut sheet,
        );
        let full = |tallies: &[Tally]| {
            let figures = tallies.iter().flat_map(Tally::figures);
            figures.filter(|&figure| figure == u32::MAX).count()
        };
        raised += full(&tallies) - full(&case.tallies);
        let most = |table: &CallTable| {
            let full = |call: &&Call| call.input_elements.max(call.output_elements) == 65_535;
            table.slots.iter().filter(full).count()
        };
        reached += usize::from(most(&table) > most(&case.table));
    }
    assert!(raised > 30 && reached > 5, "{raised} {reached}");
    for number in 17..=19 {
        assert!(answers[&number] > 50, "{answers:?}");
    }
}
