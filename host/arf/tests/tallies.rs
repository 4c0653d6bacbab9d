//! How many receipts a call has had, and what became of the calls of a method.

use arf::{Call, CallTable, Header, Outcome, Schema, Tally, MAX_ELEMENTS, SLOTS};

/// uint8, a struct with one such field, a method that takes and gives it, and
/// one that streams it both ways.
fn schema() -> Vec<u8> {
    let none = u32::MAX;
    let words = [
        [6, 0, 0, 16, 0, 1, 0, 0].as_slice(),
        &[1, 2, 3, 12, 1, 1, none, none],
        &[1, 2, 4, 3, none, none, 1, 1],
        &[24, 32, 96, 1],
    ]
    .concat();
    words.iter().flat_map(|word| word.to_le_bytes()).collect()
}

struct Line {
    schema: Vec<u8>,
    table: CallTable,
    tallies: Vec<Tally>,
}

impl Line {
    fn fresh() -> Line {
        let schema = schema();
        let methods = Schema::new(&schema).unwrap().methods().len();
        let tallies = vec![Tally::ZERO; methods];
        Line {
            schema,
            table: CallTable::fresh(),
            tallies,
        }
    }

    /// Sends a frame and gives the number of the answer and the bytes used.
    fn send(&mut self, kind: u32, method: u32, correlation: u64, payload: &[u8]) -> (u32, usize) {
        let header = Header {
            kind,
            package: 1,
            service: 2,
            method,
            correlation,
        };
        let mut frame = [0; 40];
        let length = arf::write_frame(&header, payload, &mut frame).unwrap();
        let side = if (4..=7).contains(&kind) { b'S' } else { b'C' };
        let (bytes, sheet) = (&frame[..length], &mut [0; 8]);
        let tallies = &mut self.tallies;
        let received = self
            .table
            .receive(&self.schema, side, bytes, sheet, tallies);
        self.add_up();
        let number = match received.outcome {
            Outcome::Accepted(_) => 0,
            Outcome::More => 1,
            Outcome::Refused(refusal) => refusal.number,
        };
        (number, received.used)
    }

    fn release(&mut self, correlation: u64) -> u32 {
        let released = self
            .table
            .release(&self.schema, correlation, &mut self.tallies);
        self.add_up();
        released
            .outcome
            .map_or_else(|refusal| refusal.number, |()| 0)
    }

    /// Opened is the other four and the calls of that method open now.
    fn add_up(&self) {
        for (method, row) in self.tallies.iter().enumerate() {
            let open = self.table.calls();
            let open = open
                .iter()
                .filter(|call| call.open && call.method as usize == method);
            assert_eq!(u64::from(row.opened), row.ended() + open.count() as u64);
        }
    }
}

const VALUE: &[u8] = &[0x01, 0x07];

#[test]
fn every_end_of_a_call_is_counted_once() {
    let mut line = Line::fresh();
    assert_eq!(line.tallies.len(), 2);
    for correlation in 0..5 {
        assert_eq!(line.send(1, 3, correlation, VALUE), (0, 28));
    }
    // An INVOKE refused for its payload counts nowhere.
    assert_eq!(line.send(1, 3, 9, &[0x00]), (25, 27));
    assert_eq!(line.send(6, 3, 0, VALUE), (0, 28));
    assert_eq!(line.send(7, 3, 1, b"busy"), (0, 30));
    assert_eq!(line.send(6, 3, 2, &[0x00]), (25, 27));
    // CANCEL counts at the ERROR after it, or at the release.
    assert_eq!(line.send(8, 3, 3, &[]), (0, 26));
    assert_eq!(line.send(8, 3, 4, &[]), (0, 26));
    assert_eq!(line.tallies[0].cancelled, 0);
    assert_eq!(line.send(6, 3, 3, VALUE), (16, 28));
    assert_eq!(line.send(7, 3, 3, &[]), (0, 26));
    assert_eq!(line.release(4), 0);
    let row = Tally {
        opened: 5,
        completed: 1,
        errored: 1,
        cancelled: 2,
        failed: 1,
    };
    assert_eq!(line.tallies, [row, Tally::default()]);
}

#[test]
fn a_call_counts_its_elements_up_to_the_limit() {
    let mut line = Line::fresh();
    line.send(1, 4, 7, &[]);
    line.send(6, 4, 7, &[]);
    for _ in 0..3 {
        assert_eq!(line.send(4, 4, 7, VALUE), (0, 28));
    }
    assert_eq!(line.send(2, 4, 7, VALUE), (0, 28));
    let call = line.table.calls()[0];
    assert_eq!((call.input_elements, call.output_elements), (1, 3));

    let mut calls = line.table.calls();
    calls[0].output_elements = MAX_ELEMENTS - 1;
    line.table = CallTable::from_calls(&calls);
    assert_eq!(line.send(4, 4, 7, VALUE), (0, 28));
    let full = line.table;
    // Before the payload is read, so also for one that is wrong.
    assert_eq!(line.send(4, 4, 7, VALUE), (17, 0));
    assert_eq!(line.send(4, 4, 7, &[]), (17, 0));
    assert_eq!(line.table, full);
    assert_eq!(line.send(2, 4, 7, VALUE), (0, 28));
    assert_eq!(line.send(8, 4, 7, &[]), (0, 26));
    assert_eq!(line.release(7), 0);
}

#[test]
fn a_full_tally_changes_nothing_until_it_is_taken_over() {
    let mut line = Line::fresh();
    let full = Tally {
        opened: u32::MAX,
        completed: u32::MAX,
        ..Tally::default()
    };
    line.tallies[0] = full;
    assert_eq!(line.send(1, 3, 1, VALUE), (18, 0));
    // What is wrong with the payload comes first, and needs no tally.
    assert_eq!(line.send(1, 3, 1, &[0x00]), (25, 27));
    assert_eq!(line.table, CallTable::fresh());
    assert_eq!(line.tallies[0].take_ended(), Some(full));
    assert_eq!(line.send(1, 3, 1, VALUE), (0, 28));
    assert_eq!((line.tallies[0].opened, line.tallies[0].ended()), (1, 0));
    let uneven = Tally {
        completed: 2,
        ..Tally::default()
    };
    let mut row = uneven;
    assert_eq!((row.take_ended(), row), (None, uneven));
}

#[test]
fn tally_rows_are_as_many_as_methods() {
    let schema = schema();
    let mut calls = [Call::default(); SLOTS];
    calls[0].open = true;
    for rows in [0, 1, 3] {
        let mut tallies = vec![Tally::default(); rows];
        let mut table = CallTable::from_calls(&calls);
        let received = table.receive(&schema, b'C', &[], &mut [], &mut tallies);
        let Outcome::Refused(refusal) = received.outcome else {
            panic!("{rows} rows are accepted");
        };
        assert_eq!((refusal.number, received.used, received.open), (19, 0, 1));
        let released = table.release(&schema, 0, &mut tallies);
        assert_eq!(released.outcome.unwrap_err().number, 19);
        assert_eq!(
            refusal.to_string(),
            "19 at 0: the number of tally rows is not that of the methods"
        );
    }
}
