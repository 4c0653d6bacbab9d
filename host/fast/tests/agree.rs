//! Random cases: every answer and every lent cell is as the reference has it.
//!
//! `AGREE_CASES` in the environment is the number of cases, and `AGREE_SEED`
//! the first of the numbers they are drawn from.

use reference::cases::{
    call_table_sum, line, sheet_sum, sum, tally_sum, Case, Event, BYTE_FILL, CELL_FILL,
};
use reference::generate::Generator;

/// The codes of the entries that this crate has, in the words of the case file.
const CODES: &[u8] = &[1, 3, 5, 6, 7, 8, 9, 10, 11];

fn from_environment(name: &str, default: u64) -> u64 {
    std::env::var(name).map_or(default, |word| word.parse().expect("a number"))
}

#[test]
fn agrees_with_the_reference() {
    let cases = from_environment("AGREE_CASES", 10_000);
    let seed = from_environment("AGREE_SEED", 2026);
    agree(Generator::new(seed, CODES), cases);
}

/// Full tables, payloads up to 16,384 bytes and whole histories of calls.
#[test]
fn agrees_on_large_cases() {
    let cases = from_environment("AGREE_CASES", 10_000) / 10;
    let seed = from_environment("AGREE_SEED", 2026);
    agree(Generator::large(seed, CODES), cases);
}

fn agree(mut generator: Generator, cases: u64) {
    for number in 1..=cases {
        let case = generator.case().expect("there are cases of these codes");
        let mut expected = String::new();
        case.answer(&mut expected);
        assert_eq!(
            answers(&case),
            expected,
            "case {number}, code {}",
            case.code()
        );
    }
}

/// Payloads by a table that extends theirs, or is extended by it.
#[test]
fn agrees_across_tables() {
    let cases = from_environment("AGREE_CASES", 10_000) / 10;
    agree(
        Generator::across(from_environment("AGREE_SEED", 2026)),
        cases,
    );
}

/// The lines of this crate.
fn answers(case: &Case) -> String {
    let mut text = String::new();
    match case {
        Case::Table(case) => {
            let (number, place) = refused(fast::check_table(&case.schema).err());
            line(&mut text, &[number, place]);
        }
        Case::Read(case) => {
            let mut sheet = vec![CELL_FILL; case.cells];
            let read = fast::read(&case.schema, case.type_number, &case.payload, &mut sheet);
            let (number, place) = refused(read.err());
            let [rows, tail_place, tail_length, due] = reading(read.unwrap_or_default());
            let sum = sheet_sum(&sheet);
            line(
                &mut text,
                &[number, place, rows, tail_place, tail_length, due, sum],
            );
        }
        Case::Write(case) => {
            let mut out = vec![BYTE_FILL; case.room];
            let (schema, sheet, data) = (&case.schema, &case.sheet, &case.data);
            let written = fast::write(schema, case.type_number, sheet, data, &mut out);
            let (number, place) = refused(written.err());
            line(
                &mut text,
                &[number, place, written.unwrap_or(0) as u64, sum(out)],
            );
        }
        Case::Frame(case) => {
            let numbers = match fast::read_frame(&case.data) {
                fast::FrameAnswer::More => [1, 0, 0, 0, 0, 0, 0, 0],
                fast::FrameAnswer::Refused(number) => [number.into(), 0, 0, 0, 0, 0, 0, 0],
                fast::FrameAnswer::Whole(frame) => {
                    let [package, service, method] = frame.identifiers.map(u64::from);
                    let (place, length) = (frame.place as u64, frame.length as u64);
                    let kind = frame.kind.into();
                    [
                        0,
                        kind,
                        package,
                        service,
                        method,
                        frame.correlation,
                        place,
                        length,
                    ]
                }
            };
            line(&mut text, &numbers);
        }
        Case::FrameWrite(case) => {
            let header = fast::Header {
                kind: case.header.kind,
                identifiers: case.header.identifiers,
                correlation: case.header.correlation,
            };
            let mut out = vec![BYTE_FILL; case.room];
            let written = fast::write_frame(&header, &case.payload, &mut out);
            let number = written.err().unwrap_or(0);
            line(
                &mut text,
                &[number.into(), written.unwrap_or(0) as u64, sum(out)],
            );
        }
        Case::Run(case) => {
            let mut line_state = Line::fresh(&case.schema, case.cells);
            for (side, data) in &case.frames {
                let mut numbers = line_state.receive(*side, data);
                numbers.push(line_state.tally_sum());
                line(&mut text, &numbers);
            }
        }
        Case::Receive(case) => {
            let (table, tallies) = (table_of(&case.table), tallies_of(&case.tallies));
            let mut line_state = Line {
                schema: &case.schema,
                cells: case.cells,
                table,
                tallies,
            };
            let mut numbers = line_state.receive(case.side, &case.data);
            numbers.extend([table_sum(&line_state.table), line_state.tally_sum()]);
            line(&mut text, &numbers);
        }
        Case::Release(case) => {
            let (table, tallies) = (table_of(&case.table), tallies_of(&case.tallies));
            let mut line_state = Line {
                schema: &case.schema,
                cells: 0,
                table,
                tallies,
            };
            let mut numbers = line_state.release(case.correlation);
            numbers.extend([table_sum(&line_state.table), line_state.tally_sum()]);
            line(&mut text, &numbers);
        }
        Case::History(case) => {
            let mut line_state = Line::fresh(&case.schema, case.cells);
            for event in &case.events {
                let mut numbers = match event {
                    Event::Frame((side, data)) => line_state.receive(*side, data),
                    Event::Release(correlation) => line_state.release(*correlation),
                };
                numbers.push(line_state.tally_sum());
                line(&mut text, &numbers);
            }
        }
        _ => panic!("no entry has this code"),
    }
    text
}

/// A refusal's number and place, or zeros.
fn refused(refusal: Option<fast::Refusal>) -> (u64, u64) {
    refusal.map_or((0, 0), |refusal| {
        (refusal.number.into(), refusal.place as u64)
    })
}

fn reading(reading: fast::Reading) -> [u64; 4] {
    let tail = (reading.tail_place, reading.tail_length);
    [reading.rows, tail.0, tail.1, reading.comparisons].map(|number| number as u64)
}

/// What the frames and releases of a case go through.
struct Line<'a> {
    schema: &'a [u8],
    cells: usize,
    table: fast::CallTable,
    tallies: Vec<fast::Tally>,
}

impl<'a> Line<'a> {
    fn fresh(schema: &'a [u8], cells: usize) -> Self {
        Line {
            schema,
            cells,
            table: fast::CallTable::fresh(),
            tallies: tallies_of(&reference::tallies::fresh(schema)),
        }
    }

    /// One frame, with a newly filled sheet.
    fn receive(&mut self, side: u8, data: &[u8]) -> Vec<u64> {
        let mut sheet = vec![CELL_FILL; self.cells];
        let tallies = &mut self.tallies;
        let received = self
            .table
            .receive(self.schema, side, data, &mut sheet, tallies);
        let (number, place, shown) = match received.outcome {
            fast::Outcome::Accepted(shown) => (0, 0, shown),
            fast::Outcome::More => (1, 0, fast::Reading::default()),
            fast::Outcome::Refused(refusal) => {
                let (number, place) = refused(Some(refusal));
                (number, place, fast::Reading::default())
            }
        };
        let [rows, tail_place, tail_length, due] = reading(shown);
        let (used, open) = (received.used as u64, received.open as u64);
        vec![
            number,
            place,
            used,
            rows,
            tail_place,
            tail_length,
            open,
            due,
            sheet_sum(&sheet),
        ]
    }

    fn release(&mut self, correlation: u64) -> Vec<u64> {
        let released = self
            .table
            .release(self.schema, correlation, &mut self.tallies);
        let (number, place) = refused(released.outcome.err());
        vec![number, place, released.open as u64]
    }

    fn tally_sum(&self) -> u64 {
        let rows = self.tallies.iter();
        let rows: Vec<_> = rows
            .map(|row| reference::tallies::Tally::from_figures(row.0))
            .collect();
        tally_sum(&rows)
    }
}

fn tallies_of(rows: &[reference::tallies::Tally]) -> Vec<fast::Tally> {
    let rows = rows.iter();
    rows.map(|row| fast::Tally(row.figures())).collect()
}

fn table_of(table: &reference::CallTable) -> fast::CallTable {
    fast::CallTable::from_calls(&table.slots.map(|call| fast::Call {
        open: call.open,
        correlation: call.correlation,
        method: call.method,
        response: call.response,
        input_closed: call.input_closed,
        output_closed: call.output_closed,
        cancelled: call.cancelled,
        input_elements: call.input_elements,
        output_elements: call.output_elements,
    }))
}

fn table_sum(table: &fast::CallTable) -> u64 {
    let slots = table.calls().map(|call| reference::Call {
        open: call.open,
        correlation: call.correlation,
        method: call.method,
        response: call.response,
        input_closed: call.input_closed,
        output_closed: call.output_closed,
        cancelled: call.cancelled,
        input_elements: call.input_elements,
        output_elements: call.output_elements,
    });
    call_table_sum(&reference::CallTable { slots })
}
