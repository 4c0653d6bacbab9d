//! The answers of the static library to cases, in the words of the case file.

use reference::cases::{
    call_table_sum, line, sheet_sum, sum, tally_sum, BesideCase, Case, Event, ExtendsCase,
    ForwardCase, FrameCase, FrameWriteCase, HistoryCase, IndexCase, LookUpCase, ReadCase,
    ReceiveCase, ReleaseCase, RunCase, SalvageCase, ScalarCase, TableCase, ValueFrameCase,
    WriteCase, BYTE_FILL, CELL_FILL,
};

/// The codes of the entries that the library has.
pub const CODES: &[u8] = &[1, 2, 3, 4, 5, 6, 7, 8, 9, 10, 11, 15, 16, 17, 18, 19, 20];

/// How many cells or bytes before and after a lent buffer are watched.
const MARGIN: usize = 16;

/// Runs a case and adds its line, or lines, to the text.
pub fn answer(case: &Case, text: &mut String) {
    match case {
        Case::Table(case) => table(case, text),
        Case::Extends(case) => extends(case, text),
        Case::Read(case) => read(case, text),
        Case::Scalar(case) => scalar(case, text),
        Case::Write(case) => write(case, text),
        Case::Frame(case) => frame(case, text),
        Case::FrameWrite(case) => frame_write(case, text),
        Case::Run(case) => run(case, text),
        Case::Receive(case) => receive_one(case, text),
        Case::Release(case) => release_one(case, text),
        Case::History(case) => history(case, text),
        Case::Beside(case) => read_beside(case, text),
        Case::ValueFrame(case) => value_frame(case, text),
        Case::Forward(case) => forward(case, text),
        Case::Salvage(case) => salvage(case, text),
        Case::Index(case) => index(case, text),
        Case::LookUp(case) => look_up(case, text),
    }
}

/// Lends a filled buffer to a call, and gives what the call answers and the
/// buffer afterwards. What stands around the buffer must stay as it was.
fn lend<T: Copy + PartialEq, A>(
    fill: T,
    length: usize,
    call: impl FnOnce(&mut [T]) -> A,
) -> (A, Vec<T>) {
    let mut buffer = vec![fill; MARGIN + length + MARGIN];
    let answer = call(&mut buffer[MARGIN..MARGIN + length]);
    let after = buffer.split_off(MARGIN + length);
    let lent = buffer.split_off(MARGIN);
    let untouched = buffer.iter().chain(&after).all(|item| *item == fill);
    assert!(untouched, "memory beside the lent buffer was written");
    (answer, lent)
}

/// The number and place of a result, and its value, or the given one.
fn outcome<T>(result: Result<T, arf::Refusal>, refused: T) -> (u64, u64, T) {
    match result {
        Ok(value) => (0, 0, value),
        Err(refusal) => (refusal.number.into(), refusal.place as u64, refused),
    }
}

fn table(case: &TableCase, text: &mut String) {
    let (number, place, ()) = outcome(arf::check_table(&case.schema), ());
    line(text, &[number, place]);
}

fn extends(case: &ExtendsCase, text: &mut String) {
    let (number, place, yes) = outcome(arf::extends(&case.old, &case.new), false);
    line(text, &[number, place, yes.into()]);
}

fn reading_numbers(reading: arf::Reading) -> [u64; 4] {
    [
        reading.rows,
        reading.tail_place,
        reading.tail_length,
        reading.comparisons,
    ]
    .map(|number| number as u64)
}

fn read(case: &ReadCase, text: &mut String) {
    let (result, sheet) = lend(CELL_FILL, case.cells, |sheet| {
        arf::read(&case.schema, case.type_number, &case.payload, sheet)
    });
    reading(result, &sheet, text);
}

fn read_beside(case: &BesideCase, text: &mut String) {
    let (ours, theirs) = (&case.ours, &case.theirs);
    let (result, sheet) = lend(CELL_FILL, case.cells, |sheet| {
        arf::read_beside(ours, theirs, case.type_number, &case.payload, sheet)
    });
    reading(result, &sheet, text);
}

/// The line of a payload reader's answer.
fn reading(result: Result<arf::Reading, arf::Refusal>, sheet: &[u32], text: &mut String) {
    let (number, place, reading) = outcome(result, arf::Reading::default());
    let [rows, tail_place, tail_length, comparisons] = reading_numbers(reading);
    line(
        text,
        &[
            number,
            place,
            rows,
            tail_place,
            tail_length,
            comparisons,
            sheet_sum(sheet),
        ],
    );
}

/// A scalar's case and two numbers; the own bits of a NaN show as 0.
fn scalar_numbers(value: arf::Scalar) -> [u64; 3] {
    use arf::Scalar::*;
    match value {
        Truth(truth) => [1, truth.into(), 0],
        Signed(number) => [2, number as u64, 0],
        Unsigned(number) => [3, number, 0],
        Float32 { value, bits } if value.is_nan() => [4, bits.into(), 0],
        Float32 { value, bits } => [4, bits.into(), value.to_bits().into()],
        Float64 { value, bits } if value.is_nan() => [5, bits, 0],
        Float64 { value, bits } => [5, bits, value.to_bits()],
        Span { place, length } => [6, place as u64, length as u64],
    }
}

fn scalar(case: &ScalarCase, text: &mut String) {
    let [type_number, place, length, count] = case.row;
    let row = arf::Row {
        type_number,
        place,
        length,
        count,
    };
    let result = arf::scalar(&case.schema, row, &case.data).map(scalar_numbers);
    let (number, place, [which, a, b]) = outcome(result, [0; 3]);
    line(text, &[number, place, which, a, b]);
}

fn write(case: &WriteCase, text: &mut String) {
    let (result, out) = lend(BYTE_FILL, case.room, |out| {
        let (schema, sheet, data) = (&case.schema, &case.sheet, &case.data);
        arf::write(schema, case.type_number, sheet, data, out)
    });
    let (number, place, length) = outcome(result, 0);
    line(text, &[number, place, length as u64, sum(out)]);
}

fn forward(case: &ForwardCase, text: &mut String) {
    let (result, out) = lend(BYTE_FILL, case.room, |out| {
        let (schema, sheet, data) = (&case.schema, &case.sheet, &case.data);
        let (place, length) = (case.tail.place as usize, case.tail.length as usize);
        arf::forward(schema, case.type_number, sheet, data, place, length, out)
    });
    let (number, place, length) = outcome(result, 0);
    line(text, &[number, place, length as u64, sum(out)]);
}

fn frame(case: &FrameCase, text: &mut String) {
    let numbers = match arf::read_frame(&case.data) {
        Ok(arf::FrameRead::More) => [1, 0, 0, 0, 0, 0, 0, 0],
        Ok(arf::FrameRead::Whole {
            header,
            place,
            length,
        }) => [
            0,
            header.kind.into(),
            header.package.into(),
            header.service.into(),
            header.method.into(),
            header.correlation,
            place as u64,
            length as u64,
        ],
        Err(refusal) => [refusal.number.into(), 0, 0, 0, 0, 0, 0, 0],
    };
    line(text, &numbers);
}

fn header(header: &reference::Header) -> arf::Header {
    let [package, service, method] = header.identifiers;
    arf::Header {
        kind: header.kind,
        package,
        service,
        method,
        correlation: header.correlation,
    }
}

fn frame_write(case: &FrameWriteCase, text: &mut String) {
    let header = header(&case.header);
    let (result, out) = lend(BYTE_FILL, case.room, |out| {
        arf::write_frame(&header, &case.payload, out)
    });
    let (number, _, length) = outcome(result, 0);
    line(text, &[number, length as u64, sum(out)]);
}

fn value_frame(case: &ValueFrameCase, text: &mut String) {
    let header = header(&case.header);
    let (result, out) = lend(BYTE_FILL, case.room, |out| {
        let (schema, sheet, data) = (&case.schema, &case.sheet, &case.data);
        arf::write_value_frame(&header, schema, case.type_number, sheet, data, out)
    });
    let (number, place, length) = outcome(result, 0);
    line(text, &[number, place, length as u64, sum(out)]);
}

/// The calls and tallies of a connection.
struct Line {
    table: arf::CallTable,
    tallies: Vec<arf::Tally>,
}

/// A row that stands around the lent ones.
const TALLY_FILL: arf::Tally = arf::Tally {
    opened: CELL_FILL,
    completed: CELL_FILL,
    errored: CELL_FILL,
    cancelled: CELL_FILL,
    failed: CELL_FILL,
};

impl Line {
    /// A new connection; tallies only where the schema table is good.
    fn fresh(schema: &[u8]) -> Line {
        let methods = arf::Schema::new(schema).map_or(0, |schema| schema.methods().len());
        Line {
            table: arf::CallTable::fresh(),
            tallies: vec![arf::Tally::ZERO; methods],
        }
    }

    /// A connection with the records and tallies of the reference's.
    fn of(table: &reference::CallTable, tallies: &[reference::Tally]) -> Line {
        let tally = |row: &reference::Tally| arf::Tally {
            opened: row.opened,
            completed: row.completed,
            errored: row.errored,
            cancelled: row.cancelled,
            failed: row.failed,
        };
        Line {
            table: table_of(table),
            tallies: tallies.iter().map(tally).collect(),
        }
    }

    /// Lends the tallies to a call, with rows around them that must stay.
    fn with_tallies<A>(
        &mut self,
        call: impl FnOnce(&mut arf::CallTable, &mut [arf::Tally]) -> A,
    ) -> A {
        let (answer, tallies) = lend(TALLY_FILL, self.tallies.len(), |lent| {
            lent.copy_from_slice(&self.tallies);
            call(&mut self.table, lent)
        });
        self.tallies = tallies;
        answer
    }

    fn tally_sum(&self) -> u64 {
        let row = |row: &arf::Tally| reference::Tally {
            opened: row.opened,
            completed: row.completed,
            errored: row.errored,
            cancelled: row.cancelled,
            failed: row.failed,
        };
        let rows: Vec<reference::Tally> = self.tallies.iter().map(row).collect();
        tally_sum(&rows)
    }
}

/// One frame against a connection, with a newly filled sheet.
fn receive(line: &mut Line, schema: &[u8], cells: usize, (side, data): (u8, &[u8])) -> Vec<u64> {
    let (received, sheet) = lend(CELL_FILL, cells, |sheet| {
        line.with_tallies(|table, tallies| table.receive(schema, side, data, sheet, tallies))
    });
    let (number, place, reading) = match received.outcome {
        arf::Outcome::Accepted(reading) => (0, 0, reading),
        arf::Outcome::More => (1, 0, arf::Reading::default()),
        arf::Outcome::Refused(refusal) => outcome(Err(refusal), arf::Reading::default()),
    };
    let [rows, tail_place, tail_length, comparisons] = reading_numbers(reading);
    vec![
        number,
        place,
        received.used as u64,
        rows,
        tail_place,
        tail_length,
        received.open as u64,
        comparisons,
        sheet_sum(&sheet),
    ]
}

fn run(case: &RunCase, text: &mut String) {
    let mut calls = Line::fresh(&case.schema);
    for (side, data) in &case.frames {
        let mut numbers = receive(&mut calls, &case.schema, case.cells, (*side, data));
        numbers.push(calls.tally_sum());
        line(text, &numbers);
    }
}

fn receive_one(case: &ReceiveCase, text: &mut String) {
    let mut calls = Line::of(&case.table, &case.tallies);
    let sent = (case.side, &case.data[..]);
    let mut numbers = receive(&mut calls, &case.schema, case.cells, sent);
    numbers.extend([table_sum(&calls.table), calls.tally_sum()]);
    line(text, &numbers);
}

/// The library's table with the records of the reference's.
fn table_of(table: &reference::CallTable) -> arf::CallTable {
    arf::CallTable::from_calls(&table.slots.map(|call| arf::Call {
        open: call.open,
        correlation: call.correlation,
        method: call.method,
        response: call.response,
        input_closed: call.input_closed,
        output_closed: call.output_closed,
        cancelled: call.cancelled,
        input_elements: call.input_elements,
        output_elements: call.output_elements,
    }))
}

fn table_sum(table: &arf::CallTable) -> u64 {
    let slots = table.calls().map(|call| reference::Call {
        open: call.open,
        correlation: call.correlation,
        method: call.method,
        response: call.response,
        input_closed: call.input_closed,
        output_closed: call.output_closed,
        cancelled: call.cancelled,
        input_elements: call.input_elements,
        output_elements: call.output_elements,
    });
    call_table_sum(&reference::CallTable { slots })
}

/// One release: number, place, calls open.
fn release(line: &mut Line, schema: &[u8], correlation: u64) -> Vec<u64> {
    let released = line.with_tallies(|table, tallies| table.release(schema, correlation, tallies));
    let (number, place, ()) = outcome(released.outcome, ());
    vec![number, place, released.open as u64]
}

fn release_one(case: &ReleaseCase, text: &mut String) {
    let mut calls = Line::of(&case.table, &case.tallies);
    let mut numbers = release(&mut calls, &case.schema, case.correlation);
    numbers.extend([table_sum(&calls.table), calls.tally_sum()]);
    line(text, &numbers);
}

fn history(case: &HistoryCase, text: &mut String) {
    let mut calls = Line::fresh(&case.schema);
    for event in &case.events {
        let mut numbers = match event {
            Event::Frame((side, data)) => {
                receive(&mut calls, &case.schema, case.cells, (*side, data))
            }
            Event::Release(correlation) => release(&mut calls, &case.schema, *correlation),
        };
        numbers.push(calls.tally_sum());
        line(text, &numbers);
    }
}

fn salvage(case: &SalvageCase, text: &mut String) {
    let ((result, spans), copy) = lend(BYTE_FILL, case.room, |copy| {
        lend(CELL_FILL, case.cells, |spans| {
            arf::salvage(&case.record, copy, spans)
        })
    });
    let (number, place, salvaged) = outcome(result, arf::Salvaged::default());
    assert_eq!(place, 0, "a salvage's refusal has no place");
    let counts = [salvaged.entries, salvaged.bytes, salvaged.spans];
    let [entries, bytes, listed] = counts.map(|count| count as u64);
    let sums = [sum(copy), sheet_sum(&spans)];
    line(text, &[number, entries, bytes, listed, sums[0], sums[1]]);
}

fn index(case: &IndexCase, text: &mut String) {
    let (result, out) = lend(BYTE_FILL, case.room, |out| {
        arf::make_index(&case.schema, &case.record, out)
    });
    let (number, place, length) = outcome(result, 0);
    line(text, &[number, place, length as u64, sum(out)]);
}

fn look_up(case: &LookUpCase, text: &mut String) {
    let (found, out) = lend(BYTE_FILL, case.room, |out| {
        arf::look_up_text(&case.index, &case.record, case.correlation, out)
    });
    let (number, _, ()) = outcome(found.outcome, ());
    hold_entries(case, number, &out[..found.length]);
    line(text, &[number, found.length as u64, sum(out)]);
}

/// The iterator has to give what the text says; a text without room (52) says
/// nothing.
fn hold_entries(case: &LookUpCase, number: u64, text: &[u8]) {
    let entries = arf::look_up(&case.index, &case.record, case.correlation);
    let (stopped, lines) = match entries {
        Ok(entries) => {
            let lines = entries.map(|entry| format!("{} {}\n", entry.place, entry.answer));
            (0, lines.collect())
        }
        Err(refusal) => (refusal.number, String::new()),
    };
    let expected = format!("place answer\n{lines}stopped {stopped}\n");
    let same = (number, text) == (stopped.into(), expected.as_bytes());
    assert!(same || number == 52, "other entries than the text's");
}
