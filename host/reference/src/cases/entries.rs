//! The cases of values, frames and calls: how each is taken from a file, put
//! into one, and answered.

use super::format::{
    call_table_sum, line, put_bytes, put_call_table, put_header, put_sheet, put_tallies, put_words,
    sheet_sum, sum, tally_sum, Input, Sent, MAX_CELLS, MAX_OUTPUT,
};
use crate::calls::CallTable;
use crate::frame::{read_frame, write_frame, FrameAnswer, Header};
use crate::refusal::Refusal;
use crate::scalar::Scalar;
use crate::tallies::{self, Tally};
use crate::{check_table, extends, read, scalar, write, Reading};

/// What each sheet cell and each output byte holds before a call.
pub const CELL_FILL: u32 = 2_779_096_485;
pub const BYTE_FILL: u8 = 165;

/// What every sort of case can do.
pub trait Entry {
    /// Takes the inputs that follow the code byte.
    fn take(input: &mut Input) -> Option<Self>
    where
        Self: Sized;

    /// Adds the inputs to a case file.
    fn put(&self, out: &mut Vec<u8>);

    /// Runs the entry and adds its line, or lines, to the text.
    fn answer(&self, text: &mut String);
}

/// The number and place of a result, and its value, or the given one.
pub(super) fn outcome<T>(result: Result<T, Refusal>, refused: T) -> (u64, u64, T) {
    match result {
        Ok(value) => (0, 0, value),
        Err(refusal) => (refusal.number().into(), refusal.place.into(), refused),
    }
}

/// Code 1: the table check.
#[derive(Clone, Debug, PartialEq, Eq)]
pub struct TableCase {
    pub schema: Vec<u8>,
}

impl Entry for TableCase {
    fn take(input: &mut Input) -> Option<Self> {
        let schema = input.bytes()?;
        Some(TableCase { schema })
    }

    fn put(&self, out: &mut Vec<u8>) {
        put_bytes(out, &self.schema);
    }

    fn answer(&self, text: &mut String) {
        let (number, place, ()) = outcome(check_table(&self.schema), ());
        line(text, &[number, place]);
    }
}

/// Code 2: whether one table extends another.
#[derive(Clone, Debug, PartialEq, Eq)]
pub struct ExtendsCase {
    pub old: Vec<u8>,
    pub new: Vec<u8>,
}

impl Entry for ExtendsCase {
    fn take(input: &mut Input) -> Option<Self> {
        let (old, new) = (input.bytes()?, input.bytes()?);
        Some(ExtendsCase { old, new })
    }

    fn put(&self, out: &mut Vec<u8>) {
        put_bytes(out, &self.old);
        put_bytes(out, &self.new);
    }

    fn answer(&self, text: &mut String) {
        let (number, place, yes) = outcome(extends(&self.old, &self.new), false);
        line(text, &[number, place, yes.into()]);
    }
}

/// Code 3: the payload reader.
#[derive(Clone, Debug, PartialEq, Eq)]
pub struct ReadCase {
    pub schema: Vec<u8>,
    pub type_number: u32,
    pub payload: Vec<u8>,
    pub cells: usize,
}

/// The numbers of a reading: rows, tail place, tail length, comparisons.
pub(super) fn reading_numbers(reading: Reading) -> [u64; 4] {
    [
        reading.rows,
        reading.tail_place,
        reading.tail_length,
        reading.comparisons,
    ]
    .map(|number| number as u64)
}

impl Entry for ReadCase {
    fn take(input: &mut Input) -> Option<Self> {
        Some(ReadCase {
            schema: input.bytes()?,
            type_number: input.u32()?,
            payload: input.bytes()?,
            cells: input.limited(MAX_CELLS)?,
        })
    }

    fn put(&self, out: &mut Vec<u8>) {
        put_bytes(out, &self.schema);
        put_words(out, &[self.type_number]);
        put_bytes(out, &self.payload);
        put_words(out, &[self.cells as u32]);
    }

    fn answer(&self, text: &mut String) {
        let mut sheet = vec![CELL_FILL; self.cells];
        let result = read(&self.schema, self.type_number, &self.payload, &mut sheet);
        let (number, place, reading) = outcome(result, Reading::default());
        let [rows, tail_place, tail_length, comparisons] = reading_numbers(reading);
        let numbers = [
            number,
            place,
            rows,
            tail_place,
            tail_length,
            comparisons,
            sheet_sum(&sheet),
        ];
        line(text, &numbers);
    }
}

/// Code 4: one scalar row over its bytes.
#[derive(Clone, Debug, PartialEq, Eq)]
pub struct ScalarCase {
    pub schema: Vec<u8>,
    pub row: [u32; 4],
    pub data: Vec<u8>,
}

/// A scalar's case number and its two numbers. The own bits of a NaN are not
/// fixed, so they show as 0.
fn scalar_numbers(value: Scalar) -> [u64; 3] {
    match value {
        Scalar::Truth(truth) => [1, truth.into(), 0],
        Scalar::Signed(number) => [2, number as u64, 0],
        Scalar::Unsigned(number) => [3, number, 0],
        Scalar::Float32 { value, bits } if value.is_nan() => [4, bits.into(), 0],
        Scalar::Float32 { value, bits } => [4, bits.into(), value.to_bits().into()],
        Scalar::Float64 { value, bits } if value.is_nan() => [5, bits, 0],
        Scalar::Float64 { value, bits } => [5, bits, value.to_bits()],
        Scalar::Span { place, length } => [6, place.into(), length.into()],
    }
}

impl Entry for ScalarCase {
    fn take(input: &mut Input) -> Option<Self> {
        Some(ScalarCase {
            schema: input.bytes()?,
            row: input.u32s()?,
            data: input.bytes()?,
        })
    }

    fn put(&self, out: &mut Vec<u8>) {
        put_bytes(out, &self.schema);
        put_words(out, &self.row);
        put_bytes(out, &self.data);
    }

    fn answer(&self, text: &mut String) {
        let result = scalar(&self.schema, self.row, &self.data);
        let (number, place, [case, a, b]) = outcome(result.map(scalar_numbers), [0; 3]);
        line(text, &[number, place, case, a, b]);
    }
}

/// Code 5: the payload writer.
#[derive(Clone, Debug, PartialEq, Eq)]
pub struct WriteCase {
    pub schema: Vec<u8>,
    pub type_number: u32,
    pub sheet: Vec<u32>,
    pub data: Vec<u8>,
    pub room: usize,
}

impl Entry for WriteCase {
    fn take(input: &mut Input) -> Option<Self> {
        Some(WriteCase {
            schema: input.bytes()?,
            type_number: input.u32()?,
            sheet: input.sheet()?,
            data: input.bytes()?,
            room: input.limited(MAX_OUTPUT)?,
        })
    }

    fn put(&self, out: &mut Vec<u8>) {
        put_bytes(out, &self.schema);
        put_words(out, &[self.type_number]);
        put_sheet(out, &self.sheet);
        put_bytes(out, &self.data);
        put_words(out, &[self.room as u32]);
    }

    fn answer(&self, text: &mut String) {
        let mut out = vec![BYTE_FILL; self.room];
        let (schema, sheet, data) = (&self.schema, &self.sheet, &self.data);
        let result = write(schema, self.type_number, sheet, data, &mut out);
        let (number, place, length) = outcome(result, 0);
        line(text, &[number, place, length as u64, sum(out)]);
    }
}

/// Code 6: the frame reader.
#[derive(Clone, Debug, PartialEq, Eq)]
pub struct FrameCase {
    pub data: Vec<u8>,
}

impl Entry for FrameCase {
    fn take(input: &mut Input) -> Option<Self> {
        let data = input.bytes()?;
        Some(FrameCase { data })
    }

    fn put(&self, out: &mut Vec<u8>) {
        put_bytes(out, &self.data);
    }

    fn answer(&self, text: &mut String) {
        let numbers = match read_frame(&self.data) {
            FrameAnswer::MoreNeeded => [1, 0, 0, 0, 0, 0, 0, 0],
            FrameAnswer::Refused(reason) => [reason.number().into(), 0, 0, 0, 0, 0, 0, 0],
            FrameAnswer::Whole(frame) => {
                let [package, service, method] = frame.header.identifiers.map(u64::from);
                [
                    0,
                    frame.header.kind.into(),
                    package,
                    service,
                    method,
                    frame.header.correlation,
                    frame.payload_place as u64,
                    frame.payload_length as u64,
                ]
            }
        };
        line(text, &numbers);
    }
}

/// Code 7: the frame writer.
#[derive(Clone, Debug, PartialEq, Eq)]
pub struct FrameWriteCase {
    pub header: Header,
    pub payload: Vec<u8>,
    pub room: usize,
}

impl Entry for FrameWriteCase {
    fn take(input: &mut Input) -> Option<Self> {
        Some(FrameWriteCase {
            header: input.header()?,
            payload: input.bytes()?,
            room: input.limited(MAX_OUTPUT)?,
        })
    }

    fn put(&self, out: &mut Vec<u8>) {
        put_header(out, &self.header);
        put_bytes(out, &self.payload);
        put_words(out, &[self.room as u32]);
    }

    fn answer(&self, text: &mut String) {
        let mut out = vec![BYTE_FILL; self.room];
        let (number, length) = match write_frame(&self.header, &self.payload, &mut out) {
            Ok(length) => (0, length as u64),
            Err(reason) => (reason.number().into(), 0),
        };
        line(text, &[number, length, sum(out)]);
    }
}

/// One frame against a call table and tallies, with a newly filled sheet.
pub fn receive(
    table: &mut CallTable,
    tallies: &mut [Tally],
    schema: &[u8],
    cells: usize,
    (side, bytes): (u8, &[u8]),
) -> Vec<u64> {
    let mut sheet = vec![CELL_FILL; cells];
    let received = table.receive(schema, tallies, side, bytes, &mut sheet);
    let [rows, tail_place, tail_length, comparisons] = reading_numbers(received.reading());
    vec![
        received.number().into(),
        received.place().into(),
        received.used as u64,
        rows,
        tail_place,
        tail_length,
        received.open as u64,
        comparisons,
        sheet_sum(&sheet),
    ]
}

/// Code 8: a run of frames from the fresh call table.
#[derive(Clone, Debug, PartialEq, Eq)]
pub struct RunCase {
    pub schema: Vec<u8>,
    pub cells: usize,
    pub frames: Vec<Sent>,
}

impl Entry for RunCase {
    fn take(input: &mut Input) -> Option<Self> {
        Some(RunCase {
            schema: input.bytes()?,
            cells: input.limited(MAX_CELLS)?,
            frames: input.frames()?,
        })
    }

    fn put(&self, out: &mut Vec<u8>) {
        put_bytes(out, &self.schema);
        put_words(out, &[self.cells as u32, self.frames.len() as u32]);
        for (side, data) in &self.frames {
            out.push(*side);
            put_bytes(out, data);
        }
    }

    fn answer(&self, text: &mut String) {
        let mut table = CallTable::fresh();
        let mut tallies = tallies::fresh(&self.schema);
        for (side, data) in &self.frames {
            let sent = (*side, &data[..]);
            let mut numbers = receive(&mut table, &mut tallies, &self.schema, self.cells, sent);
            numbers.push(tally_sum(&tallies));
            line(text, &numbers);
        }
    }
}

/// Code 9: one frame against any call table.
#[derive(Clone, Debug, PartialEq, Eq)]
pub struct ReceiveCase {
    pub schema: Vec<u8>,
    pub cells: usize,
    pub table: Box<CallTable>,
    pub tallies: Vec<Tally>,
    pub side: u8,
    pub data: Vec<u8>,
}

impl Entry for ReceiveCase {
    fn take(input: &mut Input) -> Option<Self> {
        Some(ReceiveCase {
            schema: input.bytes()?,
            cells: input.limited(MAX_CELLS)?,
            table: input.call_table()?,
            tallies: input.tallies()?,
            side: input.u8()?,
            data: input.bytes()?,
        })
    }

    fn put(&self, out: &mut Vec<u8>) {
        put_bytes(out, &self.schema);
        put_words(out, &[self.cells as u32]);
        put_call_table(out, &self.table);
        put_tallies(out, &self.tallies);
        out.push(self.side);
        put_bytes(out, &self.data);
    }

    fn answer(&self, text: &mut String) {
        let mut table = self.table.clone();
        let mut tallies = self.tallies.clone();
        let sent = (self.side, &self.data[..]);
        let mut numbers = receive(&mut table, &mut tallies, &self.schema, self.cells, sent);
        numbers.extend([call_table_sum(&table), tally_sum(&tallies)]);
        line(text, &numbers);
    }
}
