//! Cases for the writer of a frame and its value at once.

use super::frames::{random_header, random_kind_fault};
use super::rng::Rng;
use super::sheet::sized;
use super::sorts::writer_sheet;
use super::table::good_table;
use crate::cases::{Case, ValueFrameCase, WriteCase};
use crate::frame::{frame_length, Header};
use crate::schema::NO_TYPE;
use crate::{write, MAX_PAYLOAD};

/// The length of the frame, if the sheet is right.
fn whole(case: &WriteCase) -> Option<usize> {
    let mut out = vec![0; MAX_PAYLOAD];
    let (schema, sheet, data) = (&case.schema, &case.sheet, &case.data);
    let size = write(schema, case.type_number, sheet, data, &mut out).ok()?;
    Some(frame_length(size))
}

/// A room for a frame of so many bytes: exactly, with some to spare, or a few
/// too few.
fn room(rng: &mut Rng, length: usize) -> usize {
    match rng.below(8) {
        0..=3 => length,
        4..=6 => length + rng.range(1, 20),
        _ => length.saturating_sub(rng.range(1, 30)),
    }
}

fn behind(header: Header, sheet: WriteCase, room: usize) -> Case {
    Case::ValueFrame(ValueFrameCase {
        header,
        schema: sheet.schema,
        type_number: sheet.type_number,
        sheet: sheet.sheet,
        data: sheet.data,
        room,
    })
}

/// A header and a sheet of the value writer.
pub fn value_frame(rng: &mut Rng, number: Option<u32>) -> Case {
    let header = random_header(rng);
    let sheet = writer_sheet(rng, number);
    headed(rng, header, sheet)
}

fn headed(rng: &mut Rng, header: Header, sheet: WriteCase) -> Case {
    let length = whole(&sheet).unwrap_or(60);
    let room = room(rng, length);
    behind(header, sheet, room)
}

/// A header and a sheet.
pub fn of_sheet(rng: &mut Rng, sheet: WriteCase) -> Case {
    let header = random_header(rng);
    headed(rng, header, sheet)
}

/// A kind that does not exist (4), behind a table at fault or before any other
/// refusal.
pub fn bad_kind(rng: &mut Rng, number: Option<u32>) -> Case {
    let sheet = writer_sheet(rng, number);
    let header = random_kind_fault(rng);
    let length = whole(&sheet).unwrap_or(60);
    let room = rng.pick(&[0, length, length + 5]);
    behind(header, sheet, room)
}

/// An output that is too small for the frame, by one byte, by the header or by
/// all, though it may hold the value (52).
pub fn small_output(rng: &mut Rng) -> Case {
    loop {
        let header = random_header(rng);
        let sheet = writer_sheet(rng, None);
        if let Some(length) = whole(&sheet) {
            let missing = rng.range(1, length);
            let room = length - rng.pick(&[1, 1, 1, 2, 25, 26, missing, length]);
            return behind(header, sheet, room);
        }
    }
}

/// A value whose length is at an end of what a length of so many bytes says,
/// with exactly its room or a byte too few (0, 52).
pub fn at_a_limit(rng: &mut Rng) -> Case {
    let size = rng.pick(&[126, 127, 128, 129, 16_382, 16_383, 16_384]);
    let header = random_header(rng);
    let sheet = sized(rng, size);
    let length = frame_length(size);
    let room = rng.pick(&[length, length, length + 1, length - 1]);
    behind(header, sheet, room)
}

/// A value of more than 16,384 bytes (7), with and without room.
pub fn too_long(rng: &mut Rng) -> Case {
    let size = MAX_PAYLOAD + rng.pick(&[1, 1, 2, 300, 4_000]);
    let header = random_header(rng);
    let sheet = sized(rng, size);
    let room = rng.pick(&[0, 30, MAX_PAYLOAD, frame_length(size), 40_000]);
    behind(header, sheet, room)
}

/// No value: a sheet of so many cells, and bytes that are not looked at.
fn no_value(rng: &mut Rng, header: Header, schema: Vec<u8>, cells: usize, room: usize) -> Case {
    let length = rng.pick(&[0, 0, 1, 4, 30]);
    let sheet = (0..cells).map(|_| match rng.one_in(3) {
        true => NO_TYPE,
        false => rng.below(4) as u32,
    });
    let sheet = WriteCase {
        schema,
        type_number: NO_TYPE,
        sheet: sheet.collect(),
        data: rng.bytes(length),
        room: 0,
    };
    behind(header, sheet, room)
}

/// An empty payload; up to three cells are no row.
pub fn empty(rng: &mut Rng) -> Case {
    let header = random_header(rng);
    let schema = good_table(rng).bytes();
    let cells = rng.pick(&[0, 0, 1, 2, 3]);
    let room = rng.pick(&[26, 26, 27, 40]);
    no_value(rng, header, schema, cells, room)
}

/// An empty payload and too little room (52).
pub fn empty_small_output(rng: &mut Rng) -> Case {
    let header = random_header(rng);
    let schema = good_table(rng).bytes();
    let room = rng.pick(&[25, 25, 24, 1, 0]);
    let cells = rng.below(4);
    no_value(rng, header, schema, cells, room)
}

/// Rows where there is no value (50), with and without room.
pub fn empty_with_rows(rng: &mut Rng) -> Case {
    let header = random_header(rng);
    let schema = good_table(rng).bytes();
    let cells = rng.pick(&[4, 4, 5, 7, 8, 12]);
    let room = rng.pick(&[0, 25, 26, 60]);
    no_value(rng, header, schema, cells, room)
}

/// No value, and a kind that does not exist (4), with and without rows.
pub fn empty_bad_kind(rng: &mut Rng) -> Case {
    let header = random_kind_fault(rng);
    let schema = good_table(rng).bytes();
    let cells = rng.pick(&[0, 1, 4, 8]);
    let room = rng.pick(&[0, 26, 30]);
    no_value(rng, header, schema, cells, room)
}

/// No value, and a table at fault, whatever the kind and the rows.
pub fn empty_bad_table(rng: &mut Rng, fault: fn(&mut Rng) -> Vec<u8>) -> Case {
    let header = match rng.one_in(3) {
        true => random_kind_fault(rng),
        false => random_header(rng),
    };
    let schema = fault(rng);
    let cells = rng.pick(&[0, 0, 3, 4]);
    let room = rng.pick(&[0, 26, 30]);
    no_value(rng, header, schema, cells, room)
}
