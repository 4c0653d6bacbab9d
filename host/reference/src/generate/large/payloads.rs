//! Long payloads for the readers, strings for the scalar entry, and frames.

use super::full::filled;
use super::values::{long_sample, long_value, most_rows, stretch, LEAST};
use crate::cases::{Case, FrameCase, FrameWriteCase, ReadCase, ScalarCase};
use crate::frame::frame_length;
use crate::generate::besides::{beside_case, brim_pair};
use crate::generate::damage::{bad_text, Damage};
use crate::generate::frames::{frame_bytes, random_header, random_kind_fault, spoil};
use crate::generate::reading::read_case;
use crate::generate::rng::Rng;
use crate::generate::table::{Table, BYTES, STRING};
use crate::generate::value::{random_text, Types, Value};
use crate::MAX_PAYLOAD;

/// Makes a table and a value of it.
pub type Sample = fn(&mut Rng) -> (Table, Value);

/// The case, in half of the cases with a full table.
pub fn maybe_filled(rng: &mut Rng, case: Case) -> Case {
    match rng.one_in(2) {
        true => filled(rng, case.clone()).unwrap_or(case),
        false => case,
    }
}

/// A length of a payload: any long one, those at the limit more often.
pub fn long_length(rng: &mut Rng) -> usize {
    match rng.below(6) {
        0 => rng.pick(&[MAX_PAYLOAD - 1, MAX_PAYLOAD]),
        _ => rng.range(LEAST, MAX_PAYLOAD),
    }
}

/// A long payload, damaged or not.
pub fn read(rng: &mut Rng, sample: Sample, damage: Damage) -> Case {
    loop {
        let (table, value) = sample(rng);
        if let Some(bytes) = damage(rng, &table, &value.payload()) {
            let case = read_case(rng, &table, value.number, bytes);
            return maybe_filled(rng, case);
        }
    }
}

/// A payload of just 16,383 or 16,384 bytes, or of one too many (7).
pub fn read_sized(rng: &mut Rng, size: usize) -> Case {
    loop {
        let (table, mut value) = long_sample(rng);
        if stretch(&mut value, size) {
            return read_case(rng, &table, value.number, value.bytes());
        }
    }
}

/// A payload of 16,383 or 16,384 rows, with as many on the sheet, or with one
/// cell too few (30).
pub fn read_most_rows(rng: &mut Rng, missing: usize) -> Case {
    let (table, value) = most_rows(rng);
    let payload = value.bytes();
    let rows = match payload[0] {
        1 => MAX_PAYLOAD - 1,
        _ => MAX_PAYLOAD,
    };
    Case::Read(ReadCase {
        schema: table.bytes(),
        type_number: value.number,
        payload,
        cells: 4 * rows - missing,
    })
}

/// A long payload of a writer's table with structs of 63 or 64 fields, damaged
/// or not.
pub fn beside(rng: &mut Rng, damage: Damage) -> Case {
    loop {
        let pair = brim_pair(rng);
        let Some(value) = long_value(rng, &Types::new(&pair.theirs), pair.root) else {
            continue;
        };
        if let Some(bytes) = damage(rng, &pair.theirs, &value.payload()) {
            let case = beside_case(rng, &pair, bytes);
            return maybe_filled(rng, case);
        }
    }
}

/// The same with a payload of so many bytes.
pub fn beside_sized(rng: &mut Rng, size: usize) -> Case {
    loop {
        let pair = brim_pair(rng);
        let value = long_value(rng, &Types::new(&pair.theirs), pair.root);
        if let Some(mut value) = value {
            if stretch(&mut value, size) {
                return beside_case(rng, &pair, value.bytes());
            }
        }
    }
}

/// A string or bytes of thousands of bytes, beyond a payload's too; strings in
/// some with a fault at the end (23), and spans that end just outside (51).
pub fn scalar(rng: &mut Rng) -> Case {
    let mut table = Table::default();
    let kind = rng.pick(&[STRING, STRING, BYTES]);
    let number = table.add_type(kind, 0, 0);
    let (before, length) = (rng.pick(&[0, 1, 20_000]), rng.range(LEAST, 40_000));
    let mut data = vec![b'x'; before];
    data.extend(random_text(rng, length));
    if rng.one_in(3) {
        data.extend(bad_text(rng));
    }
    let length = data.len() - before + rng.pick(&[0, 0, 0, 1]);
    let case = Case::Scalar(ScalarCase {
        schema: table.bytes(),
        row: [number, before as u32, length as u32, 0],
        data,
    });
    maybe_filled(rng, case)
}

/// A frame with a long payload: whole, cut anywhere (1), at its last byte too,
/// or with a wrong field (2 to 7).
pub fn frame(rng: &mut Rng) -> Case {
    let length = long_length(rng);
    let payload = rng.bytes(length);
    let mut data = frame_bytes(&random_header(rng), &payload);
    match rng.below(6) {
        0 => drop(data.pop()),
        1 => data.truncate(rng.below(data.len())),
        2 => {
            let number = rng.range(2, 7) as u32;
            spoil(rng, &mut data, number);
        }
        3 => data.extend(vec![0xAF; length]),
        _ => {}
    }
    Case::Frame(FrameCase { data })
}

/// A frame to write with a long payload, with just the room or a byte less (52).
pub fn frame_write(rng: &mut Rng) -> Case {
    let length = long_length(rng);
    let header = match rng.one_in(12) {
        true => random_kind_fault(rng),
        false => random_header(rng),
    };
    Case::FrameWrite(FrameWriteCase {
        header,
        payload: rng.bytes(length),
        room: frame_length(length) - rng.pick(&[0, 0, 1]),
    })
}
