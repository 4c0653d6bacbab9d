//! Cases for the scalar entry.

use super::damage::bad_text;
use super::rng::Rng;
use super::table::{good_table, Table, ARRAY, BYTES, MAP, STRING};
use super::value::{random_scalar, random_text, scalar_width};
use crate::cases::{Case, ScalarCase};

/// A row of a kind over bytes that suit it, with the bytes around it.
fn scalar_parts(rng: &mut Rng, kind: u32) -> (Table, [u32; 4], Vec<u8>) {
    let mut table = Table::default();
    for _ in 0..rng.below(3) {
        let other = rng.range(1, 13) as u32;
        table.add_type(other, 0, 0);
    }
    let number = table.add_type(kind, 0, 0);
    let length = rng.below(8);
    let content = match kind {
        STRING => random_text(rng, length),
        BYTES => rng.bytes(length),
        scalar => random_scalar(rng, scalar),
    };
    let (before, after) = (rng.below(5), rng.below(3));
    let mut data = rng.bytes(before);
    data.extend(&content);
    data.extend(rng.bytes(after));
    (
        table,
        [number, before as u32, content.len() as u32, 0],
        data,
    )
}

fn scalar_case(table: &Table, row: [u32; 4], data: Vec<u8>) -> Case {
    Case::Scalar(ScalarCase {
        schema: table.bytes(),
        row,
        data,
    })
}

/// A right row of any kind.
pub fn scalar_good(rng: &mut Rng) -> Case {
    let kind = rng.range(1, 13) as u32;
    let (table, row, data) = scalar_parts(rng, kind);
    scalar_case(&table, row, data)
}

/// A row that does not fit: its type, width or count (50).
pub fn scalar_misfit(rng: &mut Rng) -> Case {
    let kind = rng.range(1, 13) as u32;
    let (mut table, mut row, data) = scalar_parts(rng, kind);
    let types = table.types.len() as u32;
    match rng.below(6) {
        0 => row[0] = rng.pick(&[types, types + 3, u32::MAX]),
        1 => row[0] = table.add_type(ARRAY, 0, 0),
        2 => row[0] = table.add_struct(&[[0, 0]]),
        3 => row[3] = rng.pick(&[1, 256, u32::MAX]),
        4 => row[2] = rng.pick(&[row[2] + 1, 0, 3, u32::MAX, 16]),
        _ => {
            let key = table.add_type(6, 0, 0);
            row[0] = table.add_type(MAP, key, 0);
        }
    }
    scalar_case(&table, row, data)
}

/// A row whose span lies outside (51), or is empty at the very end.
pub fn scalar_outside(rng: &mut Rng) -> Case {
    let kind = rng.range(1, 13) as u32;
    let (table, mut row, data) = scalar_parts(rng, kind);
    let end = data.len() as u32;
    let text = matches!(kind, STRING | BYTES);
    let size = match text {
        true => row[2],
        false => scalar_width(kind) as u32,
    };
    match rng.below(6) {
        0 if text => row[2] = end - row[1] + 1,
        1 if text => (row[1], row[2]) = (end, 0),
        2 if text => (row[1], row[2]) = (end + 1, 0),
        3 if text => row[2] = 0u32.wrapping_sub(row[1]),
        4 => row[1] = u32::MAX - rng.below(9) as u32,
        _ => row[1] = (end + 1).saturating_sub(size.min(end)),
    }
    scalar_case(&table, row, data)
}

/// A bool that is none (22).
pub fn scalar_not_bool(rng: &mut Rng) -> Case {
    let (table, row, mut data) = scalar_parts(rng, 1);
    data[row[1] as usize] = rng.pick(&[2, 3, 0x7F, 0x80, 0xFF]);
    scalar_case(&table, row, data)
}

/// A string that is not UTF-8 (23).
pub fn scalar_not_utf8(rng: &mut Rng) -> Case {
    let (table, mut row, mut data) = scalar_parts(rng, STRING);
    let text = bad_text(rng);
    row[2] = text.len() as u32;
    data.truncate(row[1] as usize);
    data.extend(text);
    scalar_case(&table, row, data)
}

/// Any row of small numbers over any bytes.
pub fn scalar_random(rng: &mut Rng) -> Case {
    let table = good_table(rng);
    let row = [0; 4].map(|_| rng.below(9) as u32);
    let length = rng.below(12);
    let data = rng.bytes(length);
    scalar_case(&table, [row[0], row[1], row[2], row[3] / 7], data)
}

/// A table with a fault and any row.
pub fn scalar_bad_table(rng: &mut Rng, fault: fn(&mut Rng) -> Vec<u8>) -> Case {
    Case::Scalar(ScalarCase {
        schema: fault(rng),
        row: [rng.below(4) as u32, 0, 1, 0],
        data: vec![1, 2],
    })
}
