//! Tables with a fault, for each meaning of 40 to 44.

use super::rng::Rng;
use super::table::{
    add_method, add_method_of, good_table, is_key_kind, random_field, Table, ARRAY, MAP, STRUCT,
};
use crate::schema::NO_TYPE;

/// Numbers that tend to go wrong: large ones and those that wrap around.
fn wild(rng: &mut Rng) -> u32 {
    match rng.below(5) {
        0 => u32::MAX,
        1 => u32::MAX - rng.below(64) as u32,
        2 => 1 << 31,
        3 => rng.range(256, 70_000) as u32,
        _ => rng.word(),
    }
}

/// A schema file with a fault of any sort.
pub fn any_fault(rng: &mut Rng) -> Vec<u8> {
    match rng.below(50) {
        0 => too_many_rows(rng),
        1..=13 => bad_shape(rng),
        14..=26 => bad_type(rng),
        27..=38 => bad_field(rng),
        _ => bad_method(rng),
    }
}

/// A schema file of the wrong shape (40).
pub fn bad_shape(rng: &mut Rng) -> Vec<u8> {
    let mut bytes = good_table(rng).bytes();
    let trailer = bytes.len() - 16;
    match rng.below(11) {
        0 => bytes = rng.bytes(15),
        1 => bytes.truncate(rng.below(bytes.len())),
        2 => put(&mut bytes, trailer + 12, rng.pick(&[0, 2, 256, u32::MAX])),
        3 => nudge(rng, &mut bytes, trailer + 8),
        4 => nudge(rng, &mut bytes, trailer + 4),
        5 => nudge(rng, &mut bytes, trailer),
        6 => {
            let at = rng.below(trailer + 1);
            let extra = rng.range(1, 11);
            bytes.splice(at..at, vec![0; extra]);
        }
        7 => bytes.extend(vec![0; rng.pick(&[1, 4, 8, 12, 16, 32])]),
        8 | 9 => odd_section(rng, &mut bytes),
        _ => swapped_sections(rng, &mut bytes),
    }
    bytes
}

/// One section with odd bytes at its end, the trailer else as it must be.
fn odd_section(rng: &mut Rng, bytes: &mut Vec<u8>) {
    let (section, extra) = match rng.below(3) {
        0 => (0, rng.pick(&[1, 4, 8])),
        1 => (1, rng.pick(&[1, 4, 7])),
        _ => (2, rng.pick(&[1, 8, 16, 31])),
    };
    let trailer = bytes.len() - 16;
    let end = word(bytes, trailer + 4 * section) as usize;
    bytes.splice(end..end, vec![0; extra]);
    for place in section..3 {
        let at = trailer + extra + 4 * place;
        let moved = word(bytes, at) + extra as u32;
        put(bytes, at, moved);
    }
}

/// The places of fields and methods in the wrong order or past the trailer.
fn swapped_sections(rng: &mut Rng, bytes: &mut [u8]) {
    let trailer = bytes.len() - 16;
    let place = trailer as u32;
    let (fields, methods) = match rng.below(3) {
        0 => (place + 12, place),
        1 => (place, place.saturating_sub(8)),
        _ => (0, place + 8 * rng.range(1, 4) as u32),
    };
    put(bytes, trailer, fields);
    put(bytes, trailer + 4, methods);
}

fn put(bytes: &mut [u8], at: usize, word: u32) {
    bytes[at..at + 4].copy_from_slice(&word.to_le_bytes());
}

fn word(bytes: &[u8], at: usize) -> u32 {
    u32::from_le_bytes([bytes[at], bytes[at + 1], bytes[at + 2], bytes[at + 3]])
}

/// Changes one number of the file a little or a lot.
fn nudge(rng: &mut Rng, bytes: &mut [u8], at: usize) {
    let word = word(bytes, at);
    let changed = match rng.below(4) {
        0 => word.wrapping_add(rng.range(1, 7) as u32),
        1 => word.wrapping_sub(rng.range(1, 7) as u32),
        2 => word.wrapping_add(1 << 31),
        _ => wild(rng),
    };
    put(bytes, at, changed);
}

/// A schema file with one row too many, or more (41).
pub fn too_many_rows(rng: &mut Rng) -> Vec<u8> {
    let mut table = Table::default();
    match rng.below(12) {
        0 => table.fields = vec![[0, 1]; rng.range(2_049, 2_060)],
        1 => table.methods = vec![[7; 8]; rng.range(257, 260)],
        _ => {
            let kind = rng.below(18) as u32;
            table.types = vec![[kind, 0, 0]; rng.range(257, 262)];
        }
    }
    table.bytes()
}

/// A schema file with a faulty type row (42), sometimes with later faults too.
pub fn bad_type(rng: &mut Rng) -> Vec<u8> {
    let mut table = good_table(rng);
    if table.types.is_empty() {
        table.add_type(1, 0, 0);
    }
    let number = rng.below(table.types.len());
    table.types[number] = bad_type_row(rng, &mut table, number as u32);
    if rng.one_in(6) {
        let number = rng.below(table.types.len());
        table.types[number] = bad_type_row(rng, &mut table, number as u32);
    }
    if rng.one_in(6) {
        table.fields.push([NO_TYPE, 2]);
    }
    table.bytes()
}

/// One type row at fault; it may need another row to point to.
fn bad_type_row(rng: &mut Rng, table: &mut Table, number: u32) -> [u32; 3] {
    let types = table.types.len() as u32;
    let outside = rng
        .pick(&[types, types + 1, 256, NO_TYPE, 1 << 31])
        .max(types);
    let extra = rng.pick(&[1, 2, 255, 256, 1 << 31, NO_TYPE]);
    let scalar = rng.range(1, 13) as u32;
    match rng.below(14) {
        0 => [rng.pick(&[0, 17, 18, 255, 256, NO_TYPE]), 0, 0],
        1 => [scalar, extra, 0],
        2 => [scalar, 0, extra],
        3 => [ARRAY, outside, 0],
        4 => [ARRAY, rng.below(types as usize) as u32, extra],
        5 => [MAP, outside, 0],
        6 => [
            MAP,
            table.add_type(STRING_KEY, 0, 0),
            outside.max(types + 1),
        ],
        7 => [MAP, number, number],
        8 | 9 => [MAP, bad_key(rng, table), 0],
        10 => [STRUCT, 0, 0],
        11 => wide_fault(rng, table),
        _ => range_fault(rng, table),
    }
}

/// A kind that is a legal key, for rows whose fault lies elsewhere.
const STRING_KEY: u32 = 12;

/// A row whose kind is no key kind.
fn bad_key(rng: &mut Rng, table: &mut Table) -> u32 {
    let unfit = table.types_where(|kind| !is_key_kind(kind));
    if !unfit.is_empty() && !rng.one_in(3) {
        return rng.pick(&unfit);
    }
    let kind = rng.pick(&[10, 11]);
    table.add_type(kind, 0, 0)
}

/// A struct with more than 64 fields that are all there.
fn wide_fault(rng: &mut Rng, table: &mut Table) -> [u32; 3] {
    let types = table.types.len();
    while table.fields.len() < 65 {
        let field = random_field(rng, types);
        table.fields.push(field);
    }
    [STRUCT, 0, 65]
}

/// A struct whose range runs past the fields, also by wrapping around.
fn range_fault(rng: &mut Rng, table: &mut Table) -> [u32; 3] {
    let fields = table.fields.len() as u32;
    match rng.below(4) {
        0 => [STRUCT, fields, 1],
        1 => [STRUCT, (fields + 1).saturating_sub(3), 4],
        2 => [
            STRUCT,
            NO_TYPE - rng.below(3) as u32,
            rng.range(1, 64) as u32,
        ],
        _ => [STRUCT, 0, wild(rng).max(65)],
    }
}

/// A schema file with a faulty field (43), sometimes outside any struct.
pub fn bad_field(rng: &mut Rng) -> Vec<u8> {
    let mut table = good_table(rng);
    if table.types.is_empty() {
        table.add_type(1, 0, 0);
    }
    let types = table.types.len();
    if table.fields.is_empty() || rng.one_in(4) {
        let field = random_field(rng, types);
        table.fields.push(field);
    }
    for _ in 0..rng.range(1, 2) {
        let number = rng.below(table.fields.len());
        match rng.below(2) {
            0 => {
                table.fields[number][0] = rng.pick(&[types as u32, 256, NO_TYPE]).max(types as u32)
            }
            _ => table.fields[number][1] = rng.pick(&[2, 3, 256, NO_TYPE]),
        }
    }
    if rng.one_in(6) {
        table.methods.push([1, 1, 1, 99, 0, 0, 0, 0]);
    }
    table.bytes()
}

/// A schema file with a faulty method (44).
pub fn bad_method(rng: &mut Rng) -> Vec<u8> {
    let mut table = good_table(rng);
    if table.structs().is_empty() {
        let scalar = table.add_type(6, 0, 0);
        table.add_struct(&[[scalar, 0]]);
    }
    for _ in 0..rng.range(1, 2) {
        add_method(rng, &mut table);
    }
    match rng.below(8) {
        0 => method_mut(rng, &mut table)[3] = rng.pick(&[16, 17, 31, 255, 1 << 31, NO_TYPE]),
        1 | 2 => shared_identifiers(rng, &mut table),
        _ => bad_side(rng, &mut table),
    }
    table.bytes()
}

fn method_mut<'a>(rng: &mut Rng, table: &'a mut Table) -> &'a mut [u32; 8] {
    let number = rng.below(table.methods.len());
    &mut table.methods[number]
}

/// A later entry with the identifiers of an earlier one.
fn shared_identifiers(rng: &mut Rng, table: &mut Table) {
    let earlier = rng.below(table.methods.len());
    let form = rng.below(16) as u32;
    add_method_of(rng, table, form);
    let identifiers = table.methods[earlier];
    if let Some(last) = table.methods.last_mut() {
        last[..3].copy_from_slice(&identifiers[..3]);
    }
    if rng.one_in(3) {
        add_method(rng, table);
    }
}

/// One of the four types of a method does not suit its letter.
fn bad_side(rng: &mut Rng, table: &mut Table) {
    let unfit = table.types_where(|kind| kind != STRUCT);
    let types = table.types.len() as u32;
    let struct_type = rng.pick(&table.structs());
    let [_, _, _, form, sides @ ..] = method_mut(rng, table);
    let side = rng.below(4);
    sides[side] = match *form >> (3 - side) & 1 {
        1 if !unfit.is_empty() && !rng.one_in(3) => rng.pick(&unfit),
        1 => rng.pick(&[types, NO_TYPE, 256, NO_TYPE - 1]).max(types),
        _ => rng.pick(&[struct_type, struct_type, 0, types, NO_TYPE - 1]),
    };
}
