//! Cases for the payload reader.

use super::damage::{repeated_late_key, Damage};
use super::deep::{deep_table, deep_value};
use super::extensions::{extended, old_table};
use super::maps::{fullest, map_value, maps_of_maps, Pairs};
use super::payload::{payload_of, sample, sample_holding};
use super::rng::Rng;
use super::table::{Table, ARRAY, MAP, STRING, STRUCT};
use super::value::{varuint, Types};
use crate::cases::{Case, ReadCase};
use crate::{read, MAX_PAYLOAD};

/// A number of cells that is enough in most cases: exactly, with odd cells or
/// rows to spare, or a few too few.
pub fn cells(rng: &mut Rng, schema: &[u8], root: u32, payload: &[u8]) -> usize {
    let mut sheet = vec![0; 4 * (payload.len() + 1)];
    let rows = read(schema, root, payload, &mut sheet).map_or(0, |reading| reading.rows);
    match rng.below(12) {
        0 => (4 * rows).saturating_sub(rng.pick(&[1, 2, 3, 4, 8])),
        1 => rng.below(8),
        2..=5 => 4 * rows,
        6..=8 => 4 * rows + rng.range(1, 3),
        _ => 4 * rows + rng.range(4, 40),
    }
}

/// A case for the reader.
pub fn read_case(rng: &mut Rng, table: &Table, root: u32, payload: Vec<u8>) -> Case {
    let schema = table.bytes();
    let cells = cells(rng, &schema, root, &payload);
    Case::Read(ReadCase {
        schema,
        type_number: root,
        payload,
        cells,
    })
}

/// A random payload, damaged or not.
pub fn read_any(rng: &mut Rng, damage: Damage) -> Case {
    loop {
        let sample = sample(rng);
        if let Some(bytes) = damage(rng, &sample.table, &sample.payload) {
            return read_case(rng, &sample.table, sample.root, bytes);
        }
    }
}

/// A payload with a value of a kind, damaged or not.
pub fn read_holding(rng: &mut Rng, wanted: u32, damage: Damage) -> Case {
    loop {
        let sample = sample_holding(rng, wanted);
        if let Some(bytes) = damage(rng, &sample.table, &sample.payload) {
            return read_case(rng, &sample.table, sample.root, bytes);
        }
    }
}

/// A payload with one of the kinds that have a length or a count, damaged.
pub fn read_sized(rng: &mut Rng, damage: Damage) -> Case {
    let wanted = rng.pick(&[STRING, 13, ARRAY, MAP, MAP]);
    read_holding(rng, wanted, damage)
}

/// A sheet with too few rows (30).
pub fn read_small_sheet(rng: &mut Rng) -> Case {
    let sample = sample(rng);
    let schema = sample.table.bytes();
    let payload = sample.payload.bytes;
    let mut sheet = vec![0; 4 * (payload.len() + 1)];
    let reading = read(&schema, sample.root, &payload, &mut sheet);
    let rows = reading.map_or(1, |reading| reading.rows);
    let missing = rng.range(1, 4 * rows);
    let missing = rng.pick(&[1, 2, 3, 4, missing, 4 * rows]);
    Case::Read(ReadCase {
        schema,
        type_number: sample.root,
        payload,
        cells: 4 * rows - missing,
    })
}

/// Random bytes as a payload.
pub fn read_random(rng: &mut Rng) -> Case {
    let sample = sample(rng);
    let length = rng.below(24);
    let bytes: Vec<u8> = (0..length)
        .map(|_| match rng.one_in(3) {
            true => rng.byte(),
            false => rng.below(4) as u8,
        })
        .collect();
    read_case(rng, &sample.table, sample.root, bytes)
}

/// A type that is no struct, or none at all (46).
pub fn read_no_struct(rng: &mut Rng) -> Case {
    let sample = sample(rng);
    let type_number = no_struct(rng, &sample.table);
    Case::Read(ReadCase {
        schema: sample.table.bytes(),
        type_number,
        payload: sample.payload.bytes,
        cells: rng.below(40),
    })
}

/// A type number that names no struct.
pub fn no_struct(rng: &mut Rng, table: &Table) -> u32 {
    let unfit = table.types_where(|kind| kind != STRUCT);
    let types = table.types.len() as u32;
    match unfit.is_empty() || rng.one_in(2) {
        true => rng.pick(&[types, types + 1, 256, u32::MAX]).max(types),
        false => rng.pick(&unfit),
    }
}

/// A table with a fault and any payload.
pub fn read_bad_table(rng: &mut Rng, fault: fn(&mut Rng) -> Vec<u8>) -> Case {
    let length = rng.below(12);
    Case::Read(ReadCase {
        schema: fault(rng),
        type_number: rng.below(6) as u32,
        payload: rng.bytes(length),
        cells: rng.below(40),
    })
}

/// Payloads of 16,384 and 16,385 bytes, mostly one long bytes field.
pub fn read_long(rng: &mut Rng, length: usize) -> Case {
    let mut table = Table::default();
    let kind = rng.pick(&[STRING, 13]);
    let text = table.add_type(kind, 0, 0);
    let root = table.add_struct(&[[text, 0]]);
    let mut payload = vec![1];
    payload.extend(varuint(length as u64 - 3));
    payload.resize(length, b'x');
    Case::Read(ReadCase {
        schema: table.bytes(),
        type_number: if rng.one_in(12) { text } else { root },
        payload,
        cells: 8,
    })
}

/// A payload above the limit (7).
pub fn read_too_long(rng: &mut Rng) -> Case {
    let length = MAX_PAYLOAD + rng.pick(&[1, 1, 1, 2, 100]);
    read_long(rng, length)
}

/// A payload with a map of so many pairs, damaged or not.
pub fn read_map(rng: &mut Rng, pairs: Pairs, damage: Damage) -> Case {
    loop {
        let count = pairs(rng);
        let (table, value) = map_value(rng, count);
        let payload = value.payload();
        match damage(rng, &table, &payload) {
            Some(bytes) if bytes.len() <= MAX_PAYLOAD => {
                return read_case(rng, &table, value.number, bytes)
            }
            _ => {}
        }
    }
}

/// Maps of maps that fill a payload of 16,384 bytes, or nearly, and have as
/// many key comparisons due as can be; in some, one pair or key too many.
pub fn read_maps_of_maps(rng: &mut Rng) -> Case {
    let mut counts = fullest();
    let last = counts.len() - 1;
    match rng.below(6) {
        0 => (counts[0], counts[1]) = (65, 63),
        1 => counts[last] = 65,
        2 => counts.truncate(rng.range(1, last)),
        _ => {}
    }
    let (table, value) = maps_of_maps(rng, counts);
    let payload = value.payload();
    let repeated = match rng.one_in(4) {
        true => repeated_late_key(rng, &table, &payload),
        false => None,
    };
    read_case(rng, &table, value.number, repeated.unwrap_or(payload.bytes))
}

/// A new table's payload for the old table, or the other way round.
pub fn read_across(rng: &mut Rng, new_to_old: bool) -> Case {
    loop {
        let old = old_table(rng);
        let new = extended(rng, &old);
        let (writer, reader) = match new_to_old {
            true => (&new, &old),
            false => (&old, &new),
        };
        let types = Types::new(writer);
        let root = rng.pick(&old.structs());
        let full = !rng.one_in(3);
        if let Some(payload) = payload_of(rng, &types, root, full) {
            return read_case(rng, reader, root, payload.bytes);
        }
    }
}

/// A nest of so many levels, the root included, whole or cut.
pub fn read_deep(rng: &mut Rng, levels: usize, damage: Damage) -> Case {
    let table = deep_table(rng);
    let root = rng.pick(&[0, 0, 0, 6]);
    let payload = deep_value(rng, &table, root, levels - 1).payload();
    let bytes = damage(rng, &table, &payload).unwrap_or(payload.bytes);
    read_case(rng, &table, root, bytes)
}
