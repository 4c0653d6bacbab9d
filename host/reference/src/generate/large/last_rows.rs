//! Full tables with a fault in the last row of a section, for each meaning of
//! 40 to 44, and cases that have them.

use super::full::{full_table, schemas, MOST};
use crate::cases::Case;
use crate::generate::rng::Rng;
use crate::generate::table::{Table, ARRAY, MAP, STRUCT};
use crate::schema::NO_TYPE;

/// Makes a schema file with a fault.
pub type Fault = fn(&mut Rng) -> Vec<u8>;

/// A table with so many rows in one section, the last ones of a small table.
fn full_in(rng: &mut Rng, section: usize) -> Table {
    loop {
        let mut own = Table::default();
        let leaf = own.add_type(rng.range(1, 13) as u32, 0, 0);
        let root = own.add_struct(&[[leaf, 0], [leaf, 1]]);
        own.methods = vec![[1, 2, 3, 12, root, root, NO_TYPE, NO_TYPE]];
        let table = full_table(rng, &own);
        let sizes = [table.types.len(), table.fields.len(), table.methods.len()];
        if sizes[section] == MOST[section] {
            return table;
        }
    }
}

/// A full table of the wrong shape: a place, or the file, that is off by a row
/// or a byte, or another layout number (40).
pub fn wrong_shape(rng: &mut Rng) -> Vec<u8> {
    let section = rng.below(3);
    let mut bytes = full_in(rng, section).bytes();
    let trailer = bytes.len() - 16;
    let cell = rng.below(4);
    let at = trailer + 4 * cell;
    let word = [0, 1, 2, 3].map(|byte| bytes[at + byte]);
    let row = [12, 8, 32, 1][cell];
    let by = rng.pick(&[1, row, 0u32.wrapping_sub(1), 0u32.wrapping_sub(row)]);
    let word = u32::from_le_bytes(word).wrapping_add(by);
    match rng.below(6) {
        0 => drop(bytes.remove(trailer)),
        1 => bytes.insert(trailer, 0),
        _ => bytes[at..at + 4].copy_from_slice(&word.to_le_bytes()),
    }
    bytes
}

/// A row above the limit of a section (41), at fault itself or not.
pub fn row_too_many(rng: &mut Rng) -> Vec<u8> {
    let section = rng.below(3);
    let mut table = full_in(rng, section);
    match section {
        0 => table.types.push(rng.pick(&[[1, 0, 0], [17, 0, 0]])),
        1 => table.fields.push(rng.pick(&[[0, 1], [NO_TYPE, 2]])),
        _ => table
            .methods
            .push([9, 9, 9, 0, NO_TYPE, NO_TYPE, NO_TYPE, NO_TYPE]),
    }
    table.bytes()
}

/// Type row 255 at fault (42).
pub fn last_type(rng: &mut Rng) -> Vec<u8> {
    let mut table = full_in(rng, 0);
    let types = table.types.len() as u32;
    let fields = table.fields.len() as u32;
    let last = types - 1;
    let leaf = rng.range(1, 13) as u32;
    let rows = [
        [0, 0, 0],
        [17, 0, 0],
        [leaf, 1, 0],
        [leaf, 0, NO_TYPE],
        [ARRAY, types, 0],
        [ARRAY, last, 1],
        [MAP, last, last],
        [MAP, types, 0],
        [MAP, 0, types],
        [STRUCT, 0, 0],
        [STRUCT, 0, 65],
        [STRUCT, fields, 1],
        [STRUCT, fields - 1, 2],
        [STRUCT, NO_TYPE, 1],
    ];
    table.types[last as usize] = rng.pick(&rows);
    table.bytes()
}

/// Field 2,047 at fault (43).
pub fn last_field(rng: &mut Rng) -> Vec<u8> {
    let mut table = full_in(rng, 1);
    let types = table.types.len() as u32;
    let fields = [[types, 0], [256, 1], [NO_TYPE, 0], [0, 2], [0, NO_TYPE]];
    let last = table.fields.len() - 1;
    table.fields[last] = rng.pick(&fields);
    table.bytes()
}

/// Method 255 at fault (44): by itself, or since another has its identifiers.
pub fn last_method(rng: &mut Rng) -> Vec<u8> {
    let mut table = full_in(rng, 2);
    let types = table.types.len() as u32;
    let last = table.methods.len() - 1;
    let any = rng.below(last);
    let other = table.methods[rng.pick(&[0, last - 1, any])];
    let method = &mut table.methods[last];
    match rng.below(6) {
        0 => method[3] = rng.pick(&[16, 255, NO_TYPE]),
        1 => method[4] = rng.pick(&[types, NO_TYPE - 1, NO_TYPE]),
        2 => method[7] = rng.pick(&[0, types - 1, NO_TYPE - 1]),
        _ => method[..3].copy_from_slice(&other[..3]),
    }
    table.bytes()
}

/// The case with a faulty table in place of its own, or of one of its two.
pub fn faulted(rng: &mut Rng, mut case: Case, fault: Fault) -> Option<Case> {
    let mut schemas = schemas(&mut case);
    if schemas.is_empty() {
        return None;
    }
    let which = rng.below(schemas.len());
    *schemas[which] = fault(rng);
    Some(case)
}
