//! Pairs of tables where the new one extends the old one, or nearly does.

use super::fault::any_fault;
use super::rng::Rng;
use super::table::{add_method, good_table, random_table, Table, ARRAY, MAP, STRUCT};
use crate::cases::{Case, ExtendsCase};

/// A table that extends the old one in several ways at once.
pub fn extended(rng: &mut Rng, old: &Table) -> Table {
    let mut new = old.clone();
    for _ in 0..rng.below(3) {
        add_type(rng, &mut new);
    }
    lay_out_again(rng, &mut new, old.types.len());
    if rng.one_in(3) {
        add_method(rng, &mut new);
    }
    if rng.one_in(3) {
        let mut methods = std::mem::take(&mut new.methods);
        rng.shuffle(&mut methods);
        new.methods = methods;
    }
    new
}

/// Adds one type row at the end.
fn add_type(rng: &mut Rng, table: &mut Table) {
    let any = rng.below(table.types.len() + 1) as u32;
    if rng.one_in(3) {
        table.add_type(ARRAY, any, 0);
    } else {
        let kind = rng.range(1, 13) as u32;
        table.add_type(kind, 0, 0);
    }
}

/// Gives every struct fields of its own, with added ones for some of the first
/// `old_types` rows, as far as their bitmaps have room.
fn lay_out_again(rng: &mut Rng, table: &mut Table, old_types: usize) {
    let mut fields = Vec::new();
    for number in table.structs() {
        let mut own = table.struct_fields(number).to_vec();
        let room = (8 - own.len() % 8) % 8;
        if (number as usize) < old_types && rng.below(3) > 0 {
            for _ in 0..rng.below(room + 1).min(3) {
                own.push([rng.below(table.types.len()) as u32, 1]);
            }
        }
        table.types[number as usize] = [STRUCT, fields.len() as u32, own.len() as u32];
        fields.extend(own);
    }
    table.fields = fields;
}

/// An old table with structs, whose bitmaps leave room in most.
pub fn old_table(rng: &mut Rng) -> Table {
    loop {
        let types = rng.range(1, 6);
        let mut table = random_table(rng, types);
        for _ in 0..rng.below(3) {
            add_method(rng, &mut table);
        }
        if !table.structs().is_empty() {
            return table;
        }
    }
}

/// A pair that extends.
pub fn good_pair(rng: &mut Rng) -> Case {
    let old = match rng.one_in(4) {
        true => good_table(rng),
        false => old_table(rng),
    };
    let new = match rng.one_in(8) {
        true => old.clone(),
        false => extended(rng, &old),
    };
    pair(&old.bytes(), &new.bytes())
}

/// Two tables that have nothing to do with each other.
pub fn unrelated_pair(rng: &mut Rng) -> Case {
    let (old, new) = (good_table(rng), good_table(rng));
    pair(&old.bytes(), &new.bytes())
}

/// A pair of which one or both are not good.
pub fn bad_pair(rng: &mut Rng) -> Case {
    let good = good_table(rng).bytes();
    match rng.below(5) {
        0 | 1 => pair(&any_fault(rng), &good),
        2 => pair(&any_fault(rng), &any_fault(rng)),
        _ => pair(&good, &any_fault(rng)),
    }
}

/// A pair of which one has a given fault.
pub fn pair_with_fault(rng: &mut Rng, fault: fn(&mut Rng) -> Vec<u8>) -> Case {
    let good = old_table(rng).bytes();
    match rng.one_in(2) {
        true => pair(&fault(rng), &good),
        false => pair(&good, &fault(rng)),
    }
}

fn pair(old: &[u8], new: &[u8]) -> Case {
    Case::Extends(ExtendsCase {
        old: old.to_vec(),
        new: new.to_vec(),
    })
}

/// A pair that fails for one reason about its type rows.
pub fn changed_types(rng: &mut Rng) -> Case {
    let mut old = old_table(rng);
    let (first, second) = (old.add_type(6, 0, 0), old.add_type(12, 0, 0));
    let array = old.add_type(ARRAY, first, 0);
    let map = old.add_type(MAP, first, second);
    let mut new = extended(rng, &old);
    match rng.below(6) {
        0 => {
            old.add_type(1, 0, 0);
            new.types.truncate(old.types.len() - 1);
        }
        1 => new.types[first as usize][0] = 7,
        2 => new.types[array as usize][1] = second,
        3 => new.types[map as usize][1] = second,
        4 => new.types[map as usize][2] = first,
        _ => new.types[array as usize] = [MAP, first, second],
    }
    pair(&old.bytes(), &new.bytes())
}

/// A pair that fails for one reason about the fields of a struct.
pub fn changed_fields(rng: &mut Rng) -> Case {
    let mut old = old_table(rng);
    let types = old.types.len() as u32;
    let (other, third) = (old.add_type(3, 0, 0), old.add_type(4, 0, 0));
    let count = rng.pick(&[2, 3, 5, 7, 7, 8, 8, 9, 15, 16, 63, 64]);
    let own: Vec<[u32; 2]> = (0..count)
        .map(|_| [rng.below(types as usize) as u32, rng.below(2) as u32])
        .collect();
    let changed = old.add_struct(&own);
    let mut new = old.clone();
    let mut fields = own.clone();
    let at = rng.below(count);
    match rng.below(7) {
        0 => fields[at][0] = other,
        1 => fields[at][1] ^= 1,
        2 => fields.truncate(count - 1),
        3 => fields.push([rng.pick(&[other, third]), 0]),
        4 => fields.resize(count.next_multiple_of(8) + 1, [third, 1]),
        5 => fields.insert(0, [third, 1]),
        _ => fields.resize(count.next_multiple_of(8), [third, 1]),
    }
    fields.truncate(64);
    new.types[changed as usize] = [STRUCT, new.fields.len() as u32, fields.len() as u32];
    new.fields.extend(fields);
    pair(&old.bytes(), &new.bytes())
}

/// A pair whose new table lacks one method entry or changes one number of it.
pub fn changed_methods(rng: &mut Rng) -> Case {
    let mut old = old_table(rng);
    add_method(rng, &mut old);
    let mut new = extended(rng, &old);
    let other = new.add_struct(&[[0, 1]]);
    let entry = rng.below(new.methods.len());
    match rng.below(5) {
        0 => drop(new.methods.remove(entry)),
        1 => new.methods[entry][rng.below(3)] ^= 64,
        2 => {
            let side = rng.below(4);
            let given = new.methods[entry][4 + side] != u32::MAX;
            new.methods[entry][3] ^= 8 >> side;
            new.methods[entry][4 + side] = if given { u32::MAX } else { other };
        }
        _ => {
            let sides = &mut new.methods[entry][4..];
            for side in sides.iter_mut().filter(|side| **side != u32::MAX) {
                *side = other;
            }
        }
    }
    pair(&old.bytes(), &new.bytes())
}
