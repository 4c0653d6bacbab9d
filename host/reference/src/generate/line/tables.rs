//! The tables of connections.

use crate::generate::rng::Rng;
use crate::generate::table::{
    add_method, add_method_of, key_kind, Table, ARRAY, BYTES, MAP, STRING,
};

/// A small table with methods; its structs can go wrong in every way.
pub(super) fn line_table(rng: &mut Rng) -> Table {
    let mut table = Table::default();
    let flag = table.add_type(1, 0, 0);
    let byte = table.add_type(6, 0, 0);
    let text = table.add_type(STRING, 0, 0);
    let map = table.add_type(MAP, rng.pick(&[byte, text]), rng.pick(&[flag, byte]));
    let inner = table.add_struct(&[[rng.pick(&[flag, byte, text]), 0], [text, 1]]);
    let list = table.add_type(ARRAY, inner, 0);
    let itself = table.types.len() as u32;
    let mut fields = Vec::new();
    for _ in 0..rng.range(1, 3) {
        let held = rng.pick(&[flag, text, map, inner, list]);
        fields.push([held, rng.below(2) as u32]);
    }
    fields.push([itself, 1]);
    table.add_struct(&fields);
    table.add_struct(&[[byte, 0]]);
    if rng.one_in(12) {
        for form in 0..16 {
            add_method_of(rng, &mut table, form);
        }
    }
    for _ in 0..rng.range(1, 3) {
        add_method(rng, &mut table);
    }
    table
}

/// A table with methods whose values have maps: in the root, in arrays of
/// structs and in maps.
pub(super) fn maps_table(rng: &mut Rng) -> Table {
    let mut table = Table::default();
    let key = table.add_type(key_kind(rng), 0, 0);
    let other = table.add_type(key_kind(rng), 0, 0);
    let value = table.add_type(rng.pick(&[1, 6, STRING]), 0, 0);
    let map = table.add_type(MAP, key, value);
    let maps = table.add_type(MAP, other, map);
    let inner = table.add_struct(&[[map, 0], [value, 1]]);
    let list = table.add_type(ARRAY, inner, 0);
    table.add_struct(&[[map, 1], [list, 1], [maps, 1]]);
    table.add_struct(&[[maps, 0], [value, 1]]);
    add_method_of(rng, &mut table, 15);
    for _ in 0..rng.range(1, 3) {
        add_method(rng, &mut table);
    }
    table
}

/// A table with methods of the forms that have every payload, and structs whose
/// values get long: texts, lists and maps.
pub(super) fn long_table(rng: &mut Rng) -> Table {
    let mut table = Table::default();
    let flag = table.add_type(1, 0, 0);
    let number = table.add_type(rng.range(2, 11) as u32, 0, 0);
    let text = table.add_type(rng.pick(&[STRING, BYTES]), 0, 0);
    let list = table.add_type(ARRAY, rng.pick(&[flag, number, text]), 0);
    let key = table.add_type(key_kind(rng), 0, 0);
    let map = table.add_type(MAP, key, rng.pick(&[text, list]));
    let inner = table.add_struct(&[[number, 0], [text, 1]]);
    let structs = table.add_type(ARRAY, inner, 0);
    for _ in 0..2 {
        let held = rng.pick(&[text, list, map, structs]);
        table.add_struct(&[[list, 1], [held, rng.below(2) as u32], [text, 1]]);
    }
    for form in [15, rng.range(13, 15) as u32, rng.below(16) as u32] {
        add_method_of(rng, &mut table, form);
    }
    table
}
