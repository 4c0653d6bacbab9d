//! Tables and values for nests of any depth.

use super::rng::Rng;
use super::table::{Table, ARRAY, MAP, STRING, STRUCT};
use super::value::{Content, Length, Maker, Types, Value};

/// A table for deep values: a struct that may hold itself, an array or map of
/// it, and leaves.
pub fn deep_table(rng: &mut Rng) -> Table {
    let key_kind = rng.pick(&[6, 7, 1, STRING]);
    let leaf_kind = rng.pick(&[1, 6, 9, STRING, 13]);
    Table {
        types: vec![
            [STRUCT, 0, 4],
            [ARRAY, 0, 0],
            [MAP, 4, 0],
            [leaf_kind, 0, 0],
            [key_kind, 0, 0],
            [ARRAY, 5, 0],
            [STRUCT, 3, 2],
        ],
        fields: vec![[0, 1], [1, 1], [2, 1], [3, 1], [5, 1]],
        methods: Vec::new(),
    }
}

/// A value of a deep table whose innermost child stands `below` levels below.
pub fn deep_value(rng: &mut Rng, table: &Table, number: u32, below: usize) -> Value {
    let [kind, a, b] = table.types[number as usize];
    let content = match kind {
        STRUCT => one_field(rng, table, number, below),
        ARRAY if below == 0 => Content::Items(Vec::new()),
        ARRAY => Content::Items(vec![deep_value(rng, table, a, below - 1)]),
        MAP if below == 0 => Content::Pairs(Vec::new()),
        MAP => {
            let key = leaf_value(rng, table, a);
            Content::Pairs(vec![(key, deep_value(rng, table, b, below - 1))])
        }
        _ => return leaf_value(rng, table, number),
    };
    Value {
        number,
        kind,
        content,
    }
}

fn leaf_value(rng: &mut Rng, table: &Table, number: u32) -> Value {
    let mut maker = Maker {
        types: &Types::new(table),
        rng,
        budget: 3,
        full: false,
        length: Length::Short,
    };
    maker.value(number, 1)
}

/// A struct with one field present that can hold the levels below, or none.
fn one_field(rng: &mut Rng, table: &Table, number: u32, below: usize) -> Content {
    let all = table.struct_fields(number);
    let holds = |bit: &usize| below == 1 || table.types[all[*bit][0] as usize][0] >= ARRAY;
    let able: Vec<usize> = (0..all.len()).filter(holds).collect();
    let width = all.len().div_ceil(8);
    if below == 0 {
        return Content::Fields {
            bits: 0,
            width,
            fields: Vec::new(),
        };
    }
    let bit = rng.pick(&able);
    Content::Fields {
        bits: 1 << bit,
        width,
        fields: vec![deep_value(rng, table, all[bit][0], below - 1)],
    }
}
