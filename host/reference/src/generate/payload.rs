//! Right payloads of random tables, or of tables that hold a wanted kind.

use super::maps::give_pairs;
use super::rng::Rng;
use super::table::{good_table, key_kind, random_field, random_table, Table, ARRAY, MAP, STRUCT};
use super::value::{Length, Maker, Payload, Types, Value};

/// A table, a struct type of it and a right payload of that type.
pub struct Sample {
    pub table: Table,
    pub root: u32,
    pub payload: Payload,
}

/// A random value of a type; none if the type has no small value.
pub fn value_of(rng: &mut Rng, types: &Types, root: u32, full: bool) -> Option<Value> {
    if !types.fits(root, 16) {
        return None;
    }
    let budget = match rng.below(30) {
        0 => rng.range(200, 400),
        _ => rng.range(4, 50),
    };
    let mut maker = Maker {
        types,
        rng,
        budget,
        full,
        length: Length::Short,
    };
    Some(maker.value(root, 16))
}

/// A random value as a payload, sometimes with a map of many pairs.
pub fn payload_of(rng: &mut Rng, types: &Types, root: u32, full: bool) -> Option<Payload> {
    let mut value = value_of(rng, types, root, full)?;
    if rng.one_in(60) {
        let count = rng.pick(&[2, 20, 63, 64]);
        give_pairs(rng, types, &mut value, count);
    }
    Some(value.payload())
}

/// A random table and payload.
pub fn sample(rng: &mut Rng) -> Sample {
    loop {
        let table = good_table(rng);
        let roots = Types::new(&table).roots();
        if roots.is_empty() {
            continue;
        }
        let root = rng.pick(&roots);
        let full = rng.one_in(2);
        let payload = payload_of(rng, &Types::new(&table), root, full);
        if let Some(payload) = payload {
            return Sample {
                table,
                root,
                payload,
            };
        }
    }
}

/// A table whose last type is a struct that holds a value of the wanted kind,
/// either itself or some levels below.
pub fn table_holding(rng: &mut Rng, wanted: u32) -> (Table, u32) {
    let types = rng.range(1, 3);
    let mut table = random_table(rng, types);
    let held = add_held(rng, &mut table, wanted);
    let root = add_holder(rng, &mut table, held);
    (table, root)
}

/// A type row of the wanted kind, or one that holds it some levels below.
pub fn add_held(rng: &mut Rng, table: &mut Table, wanted: u32) -> u32 {
    let mut held = add_wanted(rng, table, wanted);
    for _ in 0..rng.pick(&[0, 0, 1, 1, 2]) {
        held = match rng.below(3) {
            0 => table.add_type(ARRAY, held, 0),
            1 => {
                let key = table.add_type(key_kind(rng), 0, 0);
                table.add_type(MAP, key, held)
            }
            _ => add_holder(rng, table, held),
        };
    }
    held
}

/// A struct with a required field of a type, and maybe others around it.
fn add_holder(rng: &mut Rng, table: &mut Table, held: u32) -> u32 {
    let types = table.types.len();
    let mut fields = vec![[held, 0]];
    for _ in 0..rng.below(3) {
        let [other, _] = random_field(rng, types);
        let at = rng.below(fields.len() + 1);
        fields.insert(at, [other, 1]);
    }
    table.add_struct(&fields)
}

/// A type row of the wanted kind, with what it needs.
fn add_wanted(rng: &mut Rng, table: &mut Table, wanted: u32) -> u32 {
    let any = rng.below(table.types.len()) as u32;
    match wanted {
        ARRAY => table.add_type(ARRAY, any, 0),
        MAP => {
            let key = table.add_type(key_kind(rng), 0, 0);
            let value = table.add_type(rng.pick(&[1, 6, 7, 12]), 0, 0);
            table.add_type(MAP, key, value)
        }
        STRUCT => {
            let scalar = table.add_type(rng.pick(&[1, 6, 3, 12]), 0, 0);
            add_holder(rng, table, scalar)
        }
        scalar => table.add_type(scalar, 0, 0),
    }
}

/// A payload that holds a value of the wanted kind.
pub fn sample_holding(rng: &mut Rng, wanted: u32) -> Sample {
    loop {
        let (table, root) = table_holding(rng, wanted);
        let payload = payload_of(rng, &Types::new(&table), root, true);
        if let Some(payload) = payload {
            return Sample {
                table,
                root,
                payload,
            };
        }
    }
}
