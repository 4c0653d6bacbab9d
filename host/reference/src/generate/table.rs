//! Schema tables in the making, and good tables of many shapes.

use super::rng::Rng;
use crate::schema::NO_TYPE;

pub const STRING: u32 = 12;
pub const BYTES: u32 = 13;
pub const ARRAY: u32 = 14;
pub const MAP: u32 = 15;
pub const STRUCT: u32 = 16;

/// The rows of a table before they are laid out as a file.
#[derive(Clone, Debug, Default)]
pub struct Table {
    pub types: Vec<[u32; 3]>,
    pub fields: Vec<[u32; 2]>,
    pub methods: Vec<[u32; 8]>,
}

/// Whether a map may have keys of this kind.
pub fn is_key_kind(kind: u32) -> bool {
    matches!(kind, 1..=9 | STRING | BYTES)
}

/// A kind that a map may have as its key.
pub fn key_kind(rng: &mut Rng) -> u32 {
    rng.pick(&[1, 2, 3, 4, 5, 6, 7, 8, 9, STRING, BYTES])
}

impl Table {
    /// The schema file.
    pub fn bytes(&self) -> Vec<u8> {
        let fields_at = 12 * self.types.len();
        let methods_at = fields_at + 8 * self.fields.len();
        let trailer_at = methods_at + 32 * self.methods.len();
        let trailer = [fields_at, methods_at, trailer_at, 1].map(|word| word as u32);
        let words = self.types.iter().flatten();
        let words = words.chain(self.fields.iter().flatten());
        let words = words.chain(self.methods.iter().flatten());
        words
            .chain(&trailer)
            .flat_map(|word| word.to_le_bytes())
            .collect()
    }

    /// Adds a type row and gives its number.
    pub fn add_type(&mut self, kind: u32, a: u32, b: u32) -> u32 {
        self.types.push([kind, a, b]);
        self.types.len() as u32 - 1
    }

    /// Adds a struct with fields of its own and gives its number.
    pub fn add_struct(&mut self, fields: &[[u32; 2]]) -> u32 {
        let first = self.fields.len() as u32;
        self.fields.extend(fields);
        self.add_type(STRUCT, first, fields.len() as u32)
    }

    /// The numbers of the types that a test of the kind holds for.
    pub fn types_where(&self, holds: impl Fn(u32) -> bool) -> Vec<u32> {
        (0..self.types.len() as u32)
            .filter(|&number| holds(self.types[number as usize][0]))
            .collect()
    }

    /// The numbers of the struct types.
    pub fn structs(&self) -> Vec<u32> {
        self.types_where(|kind| kind == STRUCT)
    }

    /// The fields of a struct type.
    pub fn struct_fields(&self, number: u32) -> &[[u32; 2]] {
        let [_, first, count] = self.types[number as usize];
        &self.fields[first as usize..][..count as usize]
    }
}

/// A good table; most are small.
pub fn good_table(rng: &mut Rng) -> Table {
    match rng.below(40) {
        0 => few_rows(rng),
        1 => every_kind(rng),
        2 => wide_struct(rng),
        _ => {
            let types = rng.range(1, 9);
            random_table(rng, types)
        }
    }
}

/// A good table at or near the limits of all three sections.
pub fn large_table(rng: &mut Rng) -> Table {
    let types = rng.range(200, 256);
    let mut table = random_table(rng, types);
    if rng.one_in(3) {
        let fields = rng.range(1_500, 2_048);
        while table.fields.len() < fields {
            let field = random_field(rng, types);
            table.fields.push(field);
        }
    }
    table.fields.truncate(2_048);
    if rng.one_in(3) {
        let methods = rng.range(100, 256);
        while table.methods.len() < methods {
            add_method(rng, &mut table);
        }
    }
    for number in table.structs() {
        let [_, first, count] = table.types[number as usize];
        if (first + count) as usize > table.fields.len() {
            table.types[number as usize][1] = 0;
        }
    }
    table
}

/// A table with empty sections.
fn few_rows(rng: &mut Rng) -> Table {
    let mut table = Table::default();
    if rng.one_in(2) {
        let kind = rng.range(1, 13) as u32;
        table.add_type(kind, 0, 0);
    }
    for _ in 0..rng.below(3) {
        add_method(rng, &mut table);
    }
    table
}

/// A table with each kind as an element, as a key and as a value.
fn every_kind(rng: &mut Rng) -> Table {
    let mut table = Table::default();
    for kind in 1..=13 {
        table.add_type(kind, 0, 0);
    }
    for kind in 0..13 {
        table.add_type(ARRAY, kind, 0);
        if is_key_kind(kind + 1) {
            let value = rng.below(20) as u32 % table.types.len() as u32;
            table.add_type(MAP, kind, value);
        }
    }
    let types = table.types.len();
    let fields: Vec<_> = (0..rng.range(1, 30))
        .map(|_| random_field(rng, types))
        .collect();
    table.add_struct(&fields);
    table
}

/// A struct of up to 64 fields over a few small types.
fn wide_struct(rng: &mut Rng) -> Table {
    let mut table = Table::default();
    for _ in 0..rng.range(1, 4) {
        let kind = rng.range(1, 13) as u32;
        table.add_type(kind, 0, 0);
    }
    let types = table.types.len();
    let count = rng.pick(&[7, 8, 9, 15, 16, 17, 31, 32, 33, 63, 64, 64]);
    let fields: Vec<_> = (0..count).map(|_| random_field(rng, types)).collect();
    table.add_struct(&fields);
    table
}

/// A table of so many type rows, in any order and pointing anywhere.
pub fn random_table(rng: &mut Rng, types: usize) -> Table {
    let mut table = Table::default();
    for _ in 0..types {
        let kind = random_kind(rng);
        table.add_type(kind, 0, 0);
    }
    if !rng.one_in(12) {
        let number = rng.below(types);
        table.types[number][0] = STRUCT;
    }
    let keys = table.types_where(is_key_kind);
    for number in 0..types {
        let any = rng.below(types) as u32;
        let [kind, a, b] = &mut table.types[number];
        match *kind {
            MAP if keys.is_empty() => (*kind, *a) = (ARRAY, any),
            MAP => (*a, *b) = (rng.pick(&keys), any),
            ARRAY => *a = any,
            STRUCT => give_fields(rng, &mut table, number),
            _ => {}
        }
    }
    for _ in 0..rng.below(8).saturating_sub(5) {
        let field = random_field(rng, types);
        table.fields.push(field);
    }
    for _ in 0..rng.below(6).saturating_sub(3) {
        add_method(rng, &mut table);
    }
    table
}

/// Composite kinds more often than their share.
fn random_kind(rng: &mut Rng) -> u32 {
    match rng.below(20) {
        0..=11 => rng.range(1, 13) as u32,
        12..=13 => ARRAY,
        14..=16 => MAP,
        _ => STRUCT,
    }
}

/// Any type, required a little more often than optional.
pub fn random_field(rng: &mut Rng, types: usize) -> [u32; 2] {
    [rng.below(types) as u32, u32::from(rng.below(5) < 2)]
}

/// Gives a struct fields of its own, or a range shared with another.
fn give_fields(rng: &mut Rng, table: &mut Table, number: usize) {
    let held = table.fields.len();
    let (first, count) = if held > 0 && rng.one_in(4) {
        let first = rng.below(held);
        (first, rng.range(1, (held - first).min(64)))
    } else {
        let count = match rng.below(24) {
            0 => rng.range(7, 9),
            1 => rng.range(10, 18),
            _ => rng.range(1, 5),
        };
        for _ in 0..count {
            let field = random_field(rng, table.types.len());
            table.fields.push(field);
        }
        (held, count)
    };
    table.types[number] = [STRUCT, first as u32, count as u32];
}

/// Adds a method with identifiers that no other entry has.
pub fn add_method(rng: &mut Rng, table: &mut Table) {
    let form = match table.structs().is_empty() {
        true => 0,
        false => rng.below(16) as u32,
    };
    add_method_of(rng, table, form);
}

/// Adds a method of a form, with struct types where it has a Y.
pub fn add_method_of(rng: &mut Rng, table: &mut Table, form: u32) {
    let structs = table.structs();
    let mut entry = [0, 0, 0, form, NO_TYPE, NO_TYPE, NO_TYPE, NO_TYPE];
    for side in 0..4 {
        if form >> (3 - side) & 1 == 1 {
            entry[4 + side] = rng.pick(&structs);
        }
    }
    loop {
        let wide = rng.one_in(4);
        for identifier in &mut entry[..3] {
            *identifier = match wide {
                true => rng.word(),
                false => rng.below(8) as u32,
            };
        }
        let same = |other: &[u32; 8]| other[..3] == entry[..3];
        if !table.methods.iter().any(same) {
            break;
        }
    }
    table.methods.push(entry);
}
