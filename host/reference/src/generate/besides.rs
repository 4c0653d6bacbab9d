//! Cases for the reader with two tables: ours, and a writer's that adds to it.

use super::damage::Damage;
use super::deep::{deep_table, deep_value};
use super::extensions::old_table;
use super::maps::{fullest, give_pairs, maps_of_maps, Pairs};
use super::payload::{add_held, payload_of, value_of};
use super::reading::no_struct;
use super::rng::Rng;
use super::table::{add_method, key_kind, Table, ARRAY, BYTES, MAP, STRING, STRUCT};
use super::value::{varuint, Content, Types, Value};
use crate::cases::{BesideCase, Case};
use crate::{read_beside, MAX_PAYLOAD};

/// Our table, the writer's, and a struct type that both have.
pub struct Pair {
    pub ours: Table,
    pub theirs: Table,
    pub root: u32,
}

/// How many fields a struct of so many gains.
type Growth = fn(&mut Rng, usize) -> usize;

/// Fields as far as the bitmap has room.
fn within_bitmap(rng: &mut Rng, fields: usize) -> usize {
    let room = (8 - fields % 8) % 8;
    rng.below(room + 1).min(3)
}

/// Some fields, in many cases more than the bitmap has room for.
fn widening(rng: &mut Rng, fields: usize) -> usize {
    let room = (8 - fields % 8) % 8;
    let gained = match rng.below(30) {
        0..=11 => rng.below(4),
        12..=14 => room,
        15..=25 => room + 1,
        26..=28 => room + rng.range(2, 12),
        _ => 64,
    };
    gained.min(64 - fields)
}

/// One field or more.
fn at_least_one(rng: &mut Rng, fields: usize) -> usize {
    widening(rng, fields).clamp(1, 64 - fields)
}

/// A table with a struct that stands in others, in an array and in a map, and
/// whose bitmap is full in some.
fn nested_table(rng: &mut Rng) -> Table {
    let mut table = Table::default();
    for kind in [1, 6, STRING] {
        table.add_type(kind, 0, 0);
    }
    let other = rng.range(2, 13) as u32;
    let leaves = table.add_type(other, 0, 0) as usize + 1;
    let inner = add_wide_struct(rng, &mut table, leaves);
    let list = table.add_type(ARRAY, inner, 0);
    let key = table.add_type(key_kind(rng), 0, 0);
    let map = table.add_type(MAP, key, inner);
    let itself = table.types.len() as u32;
    let mut fields = vec![[rng.pick(&[inner, list, list, map]), rng.below(2) as u32]];
    for _ in 0..rng.pick(&[0, 0, 1, 2, 6, 7, 8]) {
        let field = rng.pick(&[0, 1, 2, inner, list, map, itself]);
        fields.push([field, 1]);
    }
    table.add_struct(&fields);
    for _ in 0..rng.below(3) {
        add_method(rng, &mut table);
    }
    table
}

/// A struct of leaves that has one field, eight, or a few more or less.
fn add_wide_struct(rng: &mut Rng, table: &mut Table, leaves: usize) -> u32 {
    let count = rng.pick(&[1, 1, 2, 3, 7, 8, 8, 9, 16]);
    let fields: Vec<[u32; 2]> = (0..count)
        .map(|_| [rng.below(leaves) as u32, u32::from(rng.below(3) > 0)])
        .collect();
    table.add_struct(&fields)
}

/// Gives every struct fields of its own, and those of the first `old_types`
/// rows added ones of the types to choose from.
fn add_fields(rng: &mut Rng, table: &mut Table, old_types: usize, growth: Growth, types: &[u32]) {
    let mut fields = Vec::new();
    for number in table.structs() {
        let mut own = table.struct_fields(number).to_vec();
        if (number as usize) < old_types {
            for _ in 0..growth(rng, own.len()) {
                own.push([rng.pick(types), 1]);
            }
        }
        table.types[number as usize] = [STRUCT, fields.len() as u32, own.len() as u32];
        fields.extend(own);
    }
    table.fields = fields;
}

/// The table of a writer that has added types, fields and methods to ours.
fn grown(rng: &mut Rng, ours: &Table, growth: Growth) -> Table {
    let mut theirs = ours.clone();
    for _ in 0..rng.below(4) {
        add_new_type(rng, &mut theirs);
    }
    let types: Vec<u32> = (0..theirs.types.len() as u32).collect();
    add_fields(rng, &mut theirs, ours.types.len(), growth, &types);
    if rng.one_in(3) {
        add_method(rng, &mut theirs);
    }
    if rng.one_in(3) {
        rng.shuffle(&mut theirs.methods);
    }
    theirs
}

/// A type row that only the writer has, structs too.
fn add_new_type(rng: &mut Rng, table: &mut Table) {
    let types = table.types.len();
    let any = rng.below(types) as u32;
    match rng.below(5) {
        0 => drop(table.add_type(ARRAY, any, 0)),
        1 => {
            let key = table.add_type(key_kind(rng), 0, 0);
            table.add_type(MAP, key, any);
        }
        2 | 3 => drop(add_wide_struct(rng, table, types)),
        _ => {
            let kind = rng.range(1, 13) as u32;
            table.add_type(kind, 0, 0);
        }
    }
}

fn ours_table(rng: &mut Rng) -> Table {
    match rng.one_in(3) {
        true => old_table(rng),
        false => nested_table(rng),
    }
}

fn pair_of(rng: &mut Rng, growth: Growth) -> Pair {
    let ours = ours_table(rng);
    let theirs = grown(rng, &ours, growth);
    let structs = ours.structs();
    let last = structs[structs.len() - 1];
    let any = rng.pick(&structs);
    Pair {
        root: rng.pick(&[last, last, any]),
        ours,
        theirs,
    }
}

/// A pair whose bitmaps may be wider in the writer's table.
pub fn widened(rng: &mut Rng) -> Pair {
    pair_of(rng, widening)
}

/// A pair in which the bitmaps stay as they are.
pub fn extended(rng: &mut Rng) -> Pair {
    pair_of(rng, within_bitmap)
}

/// As many fields as make 63 or 64, or as ours has already.
fn to_the_brim(rng: &mut Rng, fields: usize) -> usize {
    match rng.below(4) {
        0 => 63usize.saturating_sub(fields),
        1 => 0,
        _ => 64 - fields,
    }
}

/// A pair whose structs have 63 or 64 fields in the writer's table, or in both.
pub fn brim_pair(rng: &mut Rng) -> Pair {
    let mut ours = nested_table(rng);
    if rng.one_in(4) {
        let types = ours.types.len();
        let every: Vec<u32> = (0..types as u32).collect();
        add_fields(rng, &mut ours, types, to_the_brim, &every);
    }
    let theirs = grown(rng, &ours, to_the_brim);
    let structs = ours.structs();
    Pair {
        root: structs[structs.len() - 1],
        ours,
        theirs,
    }
}

/// The same table twice.
pub fn same(rng: &mut Rng) -> Pair {
    let mut pair = pair_of(rng, within_bitmap);
    match rng.one_in(2) {
        true => pair.theirs = pair.ours.clone(),
        false => pair.ours = pair.theirs.clone(),
    }
    pair
}

/// A pair whose added fields hold a value of a kind. What ours knows of the
/// root, or of a struct in an array below it, is one byte.
fn added(rng: &mut Rng, wanted: u32) -> Pair {
    let mut ours = Table::default();
    let byte = ours.add_type(6, 0, 0);
    let mut root = ours.add_struct(&[[byte, rng.below(2) as u32]]);
    if rng.one_in(3) {
        let list = ours.add_type(ARRAY, root, 0);
        root = ours.add_struct(&[[list, 0]]);
    }
    let mut theirs = ours.clone();
    let held = add_held(rng, &mut theirs, wanted);
    let types = [held, held, held, byte];
    add_fields(rng, &mut theirs, ours.types.len(), at_least_one, &types);
    Pair { ours, theirs, root }
}

/// The rows that the payload shows.
fn rows(ours: &[u8], theirs: &[u8], root: u32, payload: &[u8]) -> usize {
    let mut sheet = vec![0; 4 * (payload.len() + 1)];
    let reading = read_beside(ours, theirs, root, payload, &mut sheet);
    reading.map_or(0, |reading| reading.rows)
}

/// The case, with cells enough in most.
pub fn beside_case(rng: &mut Rng, pair: &Pair, payload: Vec<u8>) -> Case {
    let (ours, theirs) = (pair.ours.bytes(), pair.theirs.bytes());
    let rows = rows(&ours, &theirs, pair.root, &payload);
    let cells = match rng.below(12) {
        0 => (4 * rows).saturating_sub(rng.pick(&[1, 2, 3, 4, 8])),
        1..=6 => 4 * rows,
        7..=8 => 4 * rows + rng.range(1, 3),
        _ => 4 * rows + rng.range(4, 40),
    };
    Case::Beside(BesideCase {
        ours,
        theirs,
        type_number: pair.root,
        payload,
        cells,
    })
}

/// A payload of the writer's table, damaged or not.
pub fn beside(rng: &mut Rng, make: fn(&mut Rng) -> Pair, damage: Damage) -> Case {
    loop {
        let pair = make(rng);
        let types = Types::new(&pair.theirs);
        let full = !rng.one_in(3);
        let payload = payload_of(rng, &types, pair.root, full);
        let bytes = payload.and_then(|payload| damage(rng, &pair.theirs, &payload));
        if let Some(bytes) = bytes {
            return beside_case(rng, &pair, bytes);
        }
    }
}

/// A payload with a value of a kind in its added fields, damaged or not.
pub fn beside_added(rng: &mut Rng, wanted: u32, damage: Damage) -> Case {
    loop {
        let pair = added(rng, wanted);
        let payload = payload_of(rng, &Types::new(&pair.theirs), pair.root, true);
        let bytes = payload.and_then(|payload| damage(rng, &pair.theirs, &payload));
        if let Some(bytes) = bytes {
            return beside_case(rng, &pair, bytes);
        }
    }
}

/// Added fields of the kinds that have a length or a count, damaged.
pub fn beside_sized(rng: &mut Rng, damage: Damage) -> Case {
    let wanted = rng.pick(&[STRING, BYTES, ARRAY, MAP, MAP]);
    beside_added(rng, wanted, damage)
}

/// A payload with a map of so many pairs, in an added field or not, damaged or
/// not.
pub fn beside_map(rng: &mut Rng, pairs: Pairs, damage: Damage) -> Case {
    loop {
        let pair = match rng.one_in(2) {
            true => added(rng, MAP),
            false => widened(rng),
        };
        let types = Types::new(&pair.theirs);
        let Some(mut value) = value_of(rng, &types, pair.root, true) else {
            continue;
        };
        let count = pairs(rng);
        if give_pairs(rng, &types, &mut value, count).is_none() {
            continue;
        }
        match damage(rng, &pair.theirs, &value.payload()) {
            Some(bytes) if bytes.len() <= MAX_PAYLOAD => return beside_case(rng, &pair, bytes),
            _ => {}
        }
    }
}

/// A nest of so many levels, through added fields and others, whole or damaged.
pub fn beside_deep(rng: &mut Rng, levels: usize, damage: Damage) -> Case {
    let ours = deep_table(rng);
    let mut theirs = ours.clone();
    add_fields(
        rng,
        &mut theirs,
        ours.types.len(),
        widening,
        &[0, 1, 2, 3, 6],
    );
    let root = rng.pick(&[0, 0, 0, 6]);
    let payload = deep_value(rng, &theirs, root, levels - 1).payload();
    let bytes = damage(rng, &theirs, &payload).unwrap_or(payload.bytes);
    beside_case(rng, &Pair { ours, theirs, root }, bytes)
}

/// A sheet with fewer rows than are shown (30), though in some the cells would
/// do for another count.
pub fn small_sheet(rng: &mut Rng) -> Case {
    loop {
        let Case::Beside(mut case) = beside(rng, widened, super::damage::whole) else {
            continue;
        };
        let rows = rows(&case.ours, &case.theirs, case.type_number, &case.payload);
        if rows > 0 {
            let missing = rng.range(1, 4 * rows);
            case.cells = 4 * rows - rng.pick(&[1, 1, 2, 3, 4, missing, 4 * rows]);
            return Case::Beside(case);
        }
    }
}

/// Random bytes as a payload.
pub fn random_payload(rng: &mut Rng) -> Case {
    let pair = widened(rng);
    let bytes = (0..rng.below(24))
        .map(|_| match rng.one_in(3) {
            true => rng.byte(),
            false => rng.below(4) as u8,
        })
        .collect();
    beside_case(rng, &pair, bytes)
}

/// A type that is no struct of ours (46): none at all, no struct, or a struct
/// that only the writer has.
pub fn beside_no_struct(rng: &mut Rng) -> Case {
    let mut pair = widened(rng);
    let types = pair.theirs.types.len();
    let theirs = add_wide_struct(rng, &mut pair.theirs, types);
    let unfit = no_struct(rng, &pair.ours);
    pair.root = rng.pick(&[theirs, theirs, unfit]);
    let payload = payload_of(rng, &Types::new(&pair.theirs), theirs, false);
    let bytes = match rng.one_in(20) {
        true => vec![0; MAX_PAYLOAD + 1],
        false => payload.map_or(Vec::new(), |payload| payload.bytes),
    };
    beside_case(rng, &pair, bytes)
}

/// A case of two tables that were made for the test of an extension. Type and
/// payload are anything.
pub fn of_pair(rng: &mut Rng, make: fn(&mut Rng) -> Case) -> Case {
    loop {
        let Case::Extends(pair) = make(rng) else {
            continue;
        };
        let length = match rng.one_in(60) {
            true => MAX_PAYLOAD + 1,
            false => rng.below(6),
        };
        return Case::Beside(BesideCase {
            ours: pair.old,
            theirs: pair.new,
            type_number: rng.pick(&[0, 1, 2, 3, 4, 5, 256, u32::MAX]),
            payload: (0..length).map(|_| rng.below(4) as u8).collect(),
            cells: rng.below(40),
        });
    }
}

/// A payload of so many bytes, nearly all of them in one field, which the
/// writer has added or ours knows.
pub fn beside_long(rng: &mut Rng, length: usize) -> Case {
    let mut ours = Table::default();
    let text = ours.add_type(rng.pick(&[STRING, BYTES]), 0, 0);
    let known = rng.pick(&[1, 3, 8]);
    let root = ours.add_struct(&vec![[text, 1]; known]);
    let mut theirs = ours.clone();
    add_fields(rng, &mut theirs, 2, at_least_one, &[text]);
    let fields = theirs.struct_fields(root).len();
    let bit = rng.pick(&[0, known, fields - 1]);
    let width = fields.div_ceil(8);
    let mut payload = (1u64 << bit).to_le_bytes()[..width].to_vec();
    payload.extend(varuint((length - width - 2) as u64));
    payload.resize(length, b'x');
    let root = if rng.one_in(8) { text } else { root };
    beside_case(rng, &Pair { ours, theirs, root }, payload)
}

/// A payload above the limit (7).
pub fn beside_too_long(rng: &mut Rng) -> Case {
    let length = MAX_PAYLOAD + rng.pick(&[1, 1, 1, 2, 100]);
    beside_long(rng, length)
}

/// Maps of maps in an added field that have as many key comparisons due as can
/// be; the sheet shows the root alone.
pub fn hidden_maps_of_maps(rng: &mut Rng) -> Case {
    let (mut theirs, mut value) = maps_of_maps(rng, fullest());
    let root = value.number;
    let [_, first, _] = theirs.types[root as usize];
    let map = theirs.fields[first as usize];
    let mut ours = theirs.clone();
    ours.fields[first as usize] = [0, 1];
    theirs.fields = vec![[0, 1], [map[0], 1]];
    theirs.types[root as usize] = [STRUCT, 0, 2];
    shift_field(&mut value);
    let bytes = value.payload().bytes;
    beside_case(rng, &Pair { ours, theirs, root }, bytes)
}

/// Makes the first field of a struct the second.
fn shift_field(value: &mut Value) {
    if let Content::Fields { bits, .. } = &mut value.content {
        *bits <<= 1;
    }
}
