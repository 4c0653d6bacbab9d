//! Any case with a full table: rows that stand before its own, so that its own
//! are the last that a table may have.

use crate::calls::CallTable;
use crate::cases::Case;
use crate::generate::rng::Rng;
use crate::generate::table::{Table, ARRAY, MAP, STRUCT};
use crate::schema::{Schema, NO_TYPE};
use crate::tallies::Tally;

/// The most types, fields and methods of a table.
pub const MOST: [usize; 3] = [256, 2_048, 256];

/// The sections that are filled together.
const FILLED: [[bool; 3]; 6] = [
    [true, false, false],
    [true, false, false],
    [false, true, false],
    [false, false, true],
    [false, false, true],
    [true, true, true],
];

impl Table {
    /// The rows of a good schema file.
    pub fn from_bytes(schema: &[u8]) -> Option<Table> {
        Schema::check(schema).ok()?;
        let (words, _) = schema.as_chunks::<4>();
        let words: Vec<u32> = words.iter().map(|word| u32::from_le_bytes(*word)).collect();
        let (rows, trailer) = words.split_at(words.len() - 4);
        let [fields, methods] = [trailer[0], trailer[1]].map(|place| place as usize / 4);
        Some(Table {
            types: rows[..fields].as_chunks().0.to_vec(),
            fields: rows[fields..methods].as_chunks().0.to_vec(),
            methods: rows[methods..].as_chunks().0.to_vec(),
        })
    }

    fn sizes(&self) -> [usize; 3] {
        [self.types.len(), self.fields.len(), self.methods.len()]
    }
}

/// How many rows to put before so many of one table and of another, so that the
/// larger one is full in some sections, or lacks one row there.
fn missing(rng: &mut Rng, tables: &[&Table]) -> [usize; 3] {
    let filled = rng.pick(&FILLED);
    let spare = usize::from(rng.one_in(4));
    let mut missing = [0; 3];
    for section in 0..3 {
        let most = tables.iter().map(|table| table.sizes()[section]).max();
        if filled[section] {
            missing[section] = (MOST[section] - spare).saturating_sub(most.unwrap_or(0));
        }
    }
    // A field needs a type.
    if missing[0] == 0 && tables.iter().any(|table| table.types.is_empty()) {
        missing[1] = 0;
    }
    missing
}

/// Rows that refer to each other alone, and methods that no table has yet.
fn filler(rng: &mut Rng, [types, fields, methods]: [usize; 3], tables: &[&Table]) -> Table {
    let mut table = Table::default();
    for number in 0..types {
        // The first row can be the key of a map.
        let any = rng.below(types) as u32;
        let leaf = [rng.range(2, 13) as u32, 0, 0];
        let row = match rng.below(8) {
            _ if number == 0 => [6, 0, 0],
            0 => [ARRAY, any, 0],
            1 => [MAP, 0, any],
            2 if fields > 0 => {
                let first = rng.below(fields);
                let count = rng.range(1, (fields - first).min(64));
                [STRUCT, first as u32, count as u32]
            }
            _ => leaf,
        };
        table.types.push(row);
    }
    let any_type = types.max(1);
    for _ in 0..fields {
        let field = [rng.below(any_type) as u32, rng.below(2) as u32];
        table.fields.push(field);
    }
    while table.methods.len() < methods {
        let method = filler_method(rng, &table);
        let taken = tables.iter().copied().chain([&table]);
        let taken = taken.flat_map(|table| &table.methods).copied();
        let taken: Vec<[u32; 8]> = taken.filter(|other| other[..3] == method[..3]).collect();
        if taken.is_empty() {
            table.methods.push(method);
        }
    }
    table
}

fn filler_method(rng: &mut Rng, table: &Table) -> [u32; 8] {
    let structs = table.structs();
    let form = match structs.is_empty() {
        true => 0,
        false => rng.below(16) as u32,
    };
    let mut entry = [
        rng.word(),
        rng.word() >> 30,
        rng.word() >> 20,
        form,
        0,
        0,
        0,
        0,
    ];
    for side in 0..4 {
        entry[4 + side] = match form >> (3 - side) & 1 {
            1 => rng.pick(&structs),
            _ => NO_TYPE,
        };
    }
    entry
}

/// The rows of a table behind others, with their numbers moved on.
fn behind(filler: &Table, own: &Table) -> Table {
    let (types, fields) = (filler.types.len() as u32, filler.fields.len() as u32);
    let mut table = filler.clone();
    table.types.extend(own.types.iter().map(|&row| match row {
        [ARRAY, element, b] => [ARRAY, element + types, b],
        [MAP, key, value] => [MAP, key + types, value + types],
        [STRUCT, first, count] => [STRUCT, first + fields, count],
        leaf => leaf,
    }));
    let moved = own.fields.iter().map(|&[held, mark]| [held + types, mark]);
    table.fields.extend(moved);
    table.methods.extend(own.methods.iter().map(|&entry| {
        let mut entry = entry;
        for side in entry[4..].iter_mut().filter(|side| **side != NO_TYPE) {
            *side += types;
        }
        entry
    }));
    table
}

/// A number moved on, as far as there are numbers.
fn moved(number: &mut u32, by: usize) {
    *number = number.checked_add(by as u32).unwrap_or(*number);
}

/// The types that the rows of a sheet name, moved on.
fn move_rows(sheet: &mut [u32], by: usize) {
    for row in sheet.as_chunks_mut::<4>().0 {
        moved(&mut row[0], by);
    }
}

/// The methods of open calls moved on, and tallies for those before them.
fn move_calls(rng: &mut Rng, calls: &mut CallTable, tallies: &mut Vec<Tally>, by: usize) {
    for call in calls.slots.iter_mut().filter(|call| call.open) {
        moved(&mut call.method, by);
    }
    let rows = (0..by).map(|_| Tally::from_figures([0; 5].map(|_: u32| rng.word())));
    tallies.splice(..0, rows.collect::<Vec<_>>());
}

/// The schema files of a case, if it has any.
pub fn schemas(case: &mut Case) -> Vec<&mut Vec<u8>> {
    match case {
        Case::Table(case) => vec![&mut case.schema],
        Case::Extends(case) => vec![&mut case.old, &mut case.new],
        Case::Read(case) => vec![&mut case.schema],
        Case::Scalar(case) => vec![&mut case.schema],
        Case::Write(case) => vec![&mut case.schema],
        Case::Run(case) => vec![&mut case.schema],
        Case::Receive(case) => vec![&mut case.schema],
        Case::Release(case) => vec![&mut case.schema],
        Case::History(case) => vec![&mut case.schema],
        Case::ValueFrame(case) => vec![&mut case.schema],
        Case::Beside(case) => vec![&mut case.ours, &mut case.theirs],
        Case::Forward(case) => vec![&mut case.schema],
        Case::Index(case) => vec![&mut case.schema],
        Case::Frame(_) | Case::FrameWrite(_) | Case::Salvage(_) | Case::LookUp(_) => Vec::new(),
    }
}

/// The case with rows before those of its tables, which stay good; its answer
/// has the same number. None where a table is not good, or there is none.
pub fn filled(rng: &mut Rng, mut case: Case) -> Option<Case> {
    let schemas = schemas(&mut case);
    let own = schemas.iter().map(|schema| Table::from_bytes(schema));
    let own: Vec<Table> = own.collect::<Option<_>>()?;
    let tables: Vec<&Table> = own.iter().collect();
    let missing = missing(rng, &tables);
    let filler = filler(rng, missing, &tables);
    for (schema, own) in schemas.into_iter().zip(&own) {
        *schema = behind(&filler, own).bytes();
    }
    let [types, _, methods] = missing;
    match &mut case {
        Case::Read(case) => moved(&mut case.type_number, types),
        Case::Scalar(case) => moved(&mut case.row[0], types),
        Case::Write(case) => {
            moved(&mut case.type_number, types);
            move_rows(&mut case.sheet, types);
        }
        Case::ValueFrame(case) => {
            moved(&mut case.type_number, types);
            move_rows(&mut case.sheet, types);
        }
        Case::Forward(case) => {
            moved(&mut case.type_number, types);
            move_rows(&mut case.sheet, types);
        }
        Case::Beside(case) => moved(&mut case.type_number, types),
        Case::Receive(case) => move_calls(rng, &mut case.table, &mut case.tallies, methods),
        Case::Release(case) => move_calls(rng, &mut case.table, &mut case.tallies, methods),
        _ => {}
    }
    (!own.is_empty()).then_some(case)
}

/// A table that is full in some sections, around any small one.
pub fn full_table(rng: &mut Rng, own: &Table) -> Table {
    let missing = missing(rng, &[own]);
    behind(&filler(rng, missing, &[own]), own)
}
