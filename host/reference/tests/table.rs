//! The table check and extension.

mod common;

use common::{table_t, NO_TYPE};
use reference::generate::table::Table;
use reference::{check_table, extends, list, read, scalar, write, CallTable};
use reference::{Outcome, Reason, Refusal, Tally};

fn check(table: &Table) -> Result<(), Refusal> {
    check_table(&table.bytes())
}

fn words(words: &[u32]) -> Vec<u8> {
    words.iter().flat_map(|word| word.to_le_bytes()).collect()
}

/// Table T's rows.
fn t() -> Table {
    Table {
        types: vec![[6, 0, 0], [12, 0, 0], [16, 0, 2], [14, 2, 0], [16, 2, 2]],
        fields: vec![[0, 0], [1, 1], [3, 0], [0, 1]],
        methods: vec![[1, 2, 3, 12, 2, 4, NO_TYPE, NO_TYPE]],
    }
}

#[test]
fn empty_sections_are_legal() {
    assert_eq!(check(&Table::default()), Ok(()));
    let table = Table {
        methods: vec![[0, 0, 0, 0, NO_TYPE, NO_TYPE, NO_TYPE, NO_TYPE]],
        ..Table::default()
    };
    assert_eq!(check(&table), Ok(()));
}

#[test]
fn shape() {
    let shape = Err(Reason::SchemaShape.at(0));
    let good = table_t();
    for length in 0..good.len() {
        assert_eq!(check_table(&good[..length]), shape);
        if length > 0 {
            assert_eq!(check_table(&good[length..]), shape);
        }
    }
    let trailers = [
        [60, 92, 124, 0],
        [60, 92, 124, 2],
        [60, 92, 123, 1],
        [60, 92, 125, 1],
        [60, 92, NO_TYPE, 1],
        [92, 60, 124, 1],
        [60, 124 + 32, 124, 1],
        [60, 60 + 8 * 5, 124, 1],
        [59, 92, 124, 1],
        [60, 93, 124, 1],
        [48, 92, 124, 1],
        [NO_TYPE - 3, 92, 124, 1],
        [60, NO_TYPE, 124, 1],
    ];
    for trailer in trailers {
        let mut bytes = good.clone();
        bytes[124..].copy_from_slice(&words(&trailer));
        assert_eq!(check_table(&bytes), shape, "{trailer:?}");
    }
    let longer = [&good[..], &[0]].concat();
    assert_eq!(check_table(&longer), shape);
}

#[test]
fn counts() {
    let types = |count| Table {
        types: vec![[1, 0, 0]; count],
        ..Table::default()
    };
    assert_eq!(check(&types(256)), Ok(()));
    assert_eq!(check(&types(257)), Err(Reason::TooManyRows.at(0)));
    let fields = |count| Table {
        types: vec![[1, 0, 0]],
        fields: vec![[0, 0]; count],
        ..Table::default()
    };
    assert_eq!(check(&fields(2_048)), Ok(()));
    assert_eq!(check(&fields(2_049)), Err(Reason::TooManyRows.at(0)));
    let methods = |count| Table {
        methods: (0..count)
            .map(|number| [0, 0, number, 0, NO_TYPE, NO_TYPE, NO_TYPE, NO_TYPE])
            .collect(),
        ..Table::default()
    };
    assert_eq!(check(&methods(256)), Ok(()));
    assert_eq!(check(&methods(257)), Err(Reason::TooManyRows.at(0)));
    let faulty = Table {
        types: vec![[0, 0, 0]; 257],
        ..Table::default()
    };
    assert_eq!(check(&faulty), Err(Reason::TooManyRows.at(0)));
}

#[test]
fn type_rows() {
    let bad = [
        [0, 0, 0],
        [17, 0, 0],
        [NO_TYPE, 0, 0],
        [1, 1, 0],
        [13, 0, 1],
        [14, 5, 0],
        [14, 0, 1],
        [15, 5, 0],
        [15, 0, 5],
        [15, 3, 0],
        [15, 4, 0],
        [15, 2, 0],
        [16, 0, 0],
        [16, 0, 5],
        [16, 4, 1],
        [16, 0, 65],
        [16, NO_TYPE, 1],
        [16, NO_TYPE - 63, 64],
        [16, 1, NO_TYPE],
    ];
    for row in bad {
        let mut table = t();
        table.types[2] = row;
        assert_eq!(check(&table), Err(Reason::TypeRow.at(2)), "{row:?}");
    }
    for key in 1..=16 {
        let legal = matches!(key, 1..=9 | 12 | 13);
        let table = Table {
            types: vec![[15, 1, 0], [key, 0, u32::from(key == 16)]],
            fields: vec![[0, 1]],
            ..Table::default()
        };
        let expected = match legal {
            true => Ok(()),
            false => Err(Reason::TypeRow.at(0)),
        };
        assert_eq!(check(&table), expected, "{key}");
    }
    let later_fault = Table {
        types: vec![[15, 1, 1], [12, 1, 0]],
        ..Table::default()
    };
    assert_eq!(check(&later_fault), Err(Reason::TypeRow.at(1)));
    let itself = Table {
        types: vec![[14, 0, 0], [15, 2, 1], [6, 0, 0], [16, 0, 1]],
        fields: vec![[3, 0]],
        ..Table::default()
    };
    assert_eq!(check(&itself), Ok(()));
}

#[test]
fn sixty_four_fields() {
    let table = |count| Table {
        types: vec![[1, 0, 0], [16, 0, count]],
        fields: vec![[0, 0]; 65],
        ..Table::default()
    };
    assert_eq!(check(&table(64)), Ok(()));
    assert_eq!(check(&table(65)), Err(Reason::TypeRow.at(1)));
}

#[test]
fn fields() {
    for field in [[5, 0], [NO_TYPE, 1], [0, 2], [0, NO_TYPE]] {
        for number in [0, 3] {
            let mut table = t();
            table.fields[number] = field;
            assert_eq!(check(&table), Err(Reason::FieldEntry.at(number)));
        }
        let mut table = t();
        table.fields.push(field);
        assert_eq!(check(&table), Err(Reason::FieldEntry.at(4)));
    }
}

#[test]
fn methods() {
    let bad = [
        [1, 2, 4, 16, NO_TYPE, NO_TYPE, NO_TYPE, NO_TYPE],
        [1, 2, 4, NO_TYPE, 2, 2, 2, 2],
        [1, 2, 4, 8, 0, NO_TYPE, NO_TYPE, NO_TYPE],
        [1, 2, 4, 8, 5, NO_TYPE, NO_TYPE, NO_TYPE],
        [1, 2, 4, 8, NO_TYPE, NO_TYPE, NO_TYPE, NO_TYPE],
        [1, 2, 4, 4, 2, NO_TYPE, NO_TYPE, NO_TYPE],
        [1, 2, 4, 2, NO_TYPE, NO_TYPE, NO_TYPE, 2],
        [1, 2, 4, 1, NO_TYPE, NO_TYPE, 2, NO_TYPE],
        [1, 2, 4, 0, NO_TYPE, NO_TYPE, NO_TYPE, 0],
        [1, 2, 3, 0, NO_TYPE, NO_TYPE, NO_TYPE, NO_TYPE],
        [1, 2, 3, 12, 2, 4, NO_TYPE, NO_TYPE],
    ];
    for entry in bad {
        let mut table = t();
        table.methods.push(entry);
        assert_eq!(check(&table), Err(Reason::MethodEntry.at(1)), "{entry:?}");
    }
    for form in 0..16u32 {
        let side = |bit: u32| if form & bit != 0 { 4 } else { NO_TYPE };
        let mut table = t();
        table
            .methods
            .push([3, 2, 1, form, side(8), side(4), side(2), side(1)]);
        assert_eq!(check(&table), Ok(()));
    }
}

#[test]
fn order_of_faults() {
    let mut table = t();
    table.methods[0][3] = 16;
    assert_eq!(check(&table), Err(Reason::MethodEntry.at(0)));
    table.fields[2][1] = 2;
    assert_eq!(check(&table), Err(Reason::FieldEntry.at(2)));
    table.types[4] = [16, 0, 0];
    assert_eq!(check(&table), Err(Reason::TypeRow.at(4)));
    table.types[3] = [14, 0, 1];
    assert_eq!(check(&table), Err(Reason::TypeRow.at(3)));
}

/// Whether a change to table T still extends it.
fn extends_t(change: impl Fn(&mut Table)) -> bool {
    let mut new = t();
    change(&mut new);
    extends(&t().bytes(), &new.bytes()).unwrap()
}

/// Gives type 2 of table T other fields, at the end of the section.
fn refit(table: &mut Table, fields: &[[u32; 2]]) {
    table.types[2] = [16, table.fields.len() as u32, fields.len() as u32];
    table.fields.extend(fields);
}

#[test]
fn extension() {
    assert!(extends_t(|_| {}));
    assert!(extends_t(|new| new.types.push([1, 0, 0])));
    assert!(extends_t(|new| new.fields.push([0, 0])));
    assert!(extends_t(|new| refit(new, &[[0, 0], [1, 1]])));
    assert!(extends_t(|new| refit(new, &[[0, 0], [1, 1], [4, 1]])));
    assert!(extends_t(|new| refit(
        new,
        &[&[[0, 0], [1, 1]][..], &[[0, 1]; 6]].concat()
    )));
    assert!(!extends_t(|new| refit(
        new,
        &[&[[0, 0], [1, 1]][..], &[[0, 1]; 7]].concat()
    )));
    assert!(!extends_t(|new| refit(new, &[[0, 0]])));
    assert!(!extends_t(|new| refit(new, &[[0, 0], [1, 1], [4, 0]])));
    assert!(!extends_t(|new| refit(new, &[[0, 0], [1, 0]])));
    assert!(!extends_t(|new| refit(new, &[[0, 0], [0, 1]])));
    assert!(!extends_t(|new| refit(new, &[[1, 1], [0, 0]])));
    assert!(!extends_t(|new| new.types[0] = [7, 0, 0]));
    assert!(!extends_t(|new| new.types[3] = [14, 0, 0]));
    assert!(!extends_t(|new| new.types[3] = [13, 0, 0]));
    let method = [9, 9, 9, 0, NO_TYPE, NO_TYPE, NO_TYPE, NO_TYPE];
    assert!(extends_t(|new| new.methods.insert(0, method)));
    assert!(!extends_t(|new| new.methods = vec![method]));
    assert!(!extends_t(|new| new.methods[0][4] = 4));
    assert!(!extends_t(|new| new.methods[0][0] = 7));
    let empty = Table::default().bytes();
    assert_eq!(extends(&empty, &t().bytes()), Ok(true));
    assert_eq!(extends(&t().bytes(), &empty), Ok(false));
}

#[test]
fn eight_fields_do_not_become_nine() {
    let table = |count: u32| {
        let fields = [vec![[0, 0]; 7], vec![[0, 1]; 2]].concat();
        Table {
            types: vec![[6, 0, 0], [16, 0, count]],
            fields,
            ..Table::default()
        }
        .bytes()
    };
    assert_eq!(extends(&table(7), &table(8)), Ok(true));
    assert_eq!(extends(&table(8), &table(9)), Ok(false));
    assert_eq!(extends(&table(8), &table(7)), Ok(false));
}

#[test]
fn extension_of_bad_tables() {
    let good = table_t();
    let mut bad = t();
    bad.types[1] = [0, 0, 0];
    let type_fault = Err(Reason::TypeRow.at(1));
    assert_eq!(extends(&bad.bytes(), &good), type_fault);
    assert_eq!(extends(&good, &bad.bytes()), type_fault);
    assert_eq!(extends(&bad.bytes(), &[]), type_fault);
    assert_eq!(extends(&[], &bad.bytes()), Err(Reason::SchemaShape.at(0)));
}

/// Table T with one fault for each number of a table.
fn faulty() -> [(Vec<u8>, Refusal); 5] {
    let (mut types, mut fields, mut methods) = (t(), t(), t());
    types.types[3] = [14, 9, 0];
    fields.fields[2] = [9, 0];
    methods.methods.push(methods.methods[0]);
    let many = Table {
        types: vec![[1, 0, 0]; 257],
        ..Table::default()
    };
    [
        (table_t()[1..].to_vec(), Reason::SchemaShape.at(0)),
        (many.bytes(), Reason::TooManyRows.at(0)),
        (types.bytes(), Reason::TypeRow.at(3)),
        (fields.bytes(), Reason::FieldEntry.at(2)),
        (methods.bytes(), Reason::MethodEntry.at(1)),
    ]
}

#[test]
fn every_entry_gives_the_faults_of_a_table_first() {
    for (schema, refusal) in faulty() {
        assert_eq!(check_table(&schema), Err(refusal));
        assert_eq!(extends(&schema, &[]), Err(refusal));
        assert_eq!(extends(&table_t(), &schema), Err(refusal));
        let long = [0; 16_385];
        assert_eq!(read(&schema, 99, &long, &mut []), Err(refusal));
        assert_eq!(scalar(&schema, [99; 4], &[]), Err(refusal));
        assert_eq!(write(&schema, 99, &[9; 9], &[], &mut []), Err(refusal));
        let mut calls = CallTable::fresh();
        calls.slots[3].response = true;
        let mut tallies = [Tally::default(); 3];
        let received = calls.receive(&schema, &mut tallies, 0, &[0; 40], &mut []);
        assert_eq!(received.outcome, Outcome::Refused(refusal));
        assert_eq!((received.used, received.open), (0, 0));
        let released = calls.release(&schema, &mut tallies, 0);
        assert_eq!((released.result, released.open), (Err(refusal), 0));
        assert_eq!(tallies, [Tally::default(); 3]);
        let stopped = format!("stopped {} left 3\n", refusal.number());
        assert!(list(&schema, &[0; 3]).ends_with(&stopped));
    }
}
