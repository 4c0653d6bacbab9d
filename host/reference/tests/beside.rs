//! The reader with the writer's table beside ours.

mod common;

use std::collections::BTreeMap;

use common::{read_into, table_t, BYTE, CELL, NO_TYPE};
use reference::cases::{BesideCase, Case};
use reference::generate::relay::relay;
use reference::generate::rng::Rng;
use reference::generate::table::Table;
use reference::generate::Generator;
use reference::schema::Type;
use reference::*;
use Reason::*;

/// Rows, tail place, tail length and comparisons.
type Shown = (Vec<[u32; 4]>, usize, usize, usize);

/// Reads with more rows than any value of this payload has, and some odd cells.
fn shown(ours: &[u8], theirs: &[u8], root: u32, payload: &[u8]) -> Result<Shown, Refusal> {
    let (rows, reading) = read_into(4 * payload.len() + 7, |sheet| {
        read_beside(ours, theirs, root, payload, sheet)
    })?;
    let Reading {
        tail_place,
        tail_length,
        comparisons,
        ..
    } = reading;
    Ok((rows, tail_place, tail_length, comparisons))
}

/// Table T of a carrier that has added a byte to the struct in the array, and a
/// map and a string to the root.
fn carrier_t() -> Table {
    Table {
        types: vec![
            [6, 0, 0],
            [12, 0, 0],
            [16, 0, 3],
            [14, 2, 0],
            [16, 3, 4],
            [15, 0, 2],
        ],
        fields: vec![[0, 0], [1, 1], [0, 1], [3, 0], [0, 1], [5, 1], [1, 1]],
        methods: vec![[1, 2, 3, 12, 2, 4, NO_TYPE, NO_TYPE]],
    }
}

fn t_beside(payload: &[u8]) -> Result<Shown, Refusal> {
    shown(&table_t(), &carrier_t().bytes(), 4, payload)
}

#[test]
fn added_fields_are_left_out_at_every_depth() {
    // Two receipts; the first has a byte more, the second a string.
    let inner = [1, 2, 5, 7, 9, 3, 8, 1, b'x'];
    let rows = vec![
        [4, 0, 9, 1],
        [3, 2, 7, 2],
        [2, 2, 3, 1],
        [0, 3, 1, 0],
        [2, 5, 4, 2],
        [0, 6, 1, 0],
        [1, 8, 1, 0],
    ];
    assert_eq!(t_beside(&inner), Ok((rows, 9, 0, 0)));
    // The base reader keeps 26.
    let base = read(&table_t(), 4, &inner, &mut [0; 64]);
    assert_eq!(base, Err(UnknownInnerBit.at(2)));
    // The root's length covers the added fields; their maps count.
    let root = [0x0D, 1, 1, 7, 2, 5, 1, 6, 4, 1, 6, 2, b'o', b'k'];
    let rows = vec![[4, 0, 14, 1], [3, 2, 2, 1], [2, 2, 2, 1], [0, 3, 1, 0]];
    assert_eq!(t_beside(&root), Ok((rows, 14, 0, 1)));
    // The base reader takes them for a tail.
    let mut sheet = [0; 64];
    let base = read(&table_t(), 4, &root, &mut sheet).unwrap();
    assert_eq!((base.tail_place, base.tail_length), (4, 10));
    assert_eq!(sheet[..4], [4, 0, 4, 1]);
}

#[test]
fn the_tail_is_what_theirs_does_not_know() {
    // Bit 3 is a string that theirs has, bit 4 is unknown to both.
    let payload = [0x19, 0, 1, b'x', 9, 9];
    let rows = vec![[4, 0, 4, 1], [3, 2, 0, 0]];
    assert_eq!(t_beside(&payload), Ok((rows, 4, 2, 0)));
    assert_eq!(t_beside(&payload[..4]), Err(ExceedsRemaining.at(4)));
    let two = [0x31, 0, 9];
    assert_eq!(t_beside(&two), Err(ExceedsRemaining.at(2)));
    let surplus = [0x09, 0, 1, b'x', 9];
    assert_eq!(t_beside(&surplus), Err(SurplusBytes.at(4)));
    // Unknown to theirs too, in an inner struct.
    let inner = [1, 1, 9, 7];
    assert_eq!(t_beside(&inner), Err(UnknownInnerBit.at(2)));
    // And in a struct inside an added map.
    let added = [5, 0, 1, 5, 9, 6];
    assert_eq!(t_beside(&added), Err(UnknownInnerBit.at(4)));
}

#[test]
fn faults_inside_added_fields() {
    let text = |bytes: &[u8]| t_beside(&[&[9, 0], bytes].concat());
    assert_eq!(text(&[1, 0xFF]), Err(NotUtf8.at(3)));
    assert_eq!(text(&[2, b'x']), Err(ExceedsRemaining.at(2)));
    assert_eq!(text(&[0x81, 0, b'x']), Err(MalformedVarUint.at(2)));
    assert_eq!(text(&[]), Err(ExceedsRemaining.at(2)));
    let map = |bytes: &[u8]| t_beside(&[&[5, 0], bytes].concat());
    assert_eq!(map(&[2, 5, 1, 6, 5, 1, 6]), Err(DuplicateKey.at(6)));
    assert_eq!(map(&[1, 5, 4]), Err(RequiredFieldAbsent.at(4)));
    let many = [&[65][..], &[0; 130]].concat();
    assert_eq!(map(&many), Err(TooManyPairs.at(2)));
    // A bool that is none.
    let ours = Table {
        types: vec![[6, 0, 0], [16, 0, 1]],
        fields: vec![[0, 1]],
        methods: vec![],
    };
    let mut theirs = ours.clone();
    theirs.add_type(1, 0, 0);
    theirs.add_type(14, 3, 0);
    theirs.types[1][2] = 3;
    theirs.fields.extend([[2, 1], [3, 1]]);
    let (ours, theirs) = (ours.bytes(), theirs.bytes());
    let flag = shown(&ours, &theirs, 1, &[3, 7, 2]);
    assert_eq!(flag, Err(NotABool.at(2)));
    // Arrays of arrays down to depth 16 and 17.
    let deep = |levels: usize| [&[4][..], &vec![1; levels - 2], &[0]].concat();
    let rows = vec![[1, 0, 16, 0]];
    assert_eq!(shown(&ours, &theirs, 1, &deep(16)), Ok((rows, 16, 0, 0)));
    let answer = shown(&ours, &theirs, 1, &deep(17));
    assert_eq!(answer, Err(TooDeep.at(16)));
}

/// Ours: a struct of so many optional bytes, in an array of the root.
/// Theirs: the same with more of them.
fn widths(known: u32, all: u32) -> [Vec<u8>; 2] {
    [known, all].map(|fields| {
        Table {
            types: vec![[6, 0, 0], [16, 1, fields], [14, 1, 0], [16, 0, 1]],
            fields: [vec![[2, 0]], vec![[0, 1]; fields as usize]].concat(),
            methods: vec![],
        }
        .bytes()
    })
}

#[test]
fn bitmaps_that_grow_by_whole_bytes() {
    for (known, all) in [(7, 8), (8, 9), (8, 16), (1, 9), (8, 64), (1, 64), (63, 64)] {
        let [ours, theirs] = widths(known, all);
        let same = known.div_ceil(8) == all.div_ceil(8);
        assert_eq!(extends(&ours, &theirs), Ok(same));
        let width = all.div_ceil(8) as usize;
        // The last known field, the first added one and the last of all.
        let bits = [known - 1, known, all - 1];
        let bitmap = bits.into_iter().fold(0u64, |bitmap, bit| bitmap | 1 << bit);
        let present = bitmap.count_ones();
        let contents: Vec<u8> = (1..=present as u8).collect();
        let element = [&bitmap.to_le_bytes()[..width], &contents].concat();
        let payload = [&[1, 2][..], &element, &element].concat();
        let size = element.len() as u32;
        let receipt = |place: u32| [[1, place, size, 1], [0, place + width as u32, 1, 0]];
        let rows = [
            &[[3, 0, 2 + 2 * size, 1], [2, 2, 2 * size, 2]][..],
            &receipt(2),
            &receipt(2 + size),
        ]
        .concat();
        let answer = shown(&ours, &theirs, 3, &payload);
        assert_eq!(answer, Ok((rows, payload.len(), 0, 0)));
        // As the root.
        let rows = receipt(0).to_vec();
        let answer = shown(&ours, &theirs, 1, &element);
        assert_eq!(answer, Ok((rows, element.len(), 0, 0)));
        // A bitmap that ours would find whole.
        let cut = shown(&ours, &theirs, 1, &element[..width - 1]);
        assert_eq!(cut, Err(ExceedsRemaining.at(0)));
    }
}

/// The answer for tables alone: 46 where there is nothing to say of them.
fn tables(ours: &Table, theirs: &Table) -> Result<Shown, Refusal> {
    shown(&ours.bytes(), &theirs.bytes(), 77, &[0; 20_000])
}

#[test]
fn tables_that_extend_and_tables_that_do_not() {
    let ours = Table {
        types: vec![
            [6, 0, 0],
            [12, 0, 0],
            [16, 0, 8],
            [14, 2, 0],
            [15, 0, 1],
            [16, 3, 2],
        ],
        fields: [vec![[0, 0], [1, 1]], vec![[0, 1]; 6]].concat(),
        methods: vec![
            [1, 2, 3, 12, 2, 2, NO_TYPE, NO_TYPE],
            [1, 2, 4, 12, 2, 5, NO_TYPE, NO_TYPE],
        ],
    };
    let changed = |change: fn(&mut Table)| {
        let mut theirs = ours.clone();
        change(&mut theirs);
        assert_eq!(check_table(&theirs.bytes()), Ok(()));
        tables(&ours, &theirs)
    };
    let kept: &[fn(&mut Table)] = &[
        |_| {},
        |theirs| theirs.types.push([1, 0, 0]),
        |theirs| theirs.methods.reverse(),
        |theirs| {
            theirs
                .methods
                .push([9, 9, 9, 0, NO_TYPE, NO_TYPE, NO_TYPE, NO_TYPE])
        },
        |theirs| {
            theirs.fields.push([1, 1]);
            theirs.types[2][2] = 9;
        },
        |theirs| {
            theirs.fields = [vec![[4, 1]; 5], theirs.fields.clone()].concat();
            theirs.types[2][1] = 5;
            theirs.types[5][1] = 8;
        },
        |theirs| theirs.types[5][2] = 5,
        |theirs| {
            theirs.fields.resize(64, [3, 1]);
            theirs.types[2][2] = 64;
        },
    ];
    for change in kept {
        assert_eq!(changed(*change), Err(NotAStruct.at(0)));
    }
    let broken: &[fn(&mut Table)] = &[
        |theirs| theirs.types[0][0] = 2,
        |theirs| theirs.types[3][1] = 5,
        |theirs| theirs.types[4][1] = 1,
        |theirs| theirs.types[4][2] = 0,
        |theirs| theirs.types[3] = [15, 0, 1],
        |theirs| theirs.types[1] = [16, 0, 1],
        |theirs| theirs.fields[0] = [1, 0],
        |theirs| theirs.fields[0] = [0, 1],
        |theirs| theirs.fields[1] = [1, 0],
        |theirs| theirs.types[2][2] = 7,
        |theirs| theirs.fields.swap(0, 1),
        |theirs| {
            theirs.fields.push([0, 0]);
            theirs.types[2][2] = 9;
        },
        |theirs| {
            theirs.fields.extend([[0, 1], [0, 0]]);
            theirs.types[2][2] = 10;
        },
        |theirs| theirs.methods.truncate(1),
        |theirs| theirs.methods[1][2] = 5,
        |theirs| theirs.methods[0][5] = 5,
        |theirs| theirs.methods[0][3..6].copy_from_slice(&[8, 2, NO_TYPE]),
    ];
    for (number, change) in broken.iter().enumerate() {
        assert_eq!(changed(*change), Err(NoExtension.at(0)), "{number}");
    }
    // A type row less; theirs may have more, ours may not.
    let mut more = ours.clone();
    more.add_type(1, 0, 0);
    assert_eq!(tables(&more, &ours), Err(NoExtension.at(0)));
    assert_eq!(tables(&ours, &more), Err(NotAStruct.at(0)));
}

#[test]
fn the_order_of_refusals() {
    let good = table_t();
    let (mut bad_type, mut bad_method) = (table_t(), table_t());
    bad_type[12] = 99;
    bad_method[104] = 99;
    let other = Table::default().bytes();
    let mut theirs = carrier_t();
    let only_theirs = theirs.add_struct(&[[0, 1]]);
    let theirs = theirs.bytes();
    let long = [0; 16_385];
    let answer = |ours: &[u8], theirs: &[u8], root, payload: &[u8]| {
        let mut sheet = [CELL; 3];
        let answer = read_beside(ours, theirs, root, payload, &mut sheet);
        assert_eq!(sheet, [CELL; 3]);
        answer
    };
    // Ours, then theirs.
    assert_eq!(
        answer(&bad_method, &bad_type, 77, &long),
        Err(MethodEntry.at(0))
    );
    assert_eq!(answer(&bad_type, &[], 77, &long), Err(TypeRow.at(1)));
    assert_eq!(answer(&good, &bad_type, 77, &long), Err(TypeRow.at(1)));
    assert_eq!(answer(&good, &[], 77, &long), Err(SchemaShape.at(0)));
    assert_eq!(
        answer(&other, &bad_method, 77, &long),
        Err(MethodEntry.at(0))
    );
    let many = Table {
        types: vec![[1, 0, 0]; 257],
        ..Table::default()
    }
    .bytes();
    assert_eq!(answer(&good, &many, 77, &long), Err(TooManyRows.at(0)));
    let field = Table {
        types: vec![[1, 0, 0]],
        fields: vec![[0, 0], [0, 2]],
        methods: vec![],
    }
    .bytes();
    assert_eq!(answer(&field, &many, 77, &long), Err(FieldEntry.at(1)));
    assert_eq!(answer(&good, &field, 77, &long), Err(FieldEntry.at(1)));
    // 47, also where theirs is the old one.
    for root in [4, only_theirs, 77] {
        assert_eq!(answer(&good, &other, root, &long), Err(NoExtension.at(0)));
        assert_eq!(answer(&theirs, &good, root, &long), Err(NoExtension.at(0)));
    }
    // 46 by ours.
    for root in [0, 1, 3, 5, only_theirs, 77, u32::MAX] {
        assert_eq!(answer(&good, &theirs, root, &long), Err(NotAStruct.at(0)));
        assert_eq!(answer(&good, &theirs, root, &[0]), Err(NotAStruct.at(0)));
    }
    assert!(read(&theirs, only_theirs, &[0], &mut [0; 4]).is_ok());
    // 7, the payload, 30.
    assert_eq!(answer(&good, &theirs, 4, &long), Err(PayloadTooLong.at(0)));
    let at_most = &long[..16_384];
    let absent = Err(RequiredFieldAbsent.at(0));
    assert_eq!(answer(&good, &theirs, 4, at_most), absent);
    assert_eq!(answer(&good, &theirs, 4, &[]), Err(ExceedsRemaining.at(0)));
    assert_eq!(
        answer(&good, &theirs, 4, &[1, 0, 9]),
        Err(SurplusBytes.at(2))
    );
    assert_eq!(answer(&good, &theirs, 4, &[1, 0]), Err(SheetTooSmall.at(0)));
}

#[test]
fn thirty_is_by_the_rows_shown() {
    // Theirs has nine rows, ours shows four.
    let payload = [0x0D, 1, 1, 7, 1, 5, 1, 6, 1, b'x'];
    let theirs = carrier_t().bytes();
    let mut all = [CELL; 64];
    let by_theirs = read(&theirs, 4, &payload, &mut all).unwrap();
    assert_eq!(by_theirs.rows, 9);
    for cells in 0..40 {
        let mut sheet = vec![CELL; cells];
        let answer = read_beside(&table_t(), &theirs, 4, &payload, &mut sheet);
        if cells < 16 {
            assert_eq!(answer, Err(SheetTooSmall.at(0)));
            assert!(sheet.iter().all(|&cell| cell == CELL));
        } else {
            assert_eq!(answer.unwrap().rows, 4);
            assert!(sheet[16..].iter().all(|&cell| cell == CELL));
        }
    }
}

#[test]
fn payloads_of_16384_and_16385_bytes() {
    let schemas = [1, 2].map(|fields| {
        Table {
            types: vec![[13, 0, 0], [16, 0, fields]],
            fields: vec![[0, 1]; 2],
            methods: vec![],
        }
        .bytes()
    });
    let payload = |bits: u8, length: usize| {
        let content = length - 3;
        let size = [content as u8 | 0x80, (content >> 7) as u8];
        [&[bits][..], &size, &vec![0xEE; content]].concat()
    };
    let [ours, theirs] = &schemas;
    let known = vec![[1, 0, 16_384, 1], [0, 3, 16_381, 0]];
    let answer = shown(ours, theirs, 1, &payload(1, 16_384));
    assert_eq!(answer, Ok((known, 16_384, 0, 0)));
    let added = vec![[1, 0, 16_384, 0]];
    let answer = shown(ours, theirs, 1, &payload(2, 16_384));
    assert_eq!(answer, Ok((added, 16_384, 0, 0)));
    for bits in [1, 2] {
        let answer = shown(ours, theirs, 1, &payload(bits, 16_385));
        assert_eq!(answer, Err(PayloadTooLong.at(0)));
    }
}

/// The same table twice is the plain reader.
#[test]
fn the_same_table_twice() {
    let mut seen = BTreeMap::new();
    for mut generator in [Generator::new(41, &[3]), Generator::across(42)] {
        for _ in 0..5_000 {
            let Some(Case::Read(case)) = generator.case() else {
                panic!("another code");
            };
            let (schema, root) = (&case.schema, case.type_number);
            let (mut one, mut two) = (vec![CELL; case.cells], vec![CELL; case.cells]);
            let plain = read(schema, root, &case.payload, &mut one);
            let beside = read_beside(schema, schema, root, &case.payload, &mut two);
            assert_eq!((beside, two), (plain, one));
            let number = plain.map_or_else(Refusal::number, |_| 0);
            *seen.entry(number).or_insert(0) += 1;
        }
    }
    assert!(seen.len() == 19 && seen[&0] > 2_000, "{seen:?}");
}

/// The cases of code 16.
fn cases(seed: u64, number: usize) -> impl Iterator<Item = BesideCase> {
    let mut generator = Generator::new(seed, &[16]);
    (0..number).map(move |_| match generator.case() {
        Some(Case::Beside(case)) => case,
        _ => panic!("another code"),
    })
}

/// The case with rows enough, and the rows and answer of the plain reader with
/// their table.
fn by_both(case: &BesideCase) -> (Result<Shown, Refusal>, Result<Shown, Refusal>) {
    let root = case.type_number;
    let beside = shown(&case.ours, &case.theirs, root, &case.payload);
    let theirs = shown(&case.theirs, &case.theirs, root, &case.payload);
    (beside, theirs)
}

/// Takes a value off the front of rows by their table, and adds those that
/// ours shows.
fn take_value(
    (ours, theirs): (&Schema, &Schema),
    payload: &[u8],
    rows: &mut std::slice::Iter<[u32; 4]>,
    out: &mut Vec<[u32; 4]>,
) {
    let tables = (ours, theirs);
    let row = *rows.next().unwrap();
    let own = out.len();
    out.push(row);
    match theirs.type_row(row[0]) {
        Type::Array { .. } => {
            (0..row[3]).for_each(|_| take_value(tables, payload, rows, out));
        }
        Type::Map { .. } => {
            (0..2 * row[3]).for_each(|_| take_value(tables, payload, rows, out));
        }
        Type::Struct { count, .. } => {
            let known = match ours.find_type(row[0]) {
                Some(Type::Struct { count, .. }) => count,
                _ => 0,
            };
            let is_set = |bit: u32| payload[(row[1] + bit / 8) as usize] >> (bit % 8) & 1 == 1;
            let present = (0..count).filter(|&bit| is_set(bit));
            for bit in present {
                match bit < known {
                    true => take_value(tables, payload, rows, out),
                    false => take_value(tables, payload, rows, &mut Vec::new()),
                }
            }
            out[own][3] = (0..known).filter(|&bit| is_set(bit)).count() as u32;
        }
        _ => {}
    }
}

/// Where the tables are right and the type is ours, the answer is the plain
/// reader's with their table, and the rows are its rows without those of the
/// added fields.
#[test]
fn read_by_theirs_and_shown_by_ours() {
    let mut seen = BTreeMap::new();
    for case in cases(43, 8_000) {
        let (beside, by_theirs) = by_both(&case);
        match (beside, by_theirs) {
            (Err(refusal), theirs) => {
                let number = refusal.number();
                assert!(matches!(number, 40..=47) || theirs == Err(refusal));
                *seen.entry(number).or_insert(0) += 1;
            }
            (Ok((rows, place, length, comparisons)), Ok(theirs)) => {
                let all = theirs.0;
                assert_eq!((place, length, comparisons), (theirs.1, theirs.2, theirs.3));
                let tables = [&case.ours, &case.theirs].map(|bytes| Schema::check(bytes).unwrap());
                let mut expected = Vec::new();
                let mut left = all.iter();
                let [ours, theirs] = &tables;
                take_value((ours, theirs), &case.payload, &mut left, &mut expected);
                assert_eq!((left.len(), &rows), (0, &expected));
                *seen.entry(0).or_insert(0) += 1;
                if rows != all {
                    *seen.entry(1_000).or_insert(0) += 1;
                }
            }
            (Ok(_), Err(refusal)) => panic!("accepted, by theirs {refusal:?}"),
        }
    }
    for number in [0, 1_000].into_iter().chain(20..=28).chain([31, 46, 47]) {
        assert!(seen[&number] > 100, "{number}: {seen:?}");
    }
}

/// What a table accepts alone, with rows enough.
fn alone(schema: &[u8], root: u32, payload: &[u8]) -> Option<Shown> {
    shown(schema, schema, root, payload).ok()
}

/// Under 01's own extension, what both readers accept has the same rows but for
/// the root's length, which here covers the added fields.
fn same_but_for_the_root(case: &BesideCase) -> Option<bool> {
    let root = case.type_number;
    let (base, base_tail, ..) = alone(&case.ours, root, &case.payload)?;
    let beside = shown(&case.ours, &case.theirs, root, &case.payload);
    let (mut rows, tail, tail_length, _) = beside.ok()?;
    assert_eq!(base[0][2] as usize, base_tail);
    assert_eq!(rows[0][2] as usize, tail);
    assert_eq!(tail + tail_length, case.payload.len());
    assert!(tail >= base_tail);
    let longer = tail > base_tail;
    rows[0][2] = base[0][2];
    assert_eq!(rows, base);
    Some(longer)
}

#[test]
fn what_both_readers_accept() {
    let mut seen = [0; 2];
    let mut rng = Rng::new(44);
    let relayed = (0..4_000).map(|_| {
        let sent = relay(&mut rng);
        BesideCase {
            ours: sent.old,
            theirs: sent.new,
            type_number: sent.root,
            payload: sent.payload,
            cells: 0,
        }
    });
    for case in cases(45, 6_000).chain(relayed) {
        if extends(&case.ours, &case.theirs) == Ok(true) {
            if let Some(longer) = same_but_for_the_root(&case) {
                seen[usize::from(longer)] += 1;
            }
        }
    }
    assert!(seen[0] > 500 && seen[1] > 300, "{seen:?}");
}

/// Every value that a new writer writes of a struct that ours has is shown.
#[test]
fn every_value_of_a_new_writer_is_shown() {
    let mut rng = Rng::new(46);
    let mut refused = 0;
    for _ in 0..4_000 {
        let sent = relay(&mut rng);
        let beside = shown(&sent.old, &sent.new, sent.root, &sent.payload);
        assert!(beside.is_ok());
        refused += usize::from(alone(&sent.old, sent.root, &sent.payload).is_none());
    }
    assert!(refused > 200, "{refused}");
}

/// The type and count of rows, and the contents of scalars, strings and bytes.
fn fields(schema: &[u8], rows: &[[u32; 4]], data: &[u8]) -> Vec<(u32, u32, Vec<u8>)> {
    let schema = Schema::check(schema).unwrap();
    let content = |row: &[u32; 4]| match schema.type_row(row[0]) {
        Type::Array { .. } | Type::Map { .. } | Type::Struct { .. } => Vec::new(),
        _ => data[row[1] as usize..][..row[2] as usize].to_vec(),
    };
    rows.iter()
        .map(|row| (row[0], row[3], content(row)))
        .collect()
}

/// What is shown and accepted by the plain writer comes back with the same
/// known fields. The writer refuses an added bit that stands in an inner
/// bitmap as ours has it.
#[test]
fn what_the_plain_writer_makes_of_it() {
    let mut seen = [0; 2];
    for case in cases(47, 6_000) {
        let root = case.type_number;
        let beside = shown(&case.ours, &case.theirs, root, &case.payload);
        let Ok((rows, ..)) = beside else {
            continue;
        };
        let mut out = vec![BYTE; MAX_PAYLOAD];
        let written = write(&case.ours, root, &rows.concat(), &case.payload, &mut out);
        match written {
            Ok(length) => {
                let again = alone(&case.ours, root, &out[..length]).unwrap();
                assert_eq!((again.1, again.2), (length, 0));
                let expected = fields(&case.ours, &rows, &case.payload);
                assert_eq!(fields(&case.ours, &again.0, &out), expected);
                seen[0] += 1;
            }
            Err(refusal) => {
                assert_eq!(refusal.reason, SheetMisfit);
                assert!(refusal.place > 0);
                seen[1] += 1;
            }
        }
    }
    assert!(seen[0] > 800 && seen[1] > 100, "{seen:?}");
}

/// A fault inside an added field of the root: ours alone accepts the payload,
/// as the field is its tail.
#[test]
fn faults_inside_added_fields_come_up() {
    let mut counts = BTreeMap::new();
    let mut widened = 0;
    let mut hidden = 0;
    for case in cases(48, 10_000) {
        let root = case.type_number;
        let beside = shown(&case.ours, &case.theirs, root, &case.payload);
        match beside {
            Err(refusal) if matches!(refusal.number(), 20..=28 | 31) => {
                let inside = alone(&case.ours, root, &case.payload).is_some();
                *counts.entry(refusal.number()).or_insert(0) += usize::from(inside);
            }
            Ok((rows, _, _, comparisons)) => {
                widened += usize::from(extends(&case.ours, &case.theirs) == Ok(false));
                let maps = common::comparisons(&case.ours, &rows);
                hidden += usize::from(comparisons > maps);
            }
            _ => {}
        }
    }
    for number in [20, 21, 22, 23, 24, 25, 26, 28, 31] {
        assert!(counts[&number] >= 10, "{number}: {counts:?}");
    }
    assert!(widened > 1_000 && hidden > 100, "{widened} {hidden}");
}
