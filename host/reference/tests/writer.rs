//! The payload writer, number by number.

mod common;

use common::{table_t, BYTE, P1, P1_ROWS};
use reference::generate::table::Table;
use reference::{write, Reason, Refusal};
use Reason::*;

/// Writes with room to spare and checks that nothing else is touched.
fn written(schema: &[u8], root: u32, rows: &[[u32; 4]], data: &[u8]) -> Result<Vec<u8>, Refusal> {
    let mut out = vec![BYTE; 17_000];
    let answer = write(schema, root, &rows.concat(), data, &mut out);
    let used = answer.unwrap_or(0);
    assert!(out[used..].iter().all(|&byte| byte == BYTE));
    answer.map(|length| out[..length].to_vec())
}

/// P1's rows with one cell changed.
fn with(row: usize, cell: usize, number: u32) -> Vec<[u32; 4]> {
    let mut rows = P1_ROWS.to_vec();
    rows[row][cell] = number;
    rows
}

fn p1(rows: &[[u32; 4]]) -> Result<Vec<u8>, Refusal> {
    written(&table_t(), 4, rows, P1)
}

#[test]
fn ignored_cells() {
    assert_eq!(p1(&P1_ROWS), Ok(P1.to_vec()));
    for (row, cell) in [(0, 2), (1, 1), (1, 2), (2, 2), (5, 2)] {
        assert_eq!(p1(&with(row, cell, u32::MAX)), Ok(P1.to_vec()));
    }
    assert_eq!(p1(&with(3, 1, 8)).unwrap()[3], 0);
}

#[test]
fn what_a_row_alone_shows() {
    let misfit = |row| Err(SheetMisfit.at(row));
    for rows in 0..7 {
        assert_eq!(p1(&P1_ROWS[..rows]), misfit(rows));
    }
    let extra = [&P1_ROWS[..], &[[0; 4], [0; 4]]].concat();
    assert_eq!(p1(&extra), misfit(7));
    for row in 0..7 {
        assert_eq!(p1(&with(row, 0, u32::MAX)), misfit(row));
    }
    assert_eq!(p1(&with(3, 2, 2)), misfit(3));
    assert_eq!(p1(&with(3, 2, 0)), misfit(3));
    assert_eq!(p1(&with(3, 3, 1)), misfit(3));
    assert_eq!(p1(&with(4, 3, 1)), misfit(4));
    assert_eq!(p1(&with(0, 3, 2)), misfit(0));
    assert_eq!(p1(&with(5, 3, 0)), misfit(5));
}

#[test]
fn believed_counts_end_with_the_rows() {
    assert_eq!(p1(&with(1, 3, u32::MAX)), Err(SheetMisfit.at(7)));
    assert_eq!(p1(&with(1, 3, 1)), Err(SheetMisfit.at(5)));
    let itself = Table {
        types: vec![[14, 0, 0], [16, 0, 1]],
        fields: vec![[0, 0]],
        methods: vec![],
    }
    .bytes();
    let mut rows = vec![[1, 0, 0, 1]];
    rows.extend(vec![[0, 0, 0, u32::MAX]; 15]);
    assert_eq!(written(&itself, 1, &rows, &[1]), Err(TooDeep.at(16)));
    rows.truncate(10);
    assert_eq!(written(&itself, 1, &rows, &[1]), Err(SheetMisfit.at(10)));
}

#[test]
fn spans_outside() {
    let outside = |row| Err(SpanOutside.at(row));
    assert_eq!(p1(&with(3, 1, 9)), outside(3));
    assert_eq!(p1(&with(4, 1, 8)), outside(4));
    assert_eq!(p1(&with(4, 2, 5)), outside(4));
    assert_eq!(p1(&with(4, 2, u32::MAX)), outside(4));
    assert_eq!(p1(&with(0, 1, 9)), outside(0));
    assert_eq!(p1(&with(5, 1, u32::MAX)), outside(5));
    let mut rows = with(4, 1, 9);
    rows[4][2] = 0;
    assert_eq!(p1(&rows).map(|bytes| bytes.len()), Ok(7));
    rows[4][1] = 10;
    assert_eq!(p1(&rows), outside(4));
    let mut count_and_place = with(0, 1, 9);
    count_and_place[0][3] = 9;
    assert_eq!(p1(&count_and_place), outside(0));
}

#[test]
fn contents_at_fault() {
    let mut data = P1.to_vec();
    data[5] = 0xFF;
    let answer = written(&table_t(), 4, &P1_ROWS, &data);
    assert_eq!(answer, Err(NotUtf8.at(4)));
    let flags = Table {
        types: vec![[1, 0, 0], [16, 0, 1]],
        fields: vec![[0, 0]],
        methods: vec![],
    }
    .bytes();
    let rows = [[1, 0, 0, 1], [0, 1, 1, 0]];
    assert_eq!(written(&flags, 1, &rows, &[1, 1]), Ok(vec![1, 1]));
    assert_eq!(written(&flags, 1, &rows, &[1, 2]), Err(NotABool.at(1)));
}

#[test]
fn presence_bytes() {
    let change = |place: usize, byte: u8| {
        let mut data = P1.to_vec();
        data[place] = byte;
        written(&table_t(), 4, &P1_ROWS, &data)
    };
    assert_eq!(change(0, 0), Err(RequiredFieldAbsent.at(0)));
    assert_eq!(change(2, 2), Err(RequiredFieldAbsent.at(2)));
    assert_eq!(change(2, 1), Err(SheetMisfit.at(2)));
    assert_eq!(change(2, 7), Err(SheetMisfit.at(2)));
    assert_eq!(change(7, 0x81), Err(SheetMisfit.at(5)));
    assert_eq!(change(0, 3), Err(SheetMisfit.at(0)));
    assert_eq!(change(0, 0xFD), Ok(P1.to_vec()));
    let mut count_too = with(2, 3, 9);
    count_too[2][1] = 4;
    assert_eq!(p1(&count_too), Err(RequiredFieldAbsent.at(2)));
}

#[test]
fn repeated_keys() {
    let schema = Table {
        types: vec![[12, 0, 0], [1, 0, 0], [15, 0, 1], [16, 0, 1]],
        fields: vec![[2, 0]],
        methods: vec![],
    }
    .bytes();
    let data = [1, b'k', b'k', 0, b'l'];
    let rows = |second: [u32; 4]| {
        vec![
            [3, 0, 0, 1],
            [2, 0, 0, 2],
            [0, 1, 1, 0],
            [1, 3, 1, 0],
            second,
            [1, 9, 1, 0],
        ]
    };
    let repeated = Err(DuplicateKey.at(4));
    assert_eq!(written(&schema, 3, &rows([0, 1, 1, 0]), &data), repeated);
    assert_eq!(written(&schema, 3, &rows([0, 2, 1, 0]), &data), repeated);
    let outside = Err(SpanOutside.at(5));
    assert_eq!(written(&schema, 3, &rows([0, 4, 1, 0]), &data), outside);
    assert_eq!(written(&schema, 3, &rows([0, 1, 2, 0]), &data), outside);
}

#[test]
fn depth_16_and_17() {
    let schema = Table {
        types: vec![[16, 0, 1]],
        fields: vec![[0, 1]],
        methods: vec![],
    }
    .bytes();
    let nest = |levels: usize| {
        let mut rows = vec![[0, 0, 0, 1]; levels];
        rows[levels - 1] = [0, 1, 0, 0];
        rows
    };
    let data = [1, 0];
    let whole = [vec![1; 15], vec![0]].concat();
    assert_eq!(written(&schema, 0, &nest(16), &data), Ok(whole));
    let deep = Err(TooDeep.at(16));
    assert_eq!(written(&schema, 0, &nest(17), &data), deep);
    assert_eq!(written(&schema, 0, &nest(17)[..16], &data), deep);
    let missing = Err(SheetMisfit.at(15));
    assert_eq!(written(&schema, 0, &nest(17)[..15], &data), missing);
}

/// A sheet over one long bytes field.
fn long(length: u32) -> (Vec<u8>, Vec<[u32; 4]>) {
    let schema = Table {
        types: vec![[13, 0, 0], [16, 0, 1]],
        fields: vec![[0, 0]],
        methods: vec![],
    }
    .bytes();
    (schema, vec![[1, 0, 0, 1], [0, 0, length, 0]])
}

#[test]
fn outputs_of_16384_and_16385_bytes() {
    let data = vec![1; 40_000];
    let (schema, rows) = long(16_381);
    assert_eq!(written(&schema, 1, &rows, &data).unwrap().len(), 16_384);
    let (schema, rows) = long(16_382);
    let too_long = Err(PayloadTooLong.at(0));
    assert_eq!(written(&schema, 1, &rows, &data), too_long);
    let answer = write(&schema, 1, &rows.concat(), &data, &mut []);
    assert_eq!(answer, Err(PayloadTooLong.at(0)));
    let left_over = [&rows[..], &[[0; 4]]].concat();
    assert_eq!(
        written(&schema, 1, &left_over, &data),
        Err(SheetMisfit.at(2))
    );
}

#[test]
fn outputs_too_small() {
    for room in 0..20 {
        let mut out = vec![BYTE; room];
        let answer = write(&table_t(), 4, &P1_ROWS.concat(), P1, &mut out);
        if room < 9 {
            assert_eq!(answer, Err(OutputTooSmall.at(0)));
            assert!(out.iter().all(|&byte| byte == BYTE));
        } else {
            assert_eq!(answer, Ok(9));
            assert_eq!(&out[..9], P1);
            assert!(out[9..].iter().all(|&byte| byte == BYTE));
        }
    }
}

#[test]
fn odd_cells_are_no_row() {
    for odd in 0..4 {
        let mut sheet = P1_ROWS.concat();
        sheet.extend(vec![7; odd]);
        assert_eq!(write(&table_t(), 4, &sheet, P1, &mut [0; 9]), Ok(9));
        sheet.truncate(24 + odd);
        let answer = write(&table_t(), 4, &sheet, P1, &mut [0; 9]);
        assert_eq!(answer, Err(SheetMisfit.at(6)));
    }
}

#[test]
fn types_that_are_no_struct_and_bad_tables() {
    for number in [0, 1, 3, 5, u32::MAX] {
        let answer = written(&table_t(), number, &[], &[]);
        assert_eq!(answer, Err(NotAStruct.at(0)));
    }
    assert_eq!(written(&[], 0, &[], &[]), Err(SchemaShape.at(0)));
    let mut bad = table_t();
    bad[104] = 99;
    assert_eq!(written(&bad, 0, &[], &[]), Err(MethodEntry.at(0)));
    assert_eq!(written(&table_t(), 4, &[], P1), Err(SheetMisfit.at(0)));
}

/// A table of a struct with a map of a key kind and uint8 values, and the rows
/// of so many pairs with the same key.
fn map_rows(kind: u32, pairs: u32, key: [u32; 4]) -> (Vec<u8>, Vec<[u32; 4]>) {
    let schema = Table {
        types: vec![[kind, 0, 0], [6, 0, 0], [15, 0, 1], [16, 0, 1]],
        fields: vec![[2, 0]],
        methods: vec![],
    }
    .bytes();
    let mut rows = vec![[3, 0, 0, 1], [2, 0, 0, pairs]];
    for _ in 0..pairs {
        rows.extend([key, [1, 0, 1, 0]]);
    }
    (schema, rows)
}

#[test]
fn maps_of_64_and_65_pairs() {
    for kind in [2, 3, 4, 5, 6, 7, 8, 9, 12, 13] {
        let width = match kind {
            2..=5 => 1 << (kind - 2),
            6..=9 => 1 << (kind - 6),
            _ => 3,
        };
        let data: Vec<u8> = [vec![1], (0..8).flat_map(|_| 0..100).collect()].concat();
        let map = |pairs| {
            let (schema, mut rows) = map_rows(kind, pairs, [0, 0, width, 0]);
            for pair in 0..pairs as usize {
                rows[2 + 2 * pair][1] = 1 + pair as u32;
            }
            (schema, rows)
        };
        let prefix = u32::from(kind > 9);
        for pairs in [0, 1, 2, 63, 64] {
            let (schema, rows) = map(pairs);
            let out = written(&schema, 3, &rows, &data).unwrap();
            assert_eq!(out.len() as u32, 2 + pairs * (prefix + width + 1));
        }
        let (schema, rows) = map(65);
        let excess = Err(TooManyPairs.at(1));
        assert_eq!(written(&schema, 3, &rows, &data), excess);
        let (schema, mut rows) = map(64);
        rows[128] = rows[2];
        let repeated = Err(DuplicateKey.at(128));
        assert_eq!(written(&schema, 3, &rows, &data), repeated);
    }
}

#[test]
fn too_many_pairs_come_after_28_and_50_and_before_the_first_key() {
    let excess = Err(TooManyPairs.at(1));
    // Equal keys, keys outside, keys of another width, and keys that are no bool.
    for key in [[0, 0, 1, 0], [0, 9, 1, 0], [0, 0, 2, 0], [0, 1, 1, 0]] {
        let (schema, rows) = map_rows(1, 65, key);
        assert_eq!(written(&schema, 3, &rows, &[1, 2]), excess);
        assert_eq!(written(&schema, 3, &rows[..2], &[1, 2]), excess);
        let (_, fewer) = map_rows(1, 64, key);
        assert_ne!(written(&schema, 3, &fewer, &[1, 2]), excess);
    }
    for count in [65, 66, 4_000, 1 << 31, u32::MAX] {
        let (schema, mut rows) = map_rows(6, 1, [0, 0, 1, 0]);
        rows[1][3] = count;
        assert_eq!(written(&schema, 3, &rows, &[1]), excess);
        rows[1][0] = 0;
        assert_eq!(written(&schema, 3, &rows, &[1]), Err(SheetMisfit.at(1)));
    }
    let (schema, mut rows) = map_rows(6, 65, [0, 0, 1, 0]);
    rows[0][3] = 2;
    assert_eq!(written(&schema, 3, &rows, &[1]), Err(SheetMisfit.at(0)));
    let (_, rows) = map_rows(6, 64, [0, 0, 1, 0]);
    let missing = Err(SheetMisfit.at(2));
    assert_eq!(written(&schema, 3, &rows[..2], &[1]), missing);
}

#[test]
fn too_many_pairs_and_depth() {
    // A struct of itself, or of a map of uint8 to maps of its own type.
    let schema = Table {
        types: vec![[6, 0, 0], [15, 0, 1], [16, 0, 2]],
        fields: vec![[1, 1], [2, 1]],
        methods: vec![],
    }
    .bytes();
    let at = |depth: usize| {
        let outer = [[1, 0, 0, 1], [0, 0, 1, 0]].repeat(depth - 2);
        [&[[2, 0, 0, 1]], &outer[..], &[[1, 0, 0, 65]]].concat()
    };
    for depth in 2..=16 {
        let answer = written(&schema, 2, &at(depth), &[1]);
        assert_eq!(answer, Err(TooManyPairs.at(2 * depth - 3)));
    }
    // A key at depth 17, and a map there.
    assert_eq!(written(&schema, 2, &at(17), &[1]), Err(TooDeep.at(30)));
    let mut rows = vec![[2, 0, 0, 1]; 16];
    rows[15][1] = 1;
    rows.push([1, 0, 0, 65]);
    let deep = written(&schema, 2, &rows, &[2, 1]);
    assert_eq!(deep, Err(TooDeep.at(16)));
}

#[test]
fn long_keys_that_are_hard_to_tell_apart() {
    let (schema, mut rows) = map_rows(13, 64, [0, 0, 20_001, 0]);
    let mut data = vec![1; 40_000];
    data[20_000] = 2;
    for pair in 0..64 {
        rows[2 + 2 * pair][1] = pair as u32;
    }
    assert_eq!(written(&schema, 3, &rows, &data), Err(PayloadTooLong.at(0)));
    rows[128] = rows[2];
    let repeated = Err(DuplicateKey.at(128));
    assert_eq!(written(&schema, 3, &rows, &data), repeated);
}
