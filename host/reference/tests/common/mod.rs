//! Tables and helpers that several test files share.

#![allow(dead_code)]

use reference::generate::table::Table;
use reference::schema::Type;
use reference::{read, write_frame, Header, Reading, Reason, Refusal, Schema, MAX_COMPARISONS};

/// What stands in every cell and byte that must stay untouched.
pub const CELL: u32 = 0xA5A5_A5A5;
pub const BYTE: u8 = 0xA5;

pub const NO_TYPE: u32 = u32::MAX;

/// The length of table T's file.
pub const T_BYTES: usize = 140;

/// Table T of the worked examples.
pub fn table_t() -> Vec<u8> {
    Table {
        types: vec![[6, 0, 0], [12, 0, 0], [16, 0, 2], [14, 2, 0], [16, 2, 2]],
        fields: vec![[0, 0], [1, 1], [3, 0], [0, 1]],
        methods: vec![[1, 2, 3, 12, 2, 4, NO_TYPE, NO_TYPE]],
    }
    .bytes()
}

/// A table with a method 0, 0, form for each of the sixteen forms; all values
/// are a struct of one byte.
pub fn all_forms() -> Vec<u8> {
    let method = |form: u32| {
        let side = |bit: u32| if form & bit != 0 { 1 } else { NO_TYPE };
        [0, 0, form, form, side(8), side(4), side(2), side(1)]
    };
    Table {
        types: vec![[6, 0, 0], [16, 0, 1]],
        fields: vec![[0, 0]],
        methods: (0..16).map(method).collect(),
    }
    .bytes()
}

/// The bytes of a frame.
pub fn written(header: &Header, payload: &[u8]) -> Vec<u8> {
    let mut out = vec![0; payload.len() + 30];
    let length = write_frame(header, payload, &mut out).unwrap();
    out.truncate(length);
    out
}

/// The listing of the worked examples.
pub const LISTING: &str = "\
frame side kind call answer place rows open
1 C 1 9 0 0 2 1
2 S 6 9 0 0 4 0
3 S 6 9 11 0 0 0
4 C 1 10 0 0 2 1
5 S 6 10 26 2 0 0
stopped 0 left 0
";

/// Payload P1 of type 4 of table T, and its rows.
pub const P1: &[u8] = &[1, 2, 3, 7, 2, b'o', b'k', 1, 0];

pub const P1_ROWS: [[u32; 4]; 7] = [
    [4, 0, 9, 1],
    [3, 2, 7, 2],
    [2, 2, 5, 2],
    [0, 3, 1, 0],
    [1, 5, 2, 0],
    [2, 7, 2, 1],
    [0, 8, 1, 0],
];

/// A reading's rows, tail place and tail length.
pub type Rows = Result<(Vec<[u32; 4]>, usize, usize), Refusal>;

/// A refusal as the result of [`read_rows`].
pub fn refusal(reason: Reason, place: usize) -> Rows {
    Err(reason.at(place))
}

/// The key comparisons due by the maps that a sheet shows.
pub fn comparisons(schema: &[u8], rows: &[[u32; 4]]) -> usize {
    let schema = Schema::check(schema).unwrap();
    let is_map = |row: &&[u32; 4]| matches!(schema.type_row(row[0]), Type::Map { .. });
    let counts = rows.iter().filter(is_map).map(|row| row[3] as usize);
    counts
        .map(|count| count * count.saturating_sub(1) / 2)
        .sum()
}

/// Reads into a sheet of so many cells, and checks that nothing but the rows is
/// touched, that one row less is too few, and that the comparisons are within
/// their limit: the rows, and the reading.
pub fn read_into(
    cells: usize,
    read: impl Fn(&mut [u32]) -> Result<Reading, Refusal>,
) -> Result<(Vec<[u32; 4]>, Reading), Refusal> {
    let mut sheet = vec![CELL; cells];
    let reading = match read(&mut sheet) {
        Ok(reading) => reading,
        Err(refusal) => {
            assert!(sheet.iter().all(|&cell| cell == CELL));
            return Err(refusal);
        }
    };
    let (used, rest) = sheet.split_at(4 * reading.rows);
    assert!(rest.iter().all(|&cell| cell == CELL));
    let mut small = vec![CELL; 4 * reading.rows - 1];
    assert_eq!(read(&mut small), Err(Reason::SheetTooSmall.at(0)));
    assert!(small.iter().all(|&cell| cell == CELL));
    assert!(reading.comparisons <= MAX_COMPARISONS);
    Ok((used.as_chunks::<4>().0.to_vec(), reading))
}

/// Reads as [`read_into`] does, and checks that the comparisons are those of the
/// maps shown.
pub fn read_rows(schema: &[u8], type_number: u32, payload: &[u8]) -> Rows {
    let (rows, reading) = read_into(4 * 16_400, |sheet| {
        read(schema, type_number, payload, sheet)
    })?;
    assert_eq!(reading.comparisons, comparisons(schema, &rows));
    Ok((rows, reading.tail_place, reading.tail_length))
}
