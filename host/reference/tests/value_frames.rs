//! The writer of a frame and its value at once, number by number.

mod common;

use common::{table_t, BYTE, NO_TYPE, P1, P1_ROWS};
use reference::cases::{Case, ValueFrameCase};
use reference::generate::table::Table;
use reference::generate::Generator;
use reference::*;
use Reason::*;

fn header(kind: u32) -> Header {
    Header {
        kind,
        identifiers: [0x0403_0201, 5, 6],
        correlation: 0x0807_0605_0403_0201,
    }
}

/// The bytes of [`header`] for a kind.
fn header_bytes(kind: u8) -> Vec<u8> {
    let fixed = [0xAF, 1, 1, kind, 0];
    let rest = [1, 2, 3, 4, 5, 0, 0, 0, 6, 0, 0, 0, 1, 2, 3, 4, 5, 6, 7, 8];
    [&fixed[..], &rest].concat()
}

/// Writes with room to spare and checks that nothing else is touched.
fn framed(
    kind: u32,
    schema: &[u8],
    root: u32,
    sheet: &[u32],
    data: &[u8],
) -> Result<Vec<u8>, Refusal> {
    let mut out = vec![BYTE; 17_000];
    let answer = write_value_frame(&header(kind), schema, root, sheet, data, &mut out);
    let used = answer.unwrap_or(0);
    assert!(out[used..].iter().all(|&byte| byte == BYTE));
    answer.map(|length| out[..length].to_vec())
}

fn p1(rows: &[[u32; 4]]) -> Result<Vec<u8>, Refusal> {
    framed(6, &table_t(), 4, &rows.concat(), P1)
}

/// P1's rows with one cell changed.
fn with(row: usize, cell: usize, number: u32) -> Vec<[u32; 4]> {
    let mut rows = P1_ROWS.to_vec();
    rows[row][cell] = number;
    rows
}

#[test]
fn the_header_and_straight_behind_it_the_value() {
    for kind in 1..=8 {
        let frame = framed(kind, &table_t(), 4, &P1_ROWS.concat(), P1);
        let expected = [&header_bytes(kind as u8)[..], &[9], P1].concat();
        assert_eq!(frame, Ok(expected));
    }
    // The root's unknown bits and tail are left out.
    let with_tail = [5, 1, 1, 7, 9];
    let rows = [[4, 0, 4, 1], [3, 2, 2, 1], [2, 2, 2, 1], [0, 3, 1, 0]];
    let frame = framed(1, &table_t(), 4, &rows.concat(), &with_tail);
    let expected = [&header_bytes(1)[..], &[4, 1, 1, 1, 7]].concat();
    assert_eq!(frame, Ok(expected));
}

/// The answer by the value writer and then the frame writer.
fn by_two_writers(case: &ValueFrameCase, out: &mut [u8]) -> Result<usize, Refusal> {
    check_table(&case.schema)?;
    if !(1..=8).contains(&case.header.kind) {
        return Err(Kind.at(0));
    }
    let mut payload = vec![BYTE; MAX_PAYLOAD];
    let length = match (case.type_number, case.sheet.len() / 4) {
        (NO_TYPE, 0) => 0,
        (NO_TYPE, _) => return Err(SheetMisfit.at(0)),
        (root, _) => write(&case.schema, root, &case.sheet, &case.data, &mut payload)?,
    };
    write_frame(&case.header, &payload[..length], out).map_err(|reason| reason.at(0))
}

#[test]
fn the_bytes_of_the_value_writer_and_then_the_frame_writer() {
    let mut generator = Generator::new(21, &[15]);
    let mut accepted = [0; 2];
    for _ in 0..10_000 {
        let Some(Case::ValueFrame(case)) = generator.case() else {
            panic!("another code");
        };
        let (mut once, mut twice) = (vec![BYTE; case.room], vec![BYTE; case.room]);
        let answer = write_value_frame(
            &case.header,
            &case.schema,
            case.type_number,
            &case.sheet,
            &case.data,
            &mut once,
        );
        assert_eq!(answer, by_two_writers(&case, &mut twice), "{case:?}");
        assert_eq!(once, twice);
        match answer {
            Ok(length) => {
                accepted[usize::from(case.type_number == NO_TYPE)] += 1;
                let FrameAnswer::Whole(frame) = read_frame(&once) else {
                    panic!("no frame");
                };
                assert_eq!((frame.header, frame.length()), (case.header, length));
                assert!(once[length..].iter().all(|&byte| byte == BYTE));
            }
            Err(_) => assert!(once.iter().all(|&byte| byte == BYTE)),
        }
    }
    assert!(accepted.iter().all(|&times| times > 300), "{accepted:?}");
}

#[test]
fn refusals_of_the_value_writer_at_its_rows() {
    for rows in 0..7 {
        assert_eq!(p1(&P1_ROWS[..rows]), Err(SheetMisfit.at(rows)));
    }
    let extra = [&P1_ROWS[..], &[[0; 4], [0; 4]]].concat();
    assert_eq!(p1(&extra), Err(SheetMisfit.at(7)));
    for row in 0..7 {
        assert_eq!(p1(&with(row, 0, u32::MAX)), Err(SheetMisfit.at(row)));
    }
    assert_eq!(p1(&with(4, 1, 8)), Err(SpanOutside.at(4)));
    let change = |place: usize, byte: u8| {
        let mut data = P1.to_vec();
        data[place] = byte;
        framed(6, &table_t(), 4, &P1_ROWS.concat(), &data)
    };
    assert_eq!(change(2, 2), Err(RequiredFieldAbsent.at(2)));
    assert_eq!(change(7, 0x81), Err(SheetMisfit.at(5)));
    assert_eq!(change(5, 0xFF), Err(NotUtf8.at(4)));
    let flags = Table {
        types: vec![[1, 0, 0], [15, 0, 0], [16, 0, 1]],
        fields: vec![[1, 0]],
        methods: vec![],
    }
    .bytes();
    let pairs = |count: u32, second: u32| {
        let mut rows = vec![[2, 0, 0, 1], [1, 0, 0, count]];
        rows.extend([[0, 0, 1, 0], [0, 0, 1, 0], [0, second, 1, 0], [0, 0, 1, 0]]);
        framed(2, &flags, 2, &rows.concat(), &[1, 0, 2])
    };
    assert!(pairs(2, 1).is_ok());
    assert_eq!(pairs(2, 0), Err(DuplicateKey.at(4)));
    assert_eq!(pairs(2, 2), Err(NotABool.at(4)));
    assert_eq!(pairs(65, 1), Err(TooManyPairs.at(1)));
    let itself = Table {
        types: vec![[16, 0, 1]],
        fields: vec![[0, 1]],
        methods: vec![],
    }
    .bytes();
    let deep = framed(3, &itself, 0, &[[0, 0, 0, 1]; 17].concat(), &[1]);
    assert_eq!(deep, Err(TooDeep.at(16)));
}

/// Each fault comes before those after it.
#[test]
fn the_order_of_refusals() {
    let (good, mut bad) = (table_t(), table_t());
    bad[104] = 99;
    let long = vec![1; 40_000];
    let rows = |count: u32| [[4, 0, 0, 1], [3, 0, 0, count]].concat();
    let leftover = [rows(0), vec![0; 4]].concat();
    let answer = |kind, schema: &[u8], root, sheet: &[u32]| {
        write_value_frame(&header(kind), schema, root, sheet, &long, &mut [])
    };
    for kind in [0, 9, 255, 256, 257, u32::MAX] {
        for root in [77, 4, NO_TYPE] {
            let table = answer(kind, &bad, root, &leftover);
            assert_eq!(table, Err(MethodEntry.at(0)));
            let faulty = answer(kind, &good, root, &leftover);
            assert_eq!(faulty, Err(Kind.at(0)));
        }
    }
    for root in [0, 1, 3, 5, 256, NO_TYPE - 1] {
        let answer = answer(1, &good, root, &leftover);
        assert_eq!(answer, Err(NotAStruct.at(0)));
    }
    assert_eq!(answer(1, &good, 4, &rows(1)), Err(SheetMisfit.at(2)));
    assert_eq!(answer(1, &good, 4, &leftover), Err(SheetMisfit.at(2)));
    assert_eq!(answer(1, &good, 4, &rows(0)), Err(OutputTooSmall.at(0)));
}

/// A table whose type 1 is a struct of one bytes field, and the sheet of a
/// value of so many bytes.
fn long(size: usize) -> (Vec<u8>, Vec<u32>) {
    let schema = Table {
        types: vec![[13, 0, 0], [16, 0, 1]],
        fields: vec![[0, 0]],
        methods: vec![],
    }
    .bytes();
    let prefix = if size < 130 { 1 } else { 2 };
    let content = (size - 1 - prefix) as u32;
    (schema, [[1, 0, 0, 1], [0, 0, content, 0]].concat())
}

#[test]
fn room_to_the_byte() {
    let data = vec![1; 20_000];
    for (size, before) in [
        (2, 26),
        (126, 26),
        (127, 26),
        (128, 27),
        (16_383, 27),
        (16_384, 28),
    ] {
        let (schema, sheet) = long(size);
        let length = before + size;
        for room in [0, 25, 26, size, length - 1, length, length + 1, 17_000] {
            let mut out = vec![BYTE; room];
            let answer = write_value_frame(&header(1), &schema, 1, &sheet, &data, &mut out);
            if room < length {
                assert_eq!(answer, Err(OutputTooSmall.at(0)));
                assert!(out.iter().all(|&byte| byte == BYTE));
            } else {
                assert_eq!(answer, Ok(length));
                assert_eq!(out[..25], header_bytes(1));
                assert!(out[length..].iter().all(|&byte| byte == BYTE));
            }
        }
    }
}

#[test]
fn a_payload_of_16385_bytes() {
    let data = vec![1; 20_000];
    let (schema, sheet) = long(16_385);
    for room in [0, 16_384, 17_000] {
        let mut out = vec![BYTE; room];
        let answer = write_value_frame(&header(1), &schema, 1, &sheet, &data, &mut out);
        assert_eq!(answer, Err(PayloadTooLong.at(0)));
        assert!(out.iter().all(|&byte| byte == BYTE));
    }
    let leftover = [&sheet[..], &[0; 4]].concat();
    let answer = framed(1, &schema, 1, &leftover, &data);
    assert_eq!(answer, Err(SheetMisfit.at(2)));
}

#[test]
fn an_empty_payload() {
    let empty = Table::default().bytes();
    let expected = [&header_bytes(3)[..], &[0]].concat();
    for schema in [table_t(), empty] {
        for data in [&[][..], P1, &[0xFF; 20_000]] {
            for cells in 0..4 {
                let sheet = vec![NO_TYPE; cells];
                let frame = framed(3, &schema, NO_TYPE, &sheet, data);
                assert_eq!(frame, Ok(expected.clone()));
            }
            for cells in [4, 5, 7, 8, 40] {
                for cell in [0, NO_TYPE] {
                    let frame = framed(3, &schema, NO_TYPE, &vec![cell; cells], data);
                    assert_eq!(frame, Err(SheetMisfit.at(0)));
                }
            }
        }
    }
    for room in 0..28 {
        let mut out = vec![BYTE; room];
        let answer = write_value_frame(&header(3), &table_t(), NO_TYPE, &[], &[], &mut out);
        if room < 26 {
            assert_eq!(answer, Err(OutputTooSmall.at(0)));
            assert!(out.iter().all(|&byte| byte == BYTE));
        } else {
            assert_eq!(answer, Ok(26));
            assert_eq!(out[..26], expected);
        }
    }
    let rows = write_value_frame(&header(3), &table_t(), NO_TYPE, &[0; 4], &[], &mut []);
    assert_eq!(rows, Err(SheetMisfit.at(0)));
    assert_eq!(
        framed(3, &[], NO_TYPE, &[], &[]),
        Err(SchemaShape.at(0)),
        "the table is checked all the same"
    );
}

#[test]
fn odd_cells_are_no_row() {
    for odd in 0..4 {
        let mut sheet = P1_ROWS.concat();
        sheet.extend(vec![7; odd]);
        assert!(framed(6, &table_t(), 4, &sheet, P1).is_ok());
        sheet.truncate(24 + odd);
        let answer = framed(6, &table_t(), 4, &sheet, P1);
        assert_eq!(answer, Err(SheetMisfit.at(6)));
    }
}
