//! One scalar row over its bytes.

mod common;

use common::table_t;
use reference::generate::table::Table;
use reference::{scalar, Reason, Refusal, Scalar};
use Reason::*;

/// A table with type n of kind n + 1, for all sixteen kinds.
fn all_kinds() -> Vec<u8> {
    let mut types: Vec<[u32; 3]> = (1..=13).map(|kind| [kind, 0, 0]).collect();
    types.extend([[14, 0, 0], [15, 0, 0], [16, 0, 1]]);
    Table {
        types,
        fields: vec![[0, 0]],
        methods: vec![],
    }
    .bytes()
}

fn value(kind: u32, bytes: &[u8]) -> Result<Scalar, Refusal> {
    let data = [&[0xEE, 0xEE][..], bytes, &[0xEE]].concat();
    scalar(&all_kinds(), [kind - 1, 2, bytes.len() as u32, 0], &data)
}

#[test]
fn values() {
    assert_eq!(value(1, &[0]), Ok(Scalar::Truth(false)));
    assert_eq!(value(1, &[1]), Ok(Scalar::Truth(true)));
    assert_eq!(value(2, &[0x80]), Ok(Scalar::Signed(-128)));
    assert_eq!(value(2, &[0xFF]), Ok(Scalar::Signed(-1)));
    assert_eq!(value(3, &[0, 0x80]), Ok(Scalar::Signed(-32_768)));
    assert_eq!(value(4, &[1, 0, 0, 0]), Ok(Scalar::Signed(1)));
    let least = i64::MIN.to_le_bytes();
    assert_eq!(value(5, &least), Ok(Scalar::Signed(i64::MIN)));
    assert_eq!(value(6, &[0xFF]), Ok(Scalar::Unsigned(255)));
    assert_eq!(value(7, &[1, 2]), Ok(Scalar::Unsigned(513)));
    assert_eq!(value(8, &[0xFF; 4]), Ok(Scalar::Unsigned(u32::MAX.into())));
    assert_eq!(value(9, &[0xFF; 8]), Ok(Scalar::Unsigned(u64::MAX)));
    let span = Scalar::Span {
        place: 2,
        length: 3,
    };
    assert_eq!(value(12, b"abc"), Ok(span));
    assert_eq!(value(13, &[0xFF; 3]), Ok(span));
}

#[test]
fn floats_keep_their_bits() {
    for bits in [0, 0x8000_0000, 0x7F80_0000, 0x7FC0_0000, 0x7F80_0001u32] {
        match value(10, &bits.to_le_bytes()) {
            Ok(Scalar::Float32 { value, bits: kept }) => {
                assert_eq!(kept, bits);
                assert!(value.is_nan() || value.to_bits() == bits);
            }
            other => panic!("{other:?}"),
        }
    }
    let nan = value(11, &f64::NAN.to_le_bytes());
    assert_eq!(nan, nan);
    let (plus, minus) = (value(11, &[0; 8]), value(11, &(-0.0f64).to_le_bytes()));
    assert_ne!(plus, minus);
}

#[test]
fn rows_that_do_not_fit() {
    let schema = all_kinds();
    let data = [0; 32];
    let misfit = Err(SheetMisfit.at(0));
    for number in [13, 14, 15, 16, u32::MAX] {
        assert_eq!(scalar(&schema, [number, 0, 1, 0], &data), misfit);
    }
    let widths = [1, 1, 2, 4, 8, 1, 2, 4, 8, 4, 8];
    for (number, width) in (0..).zip(widths) {
        for length in 0..20 {
            let answer = scalar(&schema, [number, 0, length, 0], &data);
            assert_eq!(answer.is_ok(), length == width);
        }
    }
    for number in 0..13 {
        let width = widths.get(number as usize).copied().unwrap_or(3);
        assert_eq!(scalar(&schema, [number, 0, width, 1], &data), misfit);
        assert_eq!(
            scalar(&schema, [number, 99, width, u32::MAX], &data),
            misfit
        );
    }
}

#[test]
fn spans_outside() {
    let schema = all_kinds();
    let outside = Err(SpanOutside.at(0));
    let data = [0; 8];
    assert!(scalar(&schema, [8, 0, 8, 0], &data).is_ok());
    assert_eq!(scalar(&schema, [8, 1, 8, 0], &data), outside);
    assert_eq!(scalar(&schema, [8, u32::MAX, 8, 0], &data), outside);
    assert!(scalar(&schema, [11, 8, 0, 0], &data).is_ok());
    assert_eq!(scalar(&schema, [11, 9, 0, 0], &data), outside);
    assert_eq!(scalar(&schema, [11, 8, 1, 0], &data), outside);
    assert_eq!(scalar(&schema, [12, 4, u32::MAX - 3, 0], &data), outside);
    assert_eq!(scalar(&schema, [0, 8, 1, 0], &data), outside);
}

#[test]
fn contents_at_fault() {
    for byte in 2..=255 {
        assert_eq!(value(1, &[byte]), Err(NotABool.at(2)));
    }
    assert_eq!(value(12, &[b'a', 0xC0, 0x80]), Err(NotUtf8.at(2)));
}

#[test]
fn the_table_comes_first() {
    let mut schema = table_t();
    assert_eq!(scalar(&[], [9, 9, 9, 9], &[]), Err(SchemaShape.at(0)));
    schema[60] = 200;
    assert_eq!(scalar(&schema, [0, 9, 9, 9], &[]), Err(FieldEntry.at(0)));
}
