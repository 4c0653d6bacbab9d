//! The worked examples: table T, the payloads P1 to P10 and the listing.

mod common;

use common::{read_rows, refusal, table_t, LISTING, P1, P1_ROWS, T_BYTES};
use reference::{list, read, write, write_frame, Header, Reason};

const P5: &[u8] = &[0x01, 0x02, 0x05, 0x00, 0x05, 0x01, 0x07];

#[test]
fn table_t_has_its_length_and_trailer() {
    let bytes = table_t();
    assert_eq!(bytes.len(), T_BYTES);
    let trailer: Vec<u32> = bytes[124..]
        .chunks(4)
        .map(|word| u32::from_le_bytes([word[0], word[1], word[2], word[3]]))
        .collect();
    assert_eq!(trailer, [60, 92, 124, 1]);
    assert_eq!(reference::check_table(&bytes), Ok(()));
}

#[test]
fn p1_to_p10() {
    let rows = |payload: &[u8]| read_rows(&table_t(), 4, payload);
    assert_eq!(rows(P1), Ok((P1_ROWS.to_vec(), 9, 0)));
    let p2 = vec![[4, 0, 2, 1], [3, 2, 0, 0]];
    assert_eq!(rows(&[1, 0]), Ok((p2, 2, 0)));
    assert_eq!(rows(&[]), refusal(Reason::ExceedsRemaining, 0));
    assert_eq!(rows(&[0]), refusal(Reason::RequiredFieldAbsent, 0));
    assert_eq!(rows(P5), refusal(Reason::UnknownInnerBit, 2));
    let p6 = vec![[4, 0, 4, 1], [3, 2, 2, 1], [2, 2, 2, 1], [0, 3, 1, 0]];
    assert_eq!(rows(&[5, 1, 1, 7, 9]), Ok((p6, 4, 1)));
    assert_eq!(rows(&[1, 1, 1, 7, 9]), refusal(Reason::SurplusBytes, 4));
    assert_eq!(rows(&[5, 1, 1, 7]), refusal(Reason::ExceedsRemaining, 4));
    assert_eq!(rows(&[1, 0x80, 0]), refusal(Reason::MalformedVarUint, 1));
    assert_eq!(rows(&[1, 2, 1, 7]), refusal(Reason::ExceedsRemaining, 4));
}

#[test]
fn accepted_examples_write_back() {
    let schema = table_t();
    let examples: [(&[u8], &[u8]); 3] = [
        (P1, P1),
        (&[1, 0], &[1, 0]),
        (&[5, 1, 1, 7, 9], &[1, 1, 1, 7]),
    ];
    for (payload, written) in examples {
        let mut sheet = [0; 64];
        let reading = read(&schema, 4, payload, &mut sheet).unwrap();
        let mut out = [0xA5; 16];
        let length = write(&schema, 4, &sheet[..4 * reading.rows], payload, &mut out).unwrap();
        assert_eq!(&out[..length], written);
        assert!(out[length..].iter().all(|&byte| byte == 0xA5));
    }
}

/// An entry of a record about method 1, 2, 3.
fn entry(side: u8, kind: u32, correlation: u64, payload: &[u8]) -> Vec<u8> {
    let header = Header {
        kind,
        identifiers: [1, 2, 3],
        correlation,
    };
    let mut out = vec![0; 64];
    let length = write_frame(&header, payload, &mut out).unwrap();
    [&[side], &out[..length]].concat()
}

fn example_record() -> Vec<u8> {
    [
        entry(b'C', 1, 9, &[1, 7]),
        entry(b'S', 6, 9, &[1, 1, 1, 0]),
        entry(b'S', 6, 9, &[1, 1, 1, 0]),
        entry(b'C', 1, 10, &[1, 7]),
        entry(b'S', 6, 10, P5),
    ]
    .concat()
}

const HEADING: &str = "frame side kind call answer place rows open\n";

#[test]
fn the_listing() {
    assert_eq!(list(&table_t(), &example_record()), LISTING);
}

#[test]
fn the_listing_stops() {
    let schema = table_t();
    let stopped = |answer: u32, left: usize| format!("{HEADING}stopped {answer} left {left}\n");
    assert_eq!(list(&schema, &[]), stopped(0, 0));
    assert_eq!(list(&schema, b"C"), stopped(1, 1));
    assert_eq!(list(&schema, &vec![0; 65_537]), stopped(45, 0));
    assert_eq!(list(&vec![0; 65_537], &[1]), stopped(45, 0));
    assert_eq!(list(&vec![0; 65_536], &[1; 7]), stopped(40, 7));
    assert_eq!(list(&schema, &vec![0; 65_536]), stopped(2, 65_536));
    let bad_side = entry(b'X', 1, 9, &[1, 7]);
    assert_eq!(list(&schema, &bad_side), stopped(8, bad_side.len()));
    let cut = &bad_side[..bad_side.len() - 1];
    assert_eq!(list(&schema, cut), stopped(1, cut.len()));
    let wrong_side = entry(b'S', 1, 9, &[1, 7]);
    let line = "1 S 1 9 8 0 0 0\nstopped 0 left 0\n";
    assert_eq!(list(&schema, &wrong_side), format!("{HEADING}{line}"));
}

#[test]
fn the_listing_stops_at_30() {
    let schema = table_t();
    let payload = [&[1, 0x80, 0x20][..], &[1, 0].repeat(4_096)].concat();
    let header = Header {
        kind: 6,
        identifiers: [1, 2, 3],
        correlation: 9,
    };
    let mut frame = vec![0; 9_000];
    let length = write_frame(&header, &payload, &mut frame).unwrap();
    let first = entry(b'C', 1, 9, &[1, 7]);
    let record = [&first[..], b"S", &frame[..length]].concat();
    let left = length + 1;
    let expected = format!("{HEADING}1 C 1 9 0 0 2 1\nstopped 30 left {left}\n");
    assert_eq!(list(&schema, &record), expected);
}
