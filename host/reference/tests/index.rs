//! The index of a record, and the entries of one call.

mod common;

use std::collections::BTreeMap;

use common::{table_t, BYTE};
use reference::cases::Case;
use reference::frame::Kind;
use reference::generate::table::Table;
use reference::generate::Generator;
use reference::{
    list, look_up, make_index, read_frame, write_frame, FrameAnswer, Header, Reason, Refusal,
};

/// An entry of a record about method 1, 2, 3 of table T.
fn entry(kind: Kind, correlation: u64, payload: &[u8]) -> Vec<u8> {
    entry_from(kind.side(), kind, correlation, payload)
}

fn entry_from(side: u8, kind: Kind, correlation: u64, payload: &[u8]) -> Vec<u8> {
    let header = Header {
        kind: kind as u32,
        identifiers: [1, 2, 3],
        correlation,
    };
    let mut out = vec![0; payload.len() + 30];
    let length = write_frame(&header, payload, &mut out).unwrap();
    [&[side], &out[..length]].concat()
}

const INPUT: &[u8] = &[1, 7];
const OUTPUT: &[u8] = &[1, 1, 1, 0];
const P5: &[u8] = &[1, 2, 5, 0, 5, 1, 7];

/// The record of the worked example: entries of 29, 31, 31, 29 and 34 bytes.
fn worked() -> Vec<u8> {
    [
        entry(Kind::Invoke, 9, INPUT),
        entry(Kind::Response, 9, OUTPUT),
        entry(Kind::Response, 9, OUTPUT),
        entry(Kind::Invoke, 10, INPUT),
        entry(Kind::Response, 10, P5),
    ]
    .concat()
}

/// The bytes of rows and a trailer.
fn index_bytes(rows: &[(u64, u32, u32)], trailer: [u32; 4]) -> Vec<u8> {
    let mut bytes = Vec::new();
    for (correlation, place, answer) in rows {
        bytes.extend(correlation.to_le_bytes());
        bytes.extend(place.to_le_bytes());
        bytes.extend(answer.to_le_bytes());
    }
    bytes.extend(trailer.iter().flat_map(|word| word.to_le_bytes()));
    bytes
}

/// The index of a record. Checks that just enough room is enough, that less is
/// refused, and that nothing else is touched.
fn index(schema: &[u8], record: &[u8]) -> Result<Vec<u8>, Refusal> {
    let mut out = vec![BYTE; record.len() + 50];
    let length = match make_index(schema, record, &mut out) {
        Ok(length) => length,
        Err(refusal) => {
            assert!(out.iter().all(|&byte| byte == BYTE));
            return Err(refusal);
        }
    };
    assert!(out[length..].iter().all(|&byte| byte == BYTE));
    out.truncate(length);
    let mut exact = vec![BYTE; length];
    assert_eq!(make_index(schema, record, &mut exact), Ok(length));
    assert_eq!(exact, out);
    for room in [length - 1, length.saturating_sub(17), 0] {
        let mut short = vec![BYTE; room];
        let answer = make_index(schema, record, &mut short);
        assert_eq!(answer, Err(Reason::OutputTooSmall.at(0)));
        assert_eq!(short, vec![BYTE; room]);
    }
    Ok(out)
}

#[test]
fn numbers_of_the_refusals() {
    assert_eq!(Reason::IndexShape.number(), 65);
    assert_eq!(Reason::OtherRecord.number(), 66);
}

#[test]
fn the_worked_example() {
    let record = worked();
    assert_eq!(record.len(), 154);
    let rows = [
        (9, 0, 0),
        (9, 29, 0),
        (9, 60, 11),
        (10, 91, 0),
        (10, 120, 26),
    ];
    let made = index(&table_t(), &record);
    assert_eq!(made, Ok(index_bytes(&rows, [0, 5, 154, 1])));
    let made = made.unwrap();
    let text = "place answer\n0 0\n29 0\n60 11\nstopped 0\n";
    assert_eq!(look_up(&made, &record, 9), (0, text.to_string()));
    let text = "place answer\n91 0\n120 26\nstopped 0\n";
    assert_eq!(look_up(&made, &record, 10), (0, text.to_string()));
    let none = "place answer\nstopped 0\n";
    assert_eq!(look_up(&made, &record, 11), (0, none.to_string()));
}

#[test]
fn rows_rise_by_call_and_then_by_place() {
    let calls = [u64::MAX, 1 << 63, 1 << 32, 256, 1, 0, u64::MAX, 0];
    let record: Vec<u8> = calls
        .iter()
        .flat_map(|&call| entry(Kind::Cancel, call, &[]))
        .collect();
    let rows = [
        (0, 5 * 27, 11),
        (0, 7 * 27, 11),
        (1, 4 * 27, 11),
        (256, 3 * 27, 11),
        (1 << 32, 2 * 27, 11),
        (1 << 63, 27, 11),
        (u64::MAX, 0, 11),
        (u64::MAX, 6 * 27, 11),
    ];
    let expected = index_bytes(&rows, [0, 8, 8 * 27, 1]);
    assert_eq!(index(&table_t(), &record), Ok(expected));
}

#[test]
fn a_run_that_stops_early() {
    let schema = table_t();
    let one = entry(Kind::Invoke, 9, INPUT);
    let row = [(9, 0, 0)];
    // A side that is neither C nor S, a fault of the frame, a cut frame.
    let other_side = entry_from(b'X', Kind::Invoke, 10, INPUT);
    let mut fault = entry(Kind::Invoke, 10, INPUT);
    fault[3] = 2;
    let stops = [
        [other_side, one.clone()].concat(),
        [fault, one.clone()].concat(),
        [b"C", &one[..]].concat(),
        one[..20].to_vec(),
        b"S".to_vec(),
    ];
    for stop in stops {
        let record = [&one[..], &stop].concat();
        let expected = index_bytes(&row, [0, 1, record.len() as u32, 1]);
        assert_eq!(index(&schema, &record), Ok(expected));
    }
    // The wrong side has a line, and so a row.
    let wrong = entry_from(b'S', Kind::Invoke, 9, INPUT);
    let record = [&wrong[..], &one].concat();
    let expected = index_bytes(&[(9, 0, 8), (9, 29, 0)], [0, 2, 58, 1]);
    assert_eq!(index(&schema, &record), Ok(expected));
    // 4,098 rows are too many for the sheet.
    let payload = [&[1, 0x80, 0x10][..], &[1, 7].repeat(2_048)].concat();
    let long = entry(Kind::Response, 9, &payload);
    let record = [&one[..], &long, &one].concat();
    let expected = index_bytes(&row, [0, 1, record.len() as u32, 1]);
    assert_eq!(index(&schema, &record), Ok(expected));
}

#[test]
fn answers_that_cross_a_cancel_have_rows() {
    let record = [
        entry(Kind::Invoke, 9, INPUT),
        entry(Kind::Cancel, 9, &[]),
        entry(Kind::Response, 9, OUTPUT),
        entry(Kind::Error, 9, &[]),
        entry(Kind::Response, 9, OUTPUT),
    ]
    .concat();
    let rows = [(9, 0, 0), (9, 29, 0), (9, 56, 16), (9, 87, 0), (9, 114, 11)];
    let expected = index_bytes(&rows, [0, 5, 145, 1]);
    assert_eq!(index(&table_t(), &record), Ok(expected));
}

#[test]
fn refusals_of_the_making_in_their_order() {
    let good = table_t();
    assert_eq!(index(&good, &[]), Ok(index_bytes(&[], [0, 0, 0, 1])));
    let refused = |reason: Reason, place| Err::<usize, Refusal>(reason.at(place));
    let mut faults = vec![(good[..139].to_vec(), refused(Reason::SchemaShape, 0))];
    faults.push((vec![0; 65_537], refused(Reason::SchemaShape, 0)));
    let many = Table {
        types: vec![[1, 0, 0]; 257],
        ..Table::default()
    };
    faults.push((many.bytes(), refused(Reason::TooManyRows, 0)));
    for (at, reason, row) in [
        (48, Reason::TypeRow, 4),
        (76, Reason::FieldEntry, 2),
        (104, Reason::MethodEntry, 0),
    ] {
        let mut bad = good.clone();
        bad[at] = 77;
        faults.push((bad, refused(reason, row)));
    }
    // The table's refusals, then 45, then 52.
    let long = vec![b'C'; 65_537];
    for (schema, expected) in faults {
        for record in [&[][..], &worked(), &long] {
            for room in [0, 200] {
                let mut out = vec![BYTE; room];
                assert_eq!(make_index(&schema, record, &mut out), expected);
                assert_eq!(out, vec![BYTE; room]);
            }
        }
    }
    for room in [0, 16, 200] {
        let mut out = vec![BYTE; room];
        let answer = make_index(&good, &long, &mut out);
        assert_eq!(answer, refused(Reason::RecordTooLong, 0));
        assert_eq!(out, vec![BYTE; room]);
    }
    let mut out = [BYTE; 15];
    let answer = make_index(&good, &long[1..], &mut out);
    assert_eq!(
        (answer, out),
        (refused(Reason::OutputTooSmall, 0), [BYTE; 15])
    );
}

#[test]
fn the_most_rows() {
    let record = entry(Kind::Cancel, u64::MAX, &[]).repeat(2_427);
    let made = index(&table_t(), &record).unwrap();
    assert_eq!(made.len(), 16 * 2_428);
    let (number, text) = look_up(&made, &record, u64::MAX);
    assert_eq!((number, text.lines().count()), (0, 2_429));
    assert!(text.ends_with("65502 11\nstopped 0\n"));
}

/// The number of a look-up; a refusal has nothing but the heading before it.
fn number(index: &[u8], record: &[u8], call: u64) -> u32 {
    let (number, text) = look_up(index, record, call);
    if number != 0 {
        assert_eq!(text, format!("place answer\nstopped {number}\n"));
    }
    number
}

#[test]
fn indexes_of_a_wrong_shape() {
    let record = worked();
    let rows = [(9, 0, 0), (9, 29, 0), (10, 91, 26)];
    let good = index_bytes(&rows, [0, 3, 154, 1]);
    assert_eq!(number(&good, &record, 9), 0);
    // Every length but the whole.
    for length in 0..good.len() {
        assert_eq!(number(&good[..length], &record, 9), 65);
        assert_eq!(number(&good[good.len() - length..], &record, 9), 65);
    }
    for more in 1..=16 {
        let longer = [&good[..], &vec![0; more]].concat();
        assert_eq!(number(&longer, &record, 9), 65);
        let longer = [&vec![0; more], &good[..]].concat();
        assert_eq!(number(&longer, &record, 9), 65);
    }
    let trailers = [
        [1, 3, 154, 1],
        [16, 3, 154, 1],
        [48, 3, 154, 1],
        [0, 2, 154, 1],
        [0, 4, 154, 1],
        [0, 0, 154, 1],
        [0, 3 + (1 << 28), 154, 1],
        [0, u32::MAX, 154, 1],
        [0, 3, 154, 0],
        [0, 3, 154, 2],
        [0, 3, 154, 257],
    ];
    for trailer in trailers {
        let bad = index_bytes(&rows, trailer);
        // 65 also where the record is another.
        for record in [&record[..], &record[1..], &[]] {
            assert_eq!(number(&bad, record, 9), 65, "{trailer:?}");
        }
    }
}

#[test]
fn rows_that_do_not_rise() {
    let record = worked();
    let judge = |rows: &[(u64, u32, u32)], record: &[u8]| {
        let index = index_bytes(rows, [0, rows.len() as u32, 154, 1]);
        number(&index, record, 9)
    };
    let rising: [&[(u64, u32, u32)]; 6] = [
        &[],
        &[(9, 0, 0)],
        &[(9, 0, 5), (9, 1, 4)],
        &[(9, 7, 5), (10, 0, 4)],
        &[(0, u32::MAX, 0), (1, 0, 0), (1 << 32, 0, 0)],
        // No place and no answer is judged.
        &[(9, 153, 0), (9, 154, 99), (u64::MAX, u32::MAX, u32::MAX)],
    ];
    for rows in rising {
        assert_eq!(judge(rows, &record), 0, "{rows:?}");
        assert_eq!(judge(rows, &record[1..]), 66, "{rows:?}");
    }
    let falling: [&[(u64, u32, u32)]; 6] = [
        &[(9, 0, 0), (9, 0, 0)],
        &[(9, 0, 0), (9, 0, 1)],
        &[(9, 1, 0), (9, 0, 1)],
        &[(10, 0, 0), (9, 1, 0)],
        &[(1 << 63, 0, 0), (1, 1, 0)],
        &[(1, 0, 0), (2, 0, 0), (2, 0, 0), (3, 0, 0)],
    ];
    for rows in falling {
        assert_eq!(judge(rows, &record), 65, "{rows:?}");
        assert_eq!(judge(rows, &record[1..]), 65, "{rows:?}");
    }
}

#[test]
fn a_record_of_another_length() {
    let record = worked();
    let made = index(&table_t(), &record).unwrap();
    for length in [0, 1, 153, 155, 65_536, 70_000] {
        assert_eq!(number(&made, &vec![0; length], 9), 66);
    }
    // Of the record nothing but its length is looked at, be it above 65,536.
    assert_eq!(number(&made, &[0; 154], 9), 0);
    let long = index_bytes(&[(9, 0, 0)], [0, 1, 70_000, 1]);
    assert_eq!(number(&long, &vec![0; 70_000], 9), 0);
}

/// The entries that the listing prints: for each line the call, the place of
/// its side byte by the frames alone, and the answer.
fn printed(schema: &[u8], record: &[u8]) -> Vec<(u64, u32, u32)> {
    let text = list(schema, record);
    let mut place = 0;
    let mut rows = Vec::new();
    for line in text.lines().skip(1) {
        let words: Vec<&str> = line.split(' ').collect();
        if words[0] == "stopped" {
            break;
        }
        let (call, answer) = (words[3].parse().unwrap(), words[4].parse().unwrap());
        rows.push((call, place as u32, answer));
        let FrameAnswer::Whole(frame) = read_frame(&record[place + 1..]) else {
            panic!("no frame at {place}");
        };
        assert_eq!(frame.header.correlation, call);
        place += 1 + frame.length();
    }
    rows
}

/// The index covers what the listing prints, and a look-up of each call gives
/// its entries. Counts the answers.
fn check_laws(schema: &[u8], record: &[u8], answers: &mut BTreeMap<u32, usize>) -> Option<usize> {
    let made = index(schema, record).ok()?;
    let in_order = printed(schema, record);
    let mut rows = in_order.clone();
    rows.sort();
    let trailer = [0, rows.len() as u32, record.len() as u32, 1];
    assert_eq!(made, index_bytes(&rows, trailer));
    let calls = rows.iter().map(|row| row.0).chain([0, 77, u64::MAX]);
    for call in calls {
        let mut text = String::from("place answer\n");
        for (_, place, answer) in in_order.iter().filter(|row| row.0 == call) {
            text.push_str(&format!("{place} {answer}\n"));
        }
        text.push_str("stopped 0\n");
        assert_eq!(look_up(&made, record, call), (0, text));
    }
    for row in &rows {
        *answers.entry(row.2).or_insert(0) += 1;
    }
    Some(rows.len())
}

#[test]
fn the_index_covers_what_the_listing_prints() {
    let mut generator = Generator::new(51, &[19]);
    let mut answers = BTreeMap::new();
    let (mut made, mut most) = (0, 0);
    for _ in 0..1_500 {
        let Some(Case::Index(case)) = generator.case() else {
            panic!("no case");
        };
        if case.record.len() > 20_000 {
            continue;
        }
        if let Some(rows) = check_laws(&case.schema, &case.record, &mut answers) {
            made += 1;
            most = most.max(rows);
        }
    }
    assert!(made > 1_000 && most > 130, "{made} {most}");
    for number in [0, 8, 9, 10, 11, 12, 13, 14, 16, 20, 25, 27, 29] {
        assert!(answers.get(&number) > Some(&4), "{number}: {answers:?}");
    }
    assert!(!answers.contains_key(&30));
}
