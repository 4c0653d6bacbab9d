//! The forwarding write: what a relay passes on, number by number.

mod common;

use common::{table_t, BYTE, CELL, P1, P1_ROWS};
use reference::cases::{Case, ForwardCase, ReadCase};
use reference::generate::relay::relay;
use reference::generate::rng::Rng;
use reference::generate::table::Table;
use reference::generate::Generator;
use reference::*;
use Reason::*;

const P6: &[u8] = &[5, 1, 1, 7, 9];

const P6_ROWS: [[u32; 4]; 4] = [[4, 0, 4, 1], [3, 2, 2, 1], [2, 2, 2, 1], [0, 3, 1, 0]];

/// Forwards with room to spare and checks that nothing else is touched.
fn forwarded(
    schema: &[u8],
    root: u32,
    rows: &[[u32; 4]],
    data: &[u8],
    (place, length): (u32, u32),
) -> Result<Vec<u8>, Refusal> {
    let mut out = vec![BYTE; 17_000];
    let tail = Tail { place, length };
    let answer = forward(schema, root, &rows.concat(), data, tail, &mut out);
    let used = answer.unwrap_or(0);
    assert!(out[used..].iter().all(|&byte| byte == BYTE));
    answer.map(|length| out[..length].to_vec())
}

fn p6(data: &[u8], tail: (u32, u32)) -> Result<Vec<u8>, Refusal> {
    forwarded(&table_t(), 4, &P6_ROWS, data, tail)
}

#[test]
fn examples_come_out_as_they_went_in() {
    assert_eq!(p6(P6, (4, 1)), Ok(P6.to_vec()));
    let p1 = forwarded(&table_t(), 4, &P1_ROWS, P1, (9, 0));
    assert_eq!(p1, Ok(P1.to_vec()));
    let rows = [[4, 0, 2, 1], [3, 2, 0, 0]];
    let p2 = forwarded(&table_t(), 4, &rows, &[1, 0], (2, 0));
    assert_eq!(p2, Ok(vec![1, 0]));
}

/// A payload that is read and forwarded by the same table; none if refused.
fn passed_on(schema: &[u8], root: u32, payload: &[u8]) -> Option<(Vec<u8>, Reading)> {
    let mut sheet = vec![CELL; 4 * (payload.len() + 1)];
    let reading = read(schema, root, payload, &mut sheet).ok()?;
    let tail = Tail {
        place: reading.tail_place as u32,
        length: reading.tail_length as u32,
    };
    let mut out = vec![BYTE; payload.len() + 3];
    let sheet = &sheet[..4 * reading.rows];
    let length = forward(schema, root, sheet, payload, tail, &mut out).unwrap();
    assert!(out[length..].iter().all(|&byte| byte == BYTE));
    out.truncate(length);
    Some((out, reading))
}

#[test]
fn what_is_read_is_forwarded_as_the_very_same_bytes() {
    let mut seen = [0; 2];
    for mut generator in [Generator::new(31, &[3]), Generator::across(32)] {
        for _ in 0..6_000 {
            let Some(Case::Read(ReadCase {
                schema,
                type_number,
                payload,
                ..
            })) = generator.case()
            else {
                panic!("another code");
            };
            if let Some((out, reading)) = passed_on(&schema, type_number, &payload) {
                assert_eq!(out, payload);
                seen[usize::from(reading.tail_length > 0)] += 1;
            }
        }
    }
    assert!(seen[0] > 2_000 && seen[1] > 400, "{seen:?}");
}

/// All payloads of up to six bytes over those that matter.
#[test]
fn short_payloads_are_forwarded_as_the_very_same_bytes() {
    const BYTES: [u8; 6] = [0, 1, 2, 5, 7, 0x80];
    let mut seen = [0; 2];
    for length in 0..=6 {
        for number in 0..BYTES.len().pow(length) {
            let byte = |place| BYTES[number / BYTES.len().pow(place) % BYTES.len()];
            let payload: Vec<u8> = (0..length).map(byte).collect();
            if let Some((out, reading)) = passed_on(&table_t(), 4, &payload) {
                assert_eq!(out, payload);
                seen[usize::from(reading.tail_length > 0)] += 1;
            }
        }
    }
    assert!(seen[0] > 30 && seen[1] > 3_000, "{seen:?}");
}

/// What a table shows of a payload, with rows enough.
fn shown(schema: &[u8], root: u32, payload: &[u8]) -> (Vec<u32>, Reading) {
    let mut sheet = vec![CELL; 4 * (payload.len() + 1)];
    let reading = read(schema, root, payload, &mut sheet).unwrap();
    (sheet, reading)
}

#[test]
fn the_new_reader_behind_a_relay_shows_the_original_whole() {
    let mut rng = Rng::new(33);
    let (mut refused, mut plain, mut with_tail) = (0, 0, 0);
    for _ in 0..6_000 {
        let sent = relay(&mut rng);
        assert_eq!(extends(&sent.old, &sent.new), Ok(true));
        let original = shown(&sent.new, sent.root, &sent.payload);
        let Some((out, by_old)) = passed_on(&sent.old, sent.root, &sent.payload) else {
            refused += 1;
            continue;
        };
        assert_eq!(out, sent.payload);
        assert_eq!(shown(&sent.new, sent.root, &out), original);
        match by_old.tail_length {
            0 => plain += 1,
            _ => with_tail += 1,
        }
    }
    let seen = (refused, plain, with_tail);
    assert!(
        refused > 200 && plain > 1_000 && with_tail > 300,
        "{seen:?}"
    );
}

/// The answer by the plain writer: its bytes with the root's unknown bits, and
/// then the tail.
fn by_the_plain_writer(case: &ForwardCase) -> Result<Vec<u8>, Refusal> {
    let mut out = vec![BYTE; MAX_PAYLOAD];
    let (schema, sheet, data) = (&case.schema, &case.sheet, &case.data);
    let known = match write(schema, case.type_number, sheet, data, &mut out) {
        Err(refusal) if refusal.reason != PayloadTooLong => return Err(refusal),
        result => result.ok(),
    };
    let root = Schema::check(schema)?.find_type(case.type_number);
    let Some(schema::Type::Struct { count, .. }) = root else {
        panic!("no struct was written");
    };
    let presence = &data[sheet[1] as usize..][..count.div_ceil(8) as usize];
    let mut unknown = 0;
    for bit in count as usize..8 * presence.len() {
        unknown += u64::from(presence[bit / 8] >> (bit % 8) & 1);
    }
    let (place, length) = (u64::from(case.tail.place), u64::from(case.tail.length));
    if place + length > data.len() as u64 {
        return Err(SpanOutside.at(0));
    }
    if length < unknown || length > 0 && unknown == 0 {
        return Err(SheetMisfit.at(0));
    }
    let known = known.ok_or(PayloadTooLong.at(0))?;
    out.truncate(known);
    out[..presence.len()].copy_from_slice(presence);
    out.extend(&data[place as usize..(place + length) as usize]);
    match out.len() > MAX_PAYLOAD {
        true => Err(PayloadTooLong.at(0)),
        false => Ok(out),
    }
}

#[test]
fn the_plain_writer_with_the_unknown_bits_and_the_tail() {
    let mut generator = Generator::new(34, &[18]);
    let mut seen = [0; 2];
    for _ in 0..10_000 {
        let Some(Case::Forward(case)) = generator.case() else {
            panic!("another code");
        };
        let mut out = vec![BYTE; case.room];
        let answer = forward(
            &case.schema,
            case.type_number,
            &case.sheet,
            &case.data,
            case.tail,
            &mut out,
        );
        let expected = match by_the_plain_writer(&case) {
            Ok(bytes) if bytes.len() > case.room => Err(OutputTooSmall.at(0)),
            other => other,
        };
        let length = expected.as_ref().map_or(0, Vec::len);
        assert_eq!(
            answer,
            expected.as_ref().map(Vec::len).map_err(|&refusal| refusal)
        );
        assert_eq!(out[..length], expected.unwrap_or_default());
        assert!(out[length..].iter().all(|&byte| byte == BYTE));
        if answer.is_ok() {
            seen[usize::from(case.tail.length > 0)] += 1;
        }
    }
    assert!(seen.iter().all(|&times| times > 500), "{seen:?}");
}

#[test]
fn tails_and_their_bits() {
    let outside = Err(SpanOutside.at(0));
    let misfit = Err(SheetMisfit.at(0));
    let known = [1, 1, 7];
    for (bits, set) in [(0x05, 1), (0x81, 1), (0x0D, 2), (0xFD, 6)] {
        let data = [&[bits][..], &known, &[20, 21, 22, 23, 24, 25, 26, 27]].concat();
        for place in 0..=13 {
            for length in 0..=13 {
                let expected = if place + length > 12 {
                    outside.clone()
                } else if length < set {
                    misfit.clone()
                } else {
                    let tail = &data[place as usize..][..length as usize];
                    Ok([&[bits][..], &known, tail].concat())
                };
                assert_eq!(p6(&data, (place, length)), expected);
            }
        }
    }
    // Without unknown bits there is no tail.
    let data = [&[1][..], &known, &[20, 21]].concat();
    for place in 0..=8 {
        for length in 0..=8 {
            let expected = if place + length > 6 {
                outside.clone()
            } else if length > 0 {
                misfit.clone()
            } else {
                Ok(data[..4].to_vec())
            };
            assert_eq!(p6(&data, (place, length)), expected);
        }
    }
}

#[test]
fn tails_beyond_32_bits() {
    let outside = Err(SpanOutside.at(0));
    for (place, length) in [
        (u32::MAX, 0),
        (u32::MAX, 1),
        (u32::MAX, 5),
        (4, u32::MAX),
        (1, u32::MAX),
        (0, u32::MAX),
        (u32::MAX, u32::MAX),
        (1 << 31, 1 << 31),
    ] {
        assert_eq!(p6(P6, (place, length)), outside);
        assert_eq!(p6(&[1, 1, 1, 7, 9], (place, length)), outside);
    }
}

#[test]
fn unknown_bits_of_the_root_row_and_no_other() {
    // The root's presence bytes stand where its row says, and a spare bit of
    // an inner struct stays refused.
    let data = [P6, &[0x81, 30]].concat();
    let mut rows = P6_ROWS;
    rows[0][1] = 5;
    let answer = forwarded(&table_t(), 4, &rows, &data, (6, 1));
    assert_eq!(answer, Ok(vec![0x81, 1, 1, 7, 30]));
    let inner = [5, 1, 5, 7, 9];
    assert_eq!(p6(&inner, (4, 1)), Err(SheetMisfit.at(2)));
    assert_eq!(p6(&inner, (9, 9)), Err(SheetMisfit.at(2)));
    // Eight fields leave no bit unknown.
    let eight = Table {
        types: vec![[6, 0, 0], [16, 0, 8], [16, 0, 9]],
        fields: vec![[0, 1]; 9],
        methods: vec![],
    }
    .bytes();
    let rows = [[1, 0, 0, 8]]
        .into_iter()
        .chain([[0, 1, 1, 0]; 8])
        .collect::<Vec<_>>();
    let data = [0xFF, 7];
    let whole = [&[0xFF][..], &[7; 8]].concat();
    assert_eq!(forwarded(&eight, 1, &rows, &data, (2, 0)), Ok(whole));
    let misfit = Err(SheetMisfit.at(0));
    assert_eq!(forwarded(&eight, 1, &rows, &data, (0, 1)), misfit);
    // Nine leave seven in the second byte.
    let data = [0, 0x82, 9];
    let answer = forwarded(&eight, 2, &[[2, 0, 0, 0]], &data, (1, 2));
    assert_eq!(answer, Ok(vec![0, 0x82, 0x82, 9]));
    let answer = forwarded(&eight, 2, &[[2, 0, 0, 0]], &data, (2, 1));
    assert_eq!(answer, misfit);
}

/// Rows, then rows left over, then the tail's 51 and 50.
#[test]
fn the_order_of_refusals() {
    let outside = (9, 9);
    let mut bad = table_t();
    bad[104] = 99;
    let method = forwarded(&bad, 77, &[], &[], outside);
    assert_eq!(method, Err(MethodEntry.at(0)));
    for root in [0, 1, 3, 5, u32::MAX] {
        let answer = forwarded(&table_t(), root, &[], &[], outside);
        assert_eq!(answer, Err(NotAStruct.at(0)));
    }
    for rows in 0..4 {
        let answer = forwarded(&table_t(), 4, &P6_ROWS[..rows], P6, outside);
        assert_eq!(answer, Err(SheetMisfit.at(rows)));
    }
    let extra = [&P6_ROWS[..], &[[0; 4]]].concat();
    let answer = forwarded(&table_t(), 4, &extra, P6, outside);
    assert_eq!(answer, Err(SheetMisfit.at(4)));
    let mut rows = P6_ROWS;
    rows[3][1] = 5;
    let answer = forwarded(&table_t(), 4, &rows, P6, outside);
    assert_eq!(answer, Err(SpanOutside.at(3)));
    let absent = forwarded(&table_t(), 4, &P6_ROWS, &[4, 1, 1, 7], outside);
    assert_eq!(absent, Err(RequiredFieldAbsent.at(0)));
    // An empty tail beyond the bytes, though the root has an unknown bit.
    assert_eq!(p6(P6, (6, 0)), Err(SpanOutside.at(0)));
    assert_eq!(p6(P6, (5, 0)), Err(SheetMisfit.at(0)));
    // The tail before 7 and 52.
    let mut none = [];
    let sheet = P6_ROWS.concat();
    for (place, length, reason) in [
        (6, 0, SpanOutside),
        (5, 0, SheetMisfit),
        (4, 1, OutputTooSmall),
    ] {
        let tail = Tail { place, length };
        let answer = forward(&table_t(), 4, &sheet, P6, tail, &mut none);
        assert_eq!(answer, Err(reason.at(0)));
    }
}

#[test]
fn contents_and_maps_at_fault() {
    // A struct of an optional map of bool to string, and of itself.
    let schema = Table {
        types: vec![[1, 0, 0], [12, 0, 0], [15, 0, 1], [16, 0, 2]],
        fields: vec![[2, 1], [3, 1]],
        methods: vec![],
    }
    .bytes();
    let data = [0x81, 0, 1, 2, 0xFF, 0x82];
    let pairs = |count: u32, key: u32, value: u32| {
        let mut rows = vec![[3, 0, 0, 1], [2, 0, 0, count]];
        rows.extend([[0, 1, 1, 0], [1, 0, 0, 0], [0, key, 1, 0], [1, value, 1, 0]]);
        forwarded(&schema, 3, &rows, &data, (9, 9))
    };
    assert_eq!(pairs(2, 2, 2), Err(SpanOutside.at(0)));
    assert_eq!(pairs(2, 3, 2), Err(NotABool.at(4)));
    assert_eq!(pairs(2, 1, 9), Err(DuplicateKey.at(4)));
    assert_eq!(pairs(2, 2, 4), Err(NotUtf8.at(5)));
    assert_eq!(pairs(65, 2, 2), Err(TooManyPairs.at(1)));
    // Only the first of these structs is the root.
    let rows = [[3, 5, 0, 1], [3, 5, 0, 1]];
    let answer = forwarded(&schema, 3, &rows, &data, (0, 1));
    assert_eq!(answer, Err(SheetMisfit.at(1)));
    let data = [0x82, 2, 0];
    let nest = |levels: usize| {
        let mut rows = vec![[3, 1, 0, 1]; levels];
        rows[0][1] = 0;
        rows[levels - 1] = [3, 2, 0, 0];
        forwarded(&schema, 3, &rows, &data, (0, 3))
    };
    let whole = [&[0x82][..], &[2; 14], &[0, 0x82, 2, 0]].concat();
    assert_eq!(nest(16), Ok(whole));
    assert_eq!(nest(17), Err(TooDeep.at(16)));
}

/// A struct of one bytes field with so many bytes, and a tail of so many.
fn long(content: u32, length: u32, room: usize) -> Result<usize, Refusal> {
    let schema = Table {
        types: vec![[13, 0, 0], [16, 0, 1]],
        fields: vec![[0, 0]],
        methods: vec![],
    }
    .bytes();
    let mut data = vec![7; 40_000];
    data[0] = 3;
    let sheet = [[1, 0, 0, 1], [0, 0, content, 0]].concat();
    let tail = Tail { place: 1, length };
    let mut out = vec![BYTE; room];
    let answer = forward(&schema, 1, &sheet, &data, tail, &mut out);
    let used = answer.unwrap_or(0);
    assert!(out[used..].iter().all(|&byte| byte == BYTE));
    answer
}

#[test]
fn value_and_tail_of_16384_and_16385_bytes() {
    for length in [1, 100, 8_000] {
        // The bitmap and the length take three bytes.
        let content = 16_384 - 3 - length;
        assert_eq!(long(content, length, 17_000), Ok(16_384));
        assert_eq!(long(content, length, 16_384), Ok(16_384));
        for room in [0, 3 + content as usize, 16_383] {
            let answer = long(content, length, room);
            assert_eq!(answer, Err(OutputTooSmall.at(0)));
        }
        for room in [0, 16_384, 16_385, 40_000] {
            let too_long = Err(PayloadTooLong.at(0));
            assert_eq!(long(content, length + 1, room), too_long);
            assert_eq!(long(content + 1, length, room), too_long);
        }
    }
    // The value alone is too long: the tail is judged before.
    assert_eq!(long(16_382, 1, 0), Err(PayloadTooLong.at(0)));
    assert_eq!(long(16_382, 0, 0), Err(SheetMisfit.at(0)));
    assert_eq!(long(16_382, 40_000, 0), Err(SpanOutside.at(0)));
}

#[test]
fn room_to_the_byte_and_odd_cells() {
    let tail = Tail {
        place: 4,
        length: 1,
    };
    for odd in 0..4 {
        let sheet = [P6_ROWS.concat(), vec![7; odd]].concat();
        for room in 0..8 {
            let mut out = vec![BYTE; room];
            let answer = forward(&table_t(), 4, &sheet, P6, tail, &mut out);
            if room < 5 {
                assert_eq!(answer, Err(OutputTooSmall.at(0)));
                assert!(out.iter().all(|&byte| byte == BYTE));
            } else {
                assert_eq!(answer, Ok(5));
                assert_eq!(&out[..5], P6);
                assert!(out[5..].iter().all(|&byte| byte == BYTE));
            }
        }
    }
}
