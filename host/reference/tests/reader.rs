//! The payload reader, number by number.

mod common;

use common::{comparisons, read_rows, refusal, table_t, CELL};
use reference::generate::rng::Rng;
use reference::generate::table::Table;
use reference::{read, Reason, Refusal, MAX_COMPARISONS};
use Reason::*;

/// A table whose type 1 is a struct with one required field of type 0.
fn holding(kind: u32) -> Vec<u8> {
    Table {
        types: vec![[kind, 0, 0], [16, 0, 1]],
        fields: vec![[0, 0]],
        methods: vec![],
    }
    .bytes()
}

/// A table whose type 3 is a struct with one required map.
fn mapping(key: u32, value: u32) -> Vec<u8> {
    Table {
        types: vec![[key, 0, 0], [value, 0, 0], [15, 0, 1], [16, 0, 1]],
        fields: vec![[2, 0]],
        methods: vec![],
    }
    .bytes()
}

fn fault(schema: &[u8], root: u32, payload: &[u8]) -> Option<(Reason, u32)> {
    let fault = read_rows(schema, root, payload).err();
    fault.map(|Refusal { reason, place }| (reason, place))
}

#[test]
fn scalars_of_every_width() {
    let widths = [1, 1, 2, 4, 8, 1, 2, 4, 8, 4, 8];
    for (kind, width) in (1..).zip(widths) {
        let schema = holding(kind);
        let mut payload = vec![1];
        payload.resize(1 + width, 0);
        let rows = vec![[1, 0, 1 + width as u32, 1], [0, 1, width as u32, 0]];
        assert_eq!(read_rows(&schema, 1, &payload), Ok((rows, 1 + width, 0)));
        for length in 1..=width {
            assert_eq!(
                fault(&schema, 1, &payload[..length]),
                Some((ExceedsRemaining, 1))
            );
        }
        payload.push(0);
        let surplus = Some((SurplusBytes, 1 + width as u32));
        assert_eq!(fault(&schema, 1, &payload), surplus);
    }
}

#[test]
fn bools() {
    let schema = holding(1);
    for byte in 0..=255 {
        let expected = (byte > 1).then_some((NotABool, 1));
        assert_eq!(fault(&schema, 1, &[1, byte]), expected);
    }
}

#[test]
fn lengths_in_one_to_eleven_bytes() {
    for kind in [12, 13] {
        let schema = holding(kind);
        let rows = vec![[1, 0, 4, 1], [0, 2, 2, 0]];
        let short = [1, 2, b'o', b'k'];
        assert_eq!(read_rows(&schema, 1, &short), Ok((rows, 4, 0)));
        for length in 2..=10 {
            let spare = [&vec![0x80; length - 2][..], &[0]].concat();
            // Two bytes, and more than there are.
            for group in [0x82, 0xFF] {
                let payload = [&[1, group], &spare[..], b"ok"].concat();
                assert_eq!(fault(&schema, 1, &payload), Some((MalformedVarUint, 1)));
                let whole = &payload[..1 + length];
                assert_eq!(fault(&schema, 1, whole), Some((MalformedVarUint, 1)));
                let cut = &payload[..length];
                assert_eq!(fault(&schema, 1, cut), Some((ExceedsRemaining, 1)));
            }
        }
        for tenth in (0..=255).filter(|&tenth| tenth != 1) {
            let payload = [&[1][..], &[0x80; 9], &[tenth, 0]].concat();
            assert_eq!(fault(&schema, 1, &payload), Some((MalformedVarUint, 1)));
        }
        let one = [&[1][..], &[0x80; 9], &[1, 0]].concat();
        assert_eq!(fault(&schema, 1, &one), Some((ExceedsRemaining, 1)));
        let nine = [&[1][..], &[0x80; 9]].concat();
        assert_eq!(fault(&schema, 1, &nine), Some((ExceedsRemaining, 1)));
        let huge = [&[1][..], &[0xFF; 9], &[1]].concat();
        assert_eq!(fault(&schema, 1, &huge), Some((ExceedsRemaining, 1)));
        let one_more = [1, 3, b'o', b'k'];
        assert_eq!(fault(&schema, 1, &one_more), Some((ExceedsRemaining, 1)));
    }
}

#[test]
fn strings() {
    let schema = holding(12);
    let bad = [1, 2, b'a', 0x80];
    assert_eq!(fault(&schema, 1, &bad), Some((NotUtf8, 2)));
    assert_eq!(fault(&holding(13), 1, &bad), None);
    for text in ["\0", "\u{FFFE}", "\u{FFFF}", "\u{10FFFF}", ""] {
        let payload = [&[1, text.len() as u8], text.as_bytes()].concat();
        assert_eq!(fault(&schema, 1, &payload), None);
    }
}

#[test]
fn counts_above_what_remains() {
    let list = Table {
        types: vec![[1, 0, 0], [14, 0, 0], [16, 0, 1]],
        fields: vec![[1, 0]],
        methods: vec![],
    }
    .bytes();
    assert_eq!(fault(&list, 2, &[1, 2, 0, 0]), None);
    assert_eq!(fault(&list, 2, &[1, 3, 0, 0]), Some((ExceedsRemaining, 1)));
    assert_eq!(fault(&list, 2, &[1, 3, 9, 0]), Some((ExceedsRemaining, 1)));
    assert_eq!(fault(&list, 2, &[1, 2, 9, 0]), Some((NotABool, 2)));
    let map = mapping(6, 1);
    assert_eq!(fault(&map, 3, &[1, 1, 7, 0]), None);
    assert_eq!(fault(&map, 3, &[1, 1, 7]), Some((ExceedsRemaining, 1)));
    assert_eq!(
        fault(&map, 3, &[1, 2, 7, 0, 8]),
        Some((ExceedsRemaining, 1))
    );
    let half = [&[1][..], &[0x80; 9], &[1, 7, 0]].concat();
    assert_eq!(fault(&map, 3, &half), Some((ExceedsRemaining, 1)));
    // A count with a spare group, whatever it is: none, some, too many.
    for count in [0x80, 0x81, 0xFF] {
        let spare = [1, count, 0, 1, 1];
        assert_eq!(fault(&list, 2, &spare), Some((MalformedVarUint, 1)));
        assert_eq!(fault(&map, 3, &spare), Some((MalformedVarUint, 1)));
    }
}

#[test]
fn repeated_keys() {
    let map = mapping(6, 1);
    assert_eq!(fault(&map, 3, &[1, 2, 7, 0, 8, 0]), None);
    assert_eq!(fault(&map, 3, &[1, 2, 7, 0, 7, 9]), Some((DuplicateKey, 4)));
    let text = mapping(12, 1);
    let same = [1, 2, 1, b'k', 0, 1, b'k', 0];
    assert_eq!(fault(&text, 3, &same), Some((DuplicateKey, 5)));
    let spare_later = [1, 2, 1, b'k', 0, 0x81, 0, b'k', 0];
    assert_eq!(fault(&text, 3, &spare_later), Some((MalformedVarUint, 5)));
    let spare_earlier = [1, 2, 0x81, 0x80, 0, b'k', 0, 1, b'k', 0];
    assert_eq!(fault(&text, 3, &spare_earlier), Some((MalformedVarUint, 2)));
    let differ = [1, 2, 1, b'k', 0, 2, b'k', 0, 0];
    assert_eq!(fault(&text, 3, &differ), None);
    let bad_later = [1, 2, 1, b'k', 0, 1, 0x80, 0];
    assert_eq!(fault(&text, 3, &bad_later), Some((NotUtf8, 6)));
    let empty = [1, 2, 0, 1, 0, 1];
    assert_eq!(fault(&text, 3, &empty), Some((DuplicateKey, 4)));
}

#[test]
fn keys_of_inner_maps_stand_apart() {
    let schema = Table {
        types: vec![[6, 0, 0], [15, 0, 0], [15, 0, 1], [16, 0, 1]],
        fields: vec![[2, 0]],
        methods: vec![],
    }
    .bytes();
    let good = [1, 2, 5, 2, 5, 0, 6, 0, 6, 1, 5, 0];
    assert_eq!(fault(&schema, 3, &good), None);
    let inner = [1, 2, 5, 2, 5, 0, 5, 0, 6, 1, 5, 0];
    assert_eq!(fault(&schema, 3, &inner), Some((DuplicateKey, 6)));
    let outer = [1, 2, 5, 2, 5, 0, 6, 0, 5, 1, 5, 0];
    assert_eq!(fault(&schema, 3, &outer), Some((DuplicateKey, 8)));
}

/// The key comparisons that a right payload has due.
fn due(schema: &[u8], root: u32, payload: &[u8]) -> usize {
    let mut sheet = vec![CELL; 4 * 16_384];
    read(schema, root, payload, &mut sheet).unwrap().comparisons
}

/// A map of uint8 keys from 0 up, each with the same value.
fn pairs(count: u8, value: &[u8]) -> Vec<u8> {
    assert!(count < 0x80);
    let mut bytes = vec![count];
    for key in 0..count {
        bytes.push(key);
        bytes.extend(value);
    }
    bytes
}

/// The key of a number: 0 to 64 for all kinds but bool.
fn key(kind: u32, number: u8) -> Vec<u8> {
    match kind {
        12 | 13 => [&[3][..], b"k", &[number], b"k"].concat(),
        2..=5 => vec![number; 1 << (kind - 2)],
        _ => vec![number; 1 << (kind - 6)],
    }
}

#[test]
fn maps_of_64_and_65_pairs() {
    for kind in [2, 3, 4, 5, 6, 7, 8, 9, 12, 13] {
        let schema = mapping(kind, 1);
        let map = |count: u8| {
            let pair = |number| [key(kind, number), vec![0]].concat();
            let pairs: Vec<u8> = (0..count).flat_map(pair).collect();
            [&[1, count][..], &pairs].concat()
        };
        for count in [0, 1, 2, 63, 64] {
            assert_eq!(fault(&schema, 3, &map(count)), None);
            let number = usize::from(count);
            let expected = number * number.saturating_sub(1) / 2;
            assert_eq!(due(&schema, 3, &map(count)), expected);
        }
        assert_eq!(fault(&schema, 3, &map(65)), Some((TooManyPairs, 1)));
        let mut repeated = map(64);
        let last = repeated.len() - 1 - key(kind, 0).len();
        repeated.splice(last..repeated.len() - 1, key(kind, 0));
        let answer = fault(&schema, 3, &repeated);
        assert_eq!(answer, Some((DuplicateKey, last as u32)));
    }
}

#[test]
fn too_many_pairs_come_after_20_and_21_and_before_any_key() {
    let schema = mapping(1, 1);
    let excess = Some((TooManyPairs, 1));
    let short = Some((ExceedsRemaining, 1));
    // Whatever the pairs are: bools that are none, or all equal.
    for byte in [0, 9] {
        let map = |after: usize| [&[1, 65][..], &vec![byte; after]].concat();
        assert_eq!(fault(&schema, 3, &map(130)), excess);
        assert_eq!(fault(&schema, 3, &map(131)), excess);
        assert_eq!(fault(&schema, 3, &map(129)), short);
        assert_eq!(fault(&schema, 3, &map(0)), short);
    }
    let spare = [&[1, 0xC1, 0][..], &[0; 130]].concat();
    assert_eq!(fault(&schema, 3, &spare), Some((MalformedVarUint, 1)));
    let thousands = [&[1, 0xFE, 0x3F][..], &[0; 16_380]].concat();
    assert_eq!(fault(&schema, 3, &thousands), excess);
    let cut = &thousands[..16_382];
    assert_eq!(fault(&schema, 3, cut), short);
    let few = [&[1, 64][..], &[0; 128]].concat();
    assert_eq!(fault(&schema, 3, &few), Some((DuplicateKey, 4)));
    // The sheet is not asked for before the payload is right.
    let answer = read(&schema, 3, &thousands, &mut []);
    assert_eq!(answer, Err(TooManyPairs.at(1)));
}

#[test]
fn too_many_pairs_and_depth() {
    let schema = nest();
    let at = |depth: usize| [&[4][..], &[1, 9].repeat(depth - 2), &[65], &[7; 130]].concat();
    for depth in 2..=16 {
        let place = 2 * depth as u32 - 3;
        assert_eq!(fault(&schema, 0, &at(depth)), Some((TooManyPairs, place)));
    }
    // A key at depth 17, and a map there.
    assert_eq!(fault(&schema, 0, &at(17)), Some((TooDeep, 30)));
    let map = [&[1; 15][..], &[4, 65], &[7; 130]].concat();
    assert_eq!(fault(&schema, 0, &map), Some((TooDeep, 16)));
}

#[test]
fn the_first_fault_of_two_maps() {
    // A struct of two maps of uint8 to bool.
    let schema = Table {
        types: vec![[6, 0, 0], [1, 0, 0], [15, 0, 1], [16, 0, 2]],
        fields: vec![[2, 0], [2, 0]],
        methods: vec![],
    }
    .bytes();
    let two = |first: Vec<u8>, second: Vec<u8>| [&[3], &first[..], &second].concat();
    let good = two(pairs(64, &[0]), pairs(63, &[1]));
    assert_eq!(fault(&schema, 3, &good), None);
    assert_eq!(due(&schema, 3, &good), 2_016 + 1_953);
    let second = two(pairs(64, &[0]), pairs(65, &[1]));
    assert_eq!(fault(&schema, 3, &second), Some((TooManyPairs, 130)));
    let repeated = two(vec![2, 5, 0, 5, 0], pairs(65, &[1]));
    assert_eq!(fault(&schema, 3, &repeated), Some((DuplicateKey, 4)));
    let both = two(pairs(65, &[0]), vec![2, 5, 0, 5, 0]);
    assert_eq!(fault(&schema, 3, &both), Some((TooManyPairs, 1)));
}

#[test]
fn comparisons_of_nested_maps() {
    // A struct of an array of structs, each with a map of uint8 to maps.
    let schema = Table {
        types: vec![
            [6, 0, 0],
            [15, 0, 0],
            [15, 0, 1],
            [16, 0, 1],
            [14, 3, 0],
            [16, 1, 2],
        ],
        fields: vec![[2, 0], [4, 0], [2, 1]],
        methods: vec![],
    }
    .bytes();
    let element = |outer, inner| [&[1], &pairs(outer, &pairs(inner, &[7]))[..]].concat();
    let root = |elements: &[Vec<u8>]| [&[1, elements.len() as u8], &elements.concat()[..]].concat();
    let one = |outer, inner| due(&schema, 5, &root(&[element(outer, inner)]));
    assert_eq!(one(0, 0), 0);
    assert_eq!(one(1, 1), 0);
    assert_eq!(one(2, 3), 1 + 2 * 3);
    assert_eq!(one(64, 64), 65 * 2_016);
    let three = root(&[element(3, 4), element(64, 0), element(1, 64)]);
    assert_eq!(due(&schema, 5, &three), (3 + 3 * 6) + 2_016 + 2_016);
    let excess = root(&[element(64, 1), element(1, 65)]);
    let place = 2 + 1 + 1 + 64 * 4 + 1 + 2;
    assert_eq!(fault(&schema, 5, &excess), Some((TooManyPairs, place)));
    // What is in a tail is not read.
    let tail = [&[5, 0][..], &pairs(9, &[7])].concat();
    assert_eq!(due(&schema, 5, &tail), 0);
}

/// A map of uint8 to maps of its own type, whose maps have the counts that are
/// left, the next first; where none is left they are empty.
fn maps_of_maps(counts: &mut Vec<u8>, levels: usize, bytes: &mut Vec<u8>) {
    let count = match levels {
        0 => 0,
        _ => counts.pop().unwrap_or(0),
    };
    bytes.push(count);
    for key in 0..count {
        bytes.push(key);
        maps_of_maps(counts, levels - 1, bytes);
    }
}

/// The table of such maps; type 2 is a struct with one.
fn maps_of_maps_table() -> Vec<u8> {
    Table {
        types: vec![[6, 0, 0], [15, 0, 1], [16, 0, 1]],
        fields: vec![[1, 0]],
        methods: vec![],
    }
    .bytes()
}

/// Each pair takes two bytes or more, as a map among the values has its count
/// for its byte, and there are a bitmap and the first map's count besides. So
/// 16,384 bytes hold 8,191 pairs at most: 127 maps of 64 and one of 63.
#[test]
fn the_most_comparisons() {
    let schema = maps_of_maps_table();
    for levels in 3..=14 {
        let payload = |counts: Vec<u8>| {
            let mut counts = counts;
            let mut bytes = vec![1];
            maps_of_maps(&mut counts, levels, &mut bytes);
            bytes
        };
        let most = payload([vec![63], vec![64; 127]].concat());
        assert_eq!(most.len(), 16_384);
        let (rows, ..) = read_rows(&schema, 2, &most).unwrap();
        assert_eq!(rows.len(), 16_384);
        assert_eq!(due(&schema, 2, &most), 127 * 2_016 + 1_953);
        assert_eq!(due(&schema, 2, &most), MAX_COMPARISONS - 63);
        let excess = payload([vec![63, 63], vec![64; 125], vec![65]].concat());
        assert_eq!(excess.len(), 16_384);
        assert_eq!(fault(&schema, 2, &excess), Some((TooManyPairs, 1)));
        let long = payload(vec![64; 128]);
        assert_eq!(fault(&schema, 2, &long), Some((PayloadTooLong, 0)));
    }
}

#[test]
fn no_payload_of_random_maps_has_more_comparisons() {
    let schema = maps_of_maps_table();
    let mut rng = Rng::new(12);
    for _ in 0..300 {
        let (mut counts, mut left) = (Vec::new(), 8_191);
        while left > 0 {
            let least = rng.pick(&[1, 60, 64]);
            let count = rng.range(least, 64).min(left);
            counts.push(count as u8);
            left -= count;
        }
        rng.shuffle(&mut counts);
        let mut payload = vec![1];
        maps_of_maps(&mut counts, rng.range(3, 14), &mut payload);
        assert!(payload.len() <= 16_384);
        let (rows, ..) = read_rows(&schema, 2, &payload).unwrap();
        assert!(comparisons(&schema, &rows) <= MAX_COMPARISONS - 63);
    }
}

#[test]
fn many_maps_in_an_array() {
    let schema = Table {
        types: vec![[6, 0, 0], [15, 0, 0], [14, 1, 0], [16, 0, 1]],
        fields: vec![[2, 0]],
        methods: vec![],
    }
    .bytes();
    let maps = [pairs(64, &[0]).repeat(126), pairs(63, &[0])].concat();
    let payload = [&[1, 127], &maps[..]].concat();
    assert_eq!(payload.len(), 16_383);
    assert_eq!(due(&schema, 3, &payload), 126 * 2_016 + 1_953);
}

#[test]
fn bitmaps() {
    let schema = Table {
        types: vec![[6, 0, 0], [16, 0, 9], [16, 9, 1]],
        fields: [vec![[0, 1]; 8], vec![[0, 0]], vec![[1, 0]]].concat(),
        methods: vec![],
    }
    .bytes();
    assert_eq!(fault(&schema, 1, &[0]), Some((ExceedsRemaining, 0)));
    assert_eq!(fault(&schema, 1, &[0, 0]), Some((RequiredFieldAbsent, 0)));
    assert_eq!(fault(&schema, 1, &[0, 2]), Some((RequiredFieldAbsent, 0)));
    assert_eq!(fault(&schema, 1, &[0, 1, 7]), None);
    assert_eq!(fault(&schema, 1, &[0, 3, 7, 7]), None);
    assert_eq!(
        fault(&schema, 1, &[0, 0xFF, 7, 1, 2, 3, 4, 5, 6]),
        Some((ExceedsRemaining, 3))
    );
    assert_eq!(fault(&schema, 1, &[0, 0xFF, 7, 1, 2, 3, 4, 5, 6, 7]), None);
    assert_eq!(fault(&schema, 2, &[1, 0]), Some((ExceedsRemaining, 1)));
    assert_eq!(
        fault(&schema, 2, &[1, 0, 2]),
        Some((RequiredFieldAbsent, 1))
    );
    assert_eq!(fault(&schema, 2, &[1, 0, 3, 7]), Some((UnknownInnerBit, 1)));
    assert_eq!(fault(&schema, 2, &[1, 0, 1, 7]), None);
}

#[test]
fn sixty_four_fields() {
    let schema = Table {
        types: vec![[6, 0, 0], [16, 0, 64]],
        fields: vec![[0, 1]; 64],
        methods: vec![],
    }
    .bytes();
    let payload = [&[0xFF; 8][..], &[7; 64]].concat();
    let (rows, end, tail) = read_rows(&schema, 1, &payload).unwrap();
    assert_eq!(
        (rows.len(), rows[0], end, tail),
        (65, [1, 0, 72, 64], 72, 0)
    );
    assert_eq!(
        read_rows(&schema, 1, &[0; 8]),
        Ok((vec![[1, 0, 8, 0]], 8, 0))
    );
}

#[test]
fn tails() {
    let schema = holding(6);
    let rows = vec![[1, 0, 2, 1], [0, 1, 1, 0]];
    for (bits, set) in [(0x03, 1), (0x81, 1), (0x07, 2), (0xFF, 7)] {
        for length in 0..12usize {
            let payload = [&[bits, 9][..], &vec![0xEE; length]].concat();
            let expected = match length < set {
                true => refusal(ExceedsRemaining, 2),
                false => Ok((rows.clone(), 2, length)),
            };
            assert_eq!(read_rows(&schema, 1, &payload), expected);
        }
    }
    assert_eq!(fault(&schema, 1, &[3]), Some((ExceedsRemaining, 1)));
}

/// Table: type 0 a struct that may hold itself, an array, a map or a byte.
fn nest() -> Vec<u8> {
    Table {
        types: vec![[16, 0, 4], [14, 1, 0], [15, 3, 2], [6, 0, 0]],
        fields: vec![[0, 1], [1, 1], [2, 1], [3, 1]],
        methods: vec![],
    }
    .bytes()
}

#[test]
fn depth_16_and_17() {
    let schema = nest();
    let structs = |levels: usize| [&vec![1; levels - 1][..], &[0]].concat();
    assert_eq!(read_rows(&schema, 0, &structs(16)).unwrap().0.len(), 16);
    assert_eq!(fault(&schema, 0, &structs(17)), Some((TooDeep, 16)));
    assert_eq!(fault(&schema, 0, &[1; 16]), Some((TooDeep, 16)));
    assert_eq!(fault(&schema, 0, &[1; 15]), Some((ExceedsRemaining, 15)));
    let arrays = |levels: usize| [&[2][..], &vec![1; levels - 2], &[0]].concat();
    assert_eq!(read_rows(&schema, 0, &arrays(16)).unwrap().0.len(), 16);
    assert_eq!(fault(&schema, 0, &arrays(17)), Some((TooDeep, 16)));
    let maps = |levels: usize| [&[4][..], &[1, 9].repeat(levels - 2), &[0]].concat();
    assert_eq!(read_rows(&schema, 0, &maps(16)).unwrap().0.len(), 30);
    assert_eq!(fault(&schema, 0, &maps(17)), Some((TooDeep, 30)));
    let leaf = |levels: usize| [&vec![1; levels - 2][..], &[8, 7]].concat();
    assert_eq!(fault(&schema, 0, &leaf(16)), None);
    assert_eq!(fault(&schema, 0, &leaf(17)), Some((TooDeep, 16)));
}

#[test]
fn counts_are_judged_before_children_too_deep() {
    let schema = nest();
    let at_16 = [&[2][..], &[1; 14], &[1]].concat();
    assert_eq!(fault(&schema, 0, &at_16), Some((ExceedsRemaining, 15)));
    let whole = [&at_16[..], &[0]].concat();
    assert_eq!(fault(&schema, 0, &whole), Some((TooDeep, 16)));
}

#[test]
fn payloads_of_16384_and_16385_bytes() {
    let schema = holding(13);
    let payload = |length: usize| {
        let content = length - 3;
        let size = [content as u8 | 0x80, (content >> 7) as u8];
        [&[1][..], &size, &vec![0xEE; content]].concat()
    };
    let rows = vec![[1, 0, 16_384, 1], [0, 3, 16_381, 0]];
    assert_eq!(
        read_rows(&schema, 1, &payload(16_384)),
        Ok((rows, 16_384, 0))
    );
    assert_eq!(
        fault(&schema, 1, &payload(16_385)),
        Some((PayloadTooLong, 0))
    );
    assert_eq!(fault(&schema, 0, &payload(16_385)), Some((NotAStruct, 0)));
    let list = Table {
        types: vec![[6, 0, 0], [14, 0, 0], [16, 0, 1]],
        fields: vec![[1, 0]],
        methods: vec![],
    }
    .bytes();
    let (rows, ..) = read_rows(&list, 2, &payload(16_384)).unwrap();
    assert_eq!(rows.len(), 16_383);
}

#[test]
fn types_that_are_no_struct_and_bad_tables() {
    let schema = table_t();
    for number in [0, 1, 3, 5, u32::MAX] {
        assert_eq!(fault(&schema, number, &[]), Some((NotAStruct, 0)));
    }
    assert_eq!(fault(&[], 4, &[]), Some((SchemaShape, 0)));
    let mut bad = schema.clone();
    bad[12] = 99;
    assert_eq!(fault(&bad, 77, &[0; 16_385]), Some((TypeRow, 1)));
}

#[test]
fn sheets_with_too_few_rows() {
    let schema = table_t();
    for cells in 0..8 {
        let mut sheet = vec![CELL; cells];
        let answer = read(&schema, 4, &[1, 0], &mut sheet);
        assert_eq!(answer, Err(SheetTooSmall.at(0)));
        assert!(sheet.iter().all(|&cell| cell == CELL));
        let faulty = read(&schema, 4, &[1, 0, 0], &mut sheet);
        assert_eq!(faulty, Err(SurplusBytes.at(2)));
    }
    for cells in 8..13 {
        let mut sheet = vec![CELL; cells];
        assert!(read(&schema, 4, &[1, 0], &mut sheet).is_ok());
        assert!(sheet[8..].iter().all(|&cell| cell == CELL));
    }
}

#[test]
fn an_old_table_and_added_fields() {
    let old = table_t();
    let new = Table {
        types: vec![[6, 0, 0], [12, 0, 0], [16, 0, 3], [14, 2, 0], [16, 3, 3]],
        fields: vec![[0, 0], [1, 1], [0, 1], [3, 0], [0, 1], [1, 1]],
        methods: vec![],
    }
    .bytes();
    let inner = [1, 1, 5, 7, 8];
    assert!(read_rows(&new, 4, &inner).is_ok());
    assert_eq!(fault(&old, 4, &inner), Some((UnknownInnerBit, 2)));
    let root = [5, 0, 1, b'x'];
    assert!(read_rows(&new, 4, &root).is_ok());
    let rows = vec![[4, 0, 2, 1], [3, 2, 0, 0]];
    assert_eq!(read_rows(&old, 4, &root), Ok((rows, 2, 2)));
}
