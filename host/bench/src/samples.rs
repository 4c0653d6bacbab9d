//! What is measured: schema tables, and payloads of many shapes.

use reference::generate::table::{Table, ARRAY, MAP, STRING, STRUCT};
use reference::schema::{MAX_FIELDS, MAX_METHODS, MAX_TYPES};
use reference::MAX_PAYLOAD;

/// A payload with the table and the type that it is read by.
pub struct Sample {
    pub name: &'static str,
    pub schema: Vec<u8>,
    pub type_number: u32,
    pub payload: Vec<u8>,
}

const UINT8: u32 = 6;
const UINT16: u32 = 7;
const UINT32: u32 = 8;
const UINT64: u32 = 9;
const BOOL: u32 = 1;

/// A good table that is full in all three sections.
pub fn full_table() -> Vec<u8> {
    let mut table = Table::default();
    for kind in 1..=13 {
        table.add_type(kind, 0, 0);
    }
    for element in 0..96 {
        table.add_type(ARRAY, element, 0);
    }
    for value in 0..83 {
        table.add_type(MAP, value % 9, value);
    }
    while table.types.len() < MAX_TYPES {
        let first = table.fields.len() as u32;
        let fields = (first..first + 32).map(|field| [field % MAX_TYPES as u32, field % 2]);
        let fields: Vec<_> = fields.collect();
        table.add_struct(&fields);
    }
    table.fields.resize(MAX_FIELDS, [0, 1]);
    for method in 0..MAX_METHODS as u32 {
        table.methods.push([1, 2, method, 15, 200, 210, 220, 230]);
    }
    table.bytes()
}

/// A good table of so many types, each a struct of eight fields.
pub fn table_of_types(types: usize) -> Vec<u8> {
    let mut table = Table::default();
    for _ in 0..types {
        table.add_struct(&[[0, 1]; 8]);
    }
    table.bytes()
}

/// A good table of one struct and so many methods, which differ in their last
/// identifier.
pub fn table_of_methods(methods: usize) -> Vec<u8> {
    table_of_names((0..methods as u32).map(|method| [1, 2, method]))
}

/// The same, with identifiers in no order.
pub fn table_of_scattered_methods(methods: usize) -> Vec<u8> {
    let mut state = 1u64;
    let mut next = || {
        state = state
            .wrapping_mul(6_364_136_223_846_793_005)
            .wrapping_add(1);
        (state >> 32) as u32
    };
    table_of_names((0..methods).map(|_| [next(), next(), next()]))
}

/// The same, with a distance between two and two of their last identifiers.
pub fn table_of_methods_apart(methods: usize, distance: u32) -> Vec<u8> {
    table_of_names((0..methods as u32).map(|method| [1, 2, distance * method]))
}

/// A number mixed as the library mixes it: by the two products of splitmix64.
fn mixed(x: u64) -> u64 {
    let once = (x ^ x >> 30).wrapping_mul(0xBF58_476D_1CE4_E5B9);
    (once ^ once >> 27).wrapping_mul(0x94D0_49BB_1331_11EB)
}

/// A good table whose methods' identifiers are chosen against the flags by
/// which the library looks for two methods with the same identifiers. Its first
/// kind of flag has so few values here that it is abandoned, and the second, of
/// mixed numbers, one alone; `fast` takes its first slots from the same numbers.
pub fn table_of_one_flag(methods: usize) -> Vec<u8> {
    let names = 1u64 + (2 << 32);
    let (sum, seed) = (names.wrapping_mul(0x369D_EA0F_31A5_3F85), mixed(names));
    let few = |method: u64| sum.wrapping_add(method.wrapping_mul(0xD6E8_FEB8_6659_FD93)) >> 60 == 0;
    let one = |method: u64| mixed(seed.wrapping_add(method)) >> 52 == 5;
    let all = (0..u32::MAX).filter(|&method| few(method.into()) && one(method.into()));
    table_of_names(all.take(methods).map(|method| [1, 2, method]))
}

/// Correlations that are chosen in the same way against the flags by which the
/// library looks for two calls with one correlation.
pub fn correlations_of_one_flag(calls: usize) -> Vec<u64> {
    let few = |correlation: u64| correlation.wrapping_mul(0x9E37_79B9_7F4A_7C15) >> 60 == 0;
    let one = |correlation: u64| mixed(correlation) >> 54 == 5;
    let all = (0..u64::MAX).filter(|&correlation| few(correlation) && one(correlation));
    all.take(calls).collect()
}

/// A good table of one struct and methods with these identifiers.
fn table_of_names(names: impl Iterator<Item = [u32; 3]>) -> Vec<u8> {
    let mut table = Table::default();
    let byte = table.add_type(UINT8, 0, 0);
    let small = table.add_struct(&[[byte, 0]]);
    for [package, service, method] in names {
        let row = [
            package,
            service,
            method,
            12,
            small,
            small,
            u32::MAX,
            u32::MAX,
        ];
        table.methods.push(row);
    }
    table.bytes()
}

/// The shortest VarUInt of a number.
pub fn size(number: usize) -> Vec<u8> {
    let mut out = vec![0; 10];
    let length = reference::varuint::encode(number as u64, &mut out);
    out.truncate(length);
    out
}

/// A length and that many bytes.
pub fn text(content: &[u8]) -> Vec<u8> {
    [&size(content.len()), content].concat()
}

/// As many items as there is room for, with their count before them.
fn counted(room: usize, item: impl Fn(usize) -> Vec<u8>) -> Vec<u8> {
    let (mut count, mut items) = (0, Vec::new());
    loop {
        let next = item(count);
        if size(count + 1).len() + items.len() + next.len() > room {
            return [size(count), items].concat();
        }
        items.extend(next);
        count += 1;
    }
}

/// A payload of exactly the longest length.
fn longest(
    name: &'static str,
    table: Table,
    field: u32,
    content: impl Fn(usize) -> Vec<u8>,
) -> Sample {
    filled_to(MAX_PAYLOAD, name, table, field, content)
}

/// A payload of exactly so many bytes: a struct of one field, which takes the
/// room it is given, and of bytes that fill the rest.
fn filled_to(
    size: usize,
    name: &'static str,
    mut table: Table,
    field: u32,
    content: impl Fn(usize) -> Vec<u8>,
) -> Sample {
    let bytes = table.add_type(13, 0, 0);
    let type_number = table.add_struct(&[[field, 0], [bytes, 0]]);
    let mut payload = vec![3];
    payload.extend(content(size - 4));
    let left = size - payload.len();
    let length = match left {
        0..=128 => left - 1,
        _ => left - 2,
    };
    payload.extend(text(&vec![0; length]));
    assert_eq!(payload.len(), size);
    Sample {
        name,
        schema: table.bytes(),
        type_number,
        payload,
    }
}

/// A struct of a byte and a word, many times.
fn small_structs() -> Sample {
    small_structs_of(MAX_PAYLOAD)
}

/// The same in a payload of so many bytes.
pub fn small_structs_of(bytes: usize) -> Sample {
    let mut table = Table::default();
    let byte = table.add_type(UINT8, 0, 0);
    let word = table.add_type(UINT32, 0, 0);
    let small = table.add_struct(&[[byte, 0], [word, 1]]);
    let array = table.add_type(ARRAY, small, 0);
    filled_to(bytes, "small structs", table, array, |room| {
        counted(room, |index| vec![3, index as u8, 1, 2, 3, 4])
    })
}

/// Samples with our table beside the writer's, which has added an optional
/// field to each small struct, and one to the struct of the long string.
pub fn besides() -> Vec<(Vec<u8>, Sample)> {
    let small = |known: usize| {
        let mut table = Table::default();
        let byte = table.add_type(UINT8, 0, 0);
        let word = table.add_type(UINT32, 0, 0);
        let fields = [[byte, 0], [word, 1], [byte, 1]];
        let small = table.add_struct(&fields[..known]);
        let array = table.add_type(ARRAY, small, 0);
        longest("small structs, a field added", table, array, |room| {
            counted(room, |index| vec![7, index as u8, 1, 2, 3, 4, 9])
        })
    };
    let long = |known: usize| {
        let mut table = Table::default();
        let string = table.add_type(STRING, 0, 0);
        let inner = table.add_struct(&[[string, 0], [string, 1]][..known]);
        longest("long string, ASCII, a field added", table, inner, |room| {
            [
                &[3],
                &text("a".repeat(room - 9).as_bytes())[..],
                &text(b"added"),
            ]
            .concat()
        })
    };
    vec![(small(2).schema, small(3)), (long(1).schema, long(2))]
}

/// One string of a character over and over.
fn string(name: &'static str, character: &str) -> Sample {
    let mut table = Table::default();
    let string = table.add_type(STRING, 0, 0);
    longest(name, table, string, |room| {
        let times = (room - 2) / character.len();
        text(character.repeat(times).as_bytes())
    })
}

/// Arrays of arrays of arrays of bytes.
fn nested_arrays() -> Sample {
    let mut table = Table::default();
    let byte = table.add_type(UINT8, 0, 0);
    let inner = table.add_type(ARRAY, byte, 0);
    let middle = table.add_type(ARRAY, inner, 0);
    let outer = table.add_type(ARRAY, middle, 0);
    longest("nested arrays", table, outer, |room| {
        counted(room, |_| counted(33, |_| vec![3, 7, 8, 9]))
    })
}

/// Structs of 64 optional bytes each, of which one is present.
fn optional_fields() -> Sample {
    let mut table = Table::default();
    let byte = table.add_type(UINT8, 0, 0);
    let wide = table.add_struct(&[[byte, 1]; 64]);
    let array = table.add_type(ARRAY, wide, 0);
    longest("64 optional fields, one present", table, array, |room| {
        counted(room, |index| {
            [&(1u64 << (index % 64)).to_le_bytes()[..], &[7]].concat()
        })
    })
}

/// A kind, and a value of it.
type Number = (u32, &'static [u8]);

const BYTE: Number = (UINT8, &[7]);
const WORD: Number = (UINT32, &[4, 3, 2, 1]);

/// Maps of so many pairs each, from keys of a kind to a number.
fn maps(
    name: &'static str,
    pairs: usize,
    number: Number,
    kind: u32,
    key: fn(usize) -> Vec<u8>,
) -> Sample {
    let mut table = Table::default();
    let keys = table.add_type(kind, 0, 0);
    let values = table.add_type(number.0, 0, 0);
    let map = table.add_type(MAP, keys, values);
    let array = table.add_type(ARRAY, map, 0);
    let pair = |index| [&key(index), number.1].concat();
    let map: Vec<u8> = (0..pairs).flat_map(pair).collect();
    let map = [size(pairs), map].concat();
    longest(name, table, array, |room| counted(room, |_| map.clone()))
}

/// A number that stands in no order among those of the indexes before it.
fn scattered(index: usize) -> u32 {
    (index as u32).wrapping_mul(0x9E37_79B9)
}

/// Maps of so many pairs each, whose keys are words in no order.
fn scattered_maps(name: &'static str, pairs: usize) -> Sample {
    maps(name, pairs, WORD, UINT32, |index| {
        scattered(index).to_le_bytes().to_vec()
    })
}

/// The same for any number of pairs, in a payload of the same length.
pub fn maps_of_pairs(pairs: usize) -> Sample {
    scattered_maps("maps, uint32 keys in no order", pairs)
}

/// Keys of 16 bytes that are alike but for the last two of each eight.
fn alike_but_for_four(index: usize) -> [u8; 16] {
    let (a, b) = ((index / 8) as u8, (index % 8) as u8);
    let mut key = *b"receipt0-account";
    key[6] = 0x30 + a;
    key[7] = 0x30 + b;
    key[14] = 0x7E - 9 * a;
    key[15] = 0x7E - 9 * b;
    key
}

/// Maps whose keys are chosen so that the library's flag of each is the same:
/// their first bytes are alike.
pub fn maps_of_one_flag() -> Sample {
    let name = "64-pair maps, uint16 keys of one flag";
    maps(name, 64, BYTE, UINT16, |index| vec![7, index as u8])
}

/// Maps whose keys are 32 strings of seven bytes, and the same with a byte 7
/// after them, which the library's digests tell apart by hashing alone.
pub fn maps_of_lengths() -> Sample {
    let name = "64-pair maps, string keys by twos, one with a byte 7 more";
    maps(name, 64, WORD, STRING, |index| {
        let key = format!("receip{}", char::from(0x40 + (index % 32) as u8));
        text(&[key.as_bytes(), &[7][..index / 32]].concat())
    })
}

/// Maps at their worst: the widest keys of a number, long keys that differ in
/// few bytes, nearly the most keys to compare that a payload can have, many
/// small maps, beside each other and in each other, and keys that do not rise.
fn worst_maps() -> Vec<Sample> {
    vec![
        maps("64-pair maps, uint64 keys", 64, WORD, UINT64, |index| {
            (index as u64).to_le_bytes().to_vec()
        }),
        maps(
            "64-pair maps, 18-byte keys alike at both ends",
            64,
            WORD,
            STRING,
            |index| text(format!("receipt-{index:02}-account").as_bytes()),
        ),
        maps(
            "64-pair maps, 16-byte keys alike but for four bytes",
            64,
            WORD,
            STRING,
            |index| text(&alike_but_for_four(index)),
        ),
        maps("64-pair maps, uint8 keys", 64, BYTE, UINT8, |index| {
            vec![index as u8]
        }),
        maps("2-pair maps, uint8 keys", 2, BYTE, UINT8, |index| {
            vec![index as u8]
        }),
        scattered_maps("64-pair maps, uint32 keys in no order", 64),
        maps(
            "64-pair maps, uint8 keys in no order",
            64,
            BYTE,
            UINT8,
            // All 64 differ, as 157 is odd.
            |index| vec![(157 * index) as u8],
        ),
        maps(
            "64-pair maps, uint8 keys that fall",
            64,
            BYTE,
            UINT8,
            |index| vec![200 - index as u8],
        ),
        nested_maps(),
    ]
}

/// Maps of two pairs in maps, 13 levels of them, so that the innermost keys
/// and values stand at depth 16. Each map has the next one and an empty one.
fn nested_maps() -> Sample {
    let mut table = Table::default();
    let byte = table.add_type(UINT8, 0, 0);
    let mut map = table.add_type(MAP, byte, byte);
    let mut nest = vec![2, 0, 7, 1, 8];
    for _ in 1..13 {
        map = table.add_type(MAP, byte, map);
        nest = [&[2, 0, 0, 1], &nest[..]].concat();
    }
    let array = table.add_type(ARRAY, map, 0);
    longest("maps in maps, 13 levels", table, array, |room| {
        counted(room, |_| nest.clone())
    })
}

/// The table of a receipt, with a method that takes one and gives one back.
pub fn receipt_table() -> Table {
    let mut table = Table::default();
    let truth = table.add_type(BOOL, 0, 0);
    let number = table.add_type(UINT32, 0, 0);
    let amount = table.add_type(UINT64, 0, 0);
    let name = table.add_type(STRING, 0, 0);
    let item = table.add_struct(&[[name, 0], [number, 0], [amount, 0], [name, 1]]);
    let items = table.add_type(ARRAY, item, 0);
    let receipt = table.add_struct(&[
        [amount, 0],
        [name, 0],
        [items, 0],
        [amount, 0],
        [truth, 1],
        [name, 1],
    ]);
    table
        .methods
        .push([1, 2, 3, 12, receipt, receipt, u32::MAX, u32::MAX]);
    assert_eq!(table.types[receipt as usize][0], STRUCT);
    table
}

/// A receipt of 100 bytes: a number, a shop, three items, a sum, a mark,
/// a note.
pub fn receipt() -> Sample {
    let table = receipt_table();
    let mut payload = vec![0x3F];
    payload.extend(20_260_704u64.to_le_bytes());
    payload.extend(text("Zur alten Mühle".as_bytes()));
    payload.extend(size(3));
    for (item, price) in [("bread", 380u64), ("milk", 145), ("apples", 299)] {
        payload.push(0x07);
        payload.extend(text(item.as_bytes()));
        payload.extend(2u32.to_le_bytes());
        payload.extend(price.to_le_bytes());
    }
    payload.extend(1_648u64.to_le_bytes());
    payload.push(1);
    payload.extend(text(b"thanks"));
    assert_eq!(payload.len(), 100);
    Sample {
        name: "receipt of 100 bytes",
        schema: table.bytes(),
        type_number: 6,
        payload,
    }
}

/// A frame of a kind for the method 1, 2, 3, as the tables here have it.
pub fn frame(kind: u32, correlation: u64, payload: &[u8]) -> Vec<u8> {
    frame_of([1, 2, 3], kind, correlation, payload)
}

/// A frame of a kind for a method.
pub fn frame_of(identifiers: [u32; 3], kind: u32, correlation: u64, payload: &[u8]) -> Vec<u8> {
    let header = reference::Header {
        kind,
        identifiers,
        correlation,
    };
    let mut bytes = vec![0; 40 + payload.len()];
    let length = reference::write_frame(&header, payload, &mut bytes);
    bytes.truncate(length.expect("the payload is not too long"));
    bytes
}

/// The payloads that the reader and the writer are measured on.
pub fn payloads() -> Vec<Sample> {
    let mut all = vec![
        small_structs(),
        string("long string, ASCII", "a"),
        string("long string, two-byte characters", "é"),
        string("long string, three-byte characters", "水"),
        string("long string, four-byte characters", "🚰"),
        string(
            "long string, German text",
            "Zur alten Mühle, schöne Grüße, ",
        ),
        nested_arrays(),
        optional_fields(),
        maps("64-pair maps, uint32 keys", 64, WORD, UINT32, |index| {
            (index as u32).to_le_bytes().to_vec()
        }),
        maps("64-pair maps, string keys", 64, WORD, STRING, |index| {
            text(format!("key-{index:02}").as_bytes())
        }),
    ];
    all.extend(worst_maps());
    all.push(receipt());
    all
}

/// A record of the most bytes that one may have.
pub struct Record {
    pub name: &'static str,
    pub bytes: Vec<u8>,
}

/// The bytes again and again, up to the longest record.
fn filled(name: &'static str, item: &[u8]) -> Record {
    let bytes = item.iter().copied().cycle().take(arf::MAX_RECORD);
    Record {
        name,
        bytes: bytes.collect(),
    }
}

/// Entries; entries by turns with torn ones; zeros; and the worst: every ten
/// bytes a start that is right up to the length, which is too great.
pub fn records() -> Vec<Record> {
    let entry = [b"S", &frame(4, 9, &receipt().payload)[..]].concat();
    let torn = [&entry[..], &entry[..20], &[0xA5; 64]].concat();
    let start = [b'C', 0xAF, 1, 1, 1, 0, 0xFF, 0xFF, 0xFF, 0xFF];
    vec![
        filled("record of receipts", &entry),
        filled("record of receipts, every other one torn", &torn),
        filled("record of zeros", &[0]),
        filled("record of starts that fail at the length", &start),
    ]
}
