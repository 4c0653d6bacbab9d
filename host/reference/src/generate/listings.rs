//! Listing cases: the worked example, one for each way a listing ends, those at
//! the limits, and random ones.

use super::frames::frame_bytes;
use super::rng::Rng;
use super::table::Table;
use super::value::varuint;
use super::Generator;
use crate::cases::{Case, ListingCase};
use crate::frame::{Header, Kind};
use crate::listing::MAX_FILE;
use crate::schema::NO_TYPE;

/// Table T of the worked example.
fn table_t() -> Table {
    Table {
        types: vec![[6, 0, 0], [12, 0, 0], [16, 0, 2], [14, 2, 0], [16, 2, 2]],
        fields: vec![[0, 0], [1, 1], [3, 0], [0, 1]],
        methods: vec![[1, 2, 3, 12, 2, 4, NO_TYPE, NO_TYPE]],
    }
}

/// A frame of the one method of T.
fn frame(kind: Kind, correlation: u64, payload: &[u8]) -> Vec<u8> {
    let header = Header {
        kind: kind as u32,
        identifiers: [1, 2, 3],
        correlation,
    };
    frame_bytes(&header, payload)
}

/// An entry from the side that its kind belongs to.
fn entry(kind: Kind, correlation: u64, payload: &[u8]) -> Vec<u8> {
    entry_from(kind.side(), kind, correlation, payload)
}

fn entry_from(side: u8, kind: Kind, correlation: u64, payload: &[u8]) -> Vec<u8> {
    [vec![side], frame(kind, correlation, payload)].concat()
}

const INPUT: &[u8] = &[1, 7];
const OUTPUT: &[u8] = &[1, 1, 1, 0];
const P5: &[u8] = &[1, 2, 5, 0, 5, 1, 7];

fn invoke(correlation: u64) -> Vec<u8> {
    entry(Kind::Invoke, correlation, INPUT)
}

fn worked() -> Vec<u8> {
    [
        invoke(9),
        entry(Kind::Response, 9, OUTPUT),
        entry(Kind::Response, 9, OUTPUT),
        invoke(10),
        entry(Kind::Response, 10, P5),
    ]
    .concat()
}

/// The worked example of the rules.
pub fn worked_example() -> ListingCase {
    ListingCase {
        schema: table_t().bytes(),
        record: worked(),
    }
}

/// A payload of type 4 with so many elements: two rows, and two for each.
fn elements(number: usize) -> Vec<u8> {
    let mut payload = vec![1];
    payload.extend(varuint(number as u64));
    payload.extend([1, 7].repeat(number));
    payload
}

/// Entries with a wrong magic, version, kind or flags, a malformed length, or
/// one above 16,384.
fn wrong_fields() -> Vec<Vec<u8>> {
    let mut fields = vec![
        (1, vec![0xAE]),
        (2, vec![2]),
        (3, vec![2]),
        (4, vec![9]),
        (5, vec![1]),
        (26, [vec![0x80; 9], vec![2]].concat()),
        (26, vec![0x81, 0x80, 0x01]),
    ];
    // The right length with spare groups, in two to ten bytes.
    for length in 2..=10 {
        let padded = [vec![0x82], vec![0x80; length - 2], vec![0]].concat();
        fields.push((26, padded));
    }
    let damaged = |(at, bytes): (usize, Vec<u8>)| {
        let mut entry = invoke(9);
        entry.splice(at..at + 1, bytes);
        entry
    };
    fields.into_iter().map(damaged).collect()
}

/// Calls that are cancelled while answers are on their way: the answers are
/// dropped, ERROR ends a call, and its identifier is used again.
fn crossing_answers() -> Vec<u8> {
    let mut elsewhere = entry(Kind::Error, 1, b"late");
    elsewhere[6] = 9;
    [
        invoke(1),
        entry(Kind::Cancel, 1, &[]),
        entry(Kind::Response, 1, OUTPUT),
        entry(Kind::Response, 1, P5),
        entry(Kind::OutStream, 1, OUTPUT),
        entry(Kind::OutClose, 1, &[]),
        entry(Kind::Cancel, 1, &[]),
        entry(Kind::Cancel, 1, &[7]),
        entry(Kind::InClose, 1, &[]),
        invoke(1),
        invoke(2),
        elsewhere,
        entry(Kind::Error, 1, b"late"),
        entry(Kind::Response, 1, OUTPUT),
        invoke(1),
        entry(Kind::Response, 1, OUTPUT),
        entry(Kind::Cancel, 2, &[7]),
        entry(Kind::Response, 2, OUTPUT),
    ]
    .concat()
}

/// Records by table T, in the order of 01's rules.
fn records() -> Vec<Vec<u8>> {
    let mut records = vec![Vec::new(), worked()];
    let whole = invoke(9);
    // A cut entry, at each byte.
    for length in 1..whole.len() {
        records.push([worked(), whole[..length].to_vec()].concat());
    }
    for damaged in wrong_fields() {
        records.push([invoke(3), damaged, invoke(4)].concat());
    }
    // A side byte that is neither C nor S: with a whole frame, a cut and a wrong one.
    for side in [0, b'c', b's', b'X', 255] {
        records.push(
            [
                invoke(1),
                entry_from(side, Kind::Invoke, 2, INPUT),
                invoke(3),
            ]
            .concat(),
        );
    }
    records.push([invoke(1), b"X".to_vec(), whole[1..9].to_vec()].concat());
    records.push([invoke(1), b"X".to_vec(), vec![0; 40]].concat());
    // The other side; a method that is not there; open already; not open; not allowed.
    let mut elsewhere = invoke(5);
    elsewhere[6] = 9;
    records.push(
        [
            entry_from(b'S', Kind::Invoke, 4, INPUT),
            elsewhere.clone(),
            invoke(5),
            invoke(5),
            entry(Kind::Cancel, 6, &[]),
            entry(Kind::InStream, 5, &[]),
            entry(Kind::Cancel, 5, &[0]),
            invoke(5),
            entry(Kind::Error, 5, b"busy"),
        ]
        .concat(),
    );
    // Identifiers that differ from the call's.
    elsewhere[4] = 8;
    records.push([invoke(5), elsewhere].concat());
    // 128 calls and one more, which finds no slot until one has ended: not at
    // its CANCEL, but at the ERROR after it.
    let calls: Vec<u8> = (0..129).flat_map(invoke).collect();
    let cancel = entry(Kind::Cancel, 77, &[]);
    let end = entry(Kind::Error, 77, &[]);
    let opened = [invoke(u64::MAX), invoke(0)].concat();
    records.push([calls, cancel, opened.clone(), end, opened].concat());
    records.push(crossing_answers());
    // 4,096 rows, and 4,098, for which the sheet has too few.
    let most = entry(Kind::Response, 1, &elements(2_047));
    let more = entry(Kind::Response, 2, &elements(2_048));
    records.push([invoke(1), most, invoke(2), more, invoke(3)].concat());
    // A payload of 16,384 bytes, and one of 16,385.
    let longest = [vec![1], varuint(8_190), [1, 7].repeat(8_190)].concat();
    records.push([invoke(1), entry(Kind::Response, 1, &longest)].concat());
    records.push(
        [
            invoke(1),
            entry(Kind::Error, 1, &vec![0; 16_384]),
            invoke(2),
        ]
        .concat(),
    );
    records.push(
        [
            invoke(1),
            entry(Kind::Error, 1, &vec![0; 16_385]),
            invoke(2),
        ]
        .concat(),
    );
    records
}

/// Calls of one method with maps of 64 pairs, of 65, and with a key repeated.
fn maps() -> ListingCase {
    let table = Table {
        types: vec![[6, 0, 0], [15, 0, 0], [16, 0, 1]],
        fields: vec![[1, 0]],
        methods: vec![[1, 2, 3, 15, 2, 2, 2, 2]],
    };
    let map = |pairs: u8| -> Vec<u8> {
        let content = (0..pairs).flat_map(|key| [key, 0]);
        [1, pairs].into_iter().chain(content).collect()
    };
    let mut repeated = map(64);
    repeated[2 + 2 * 63] = 0;
    let record = [
        entry(Kind::Invoke, 1, &map(65)),
        entry(Kind::InStream, 1, &map(64)),
        entry(Kind::Invoke, 1, &map(64)),
        entry(Kind::InStream, 1, &map(64)),
        entry(Kind::Response, 1, &map(65)),
        entry(Kind::InStream, 1, &map(64)),
        entry(Kind::Invoke, 2, &repeated),
        entry(Kind::Invoke, 2, &map(0)),
    ];
    ListingCase {
        schema: table.bytes(),
        record: record.concat(),
    }
}

/// Records at the limit of 65,536 bytes: as many entries as fit, with the
/// longest identifiers; the last one cut, or with a payload that makes the
/// record full; and one byte more.
fn long_records() -> Vec<Vec<u8>> {
    let empty = entry(Kind::Cancel, u64::MAX, &[]);
    let number = MAX_FILE / empty.len();
    let left = MAX_FILE - number * empty.len();
    let full = entry(Kind::Cancel, u64::MAX, &vec![0; left]);
    let cut = [empty.repeat(number), empty[..left].to_vec()].concat();
    let whole = [empty.repeat(number - 1), full].concat();
    let over = [whole.clone(), vec![b'C']].concat();
    vec![cut, whole, over]
}

/// A record of 65,536 bytes by table T: frames without a payload for calls from
/// all over, and a last one that fills it up.
pub fn longest_invokes(rng: &mut Rng) -> Vec<u8> {
    let mut record = Vec::new();
    let length = entry(Kind::Cancel, 0, &[]).len();
    while record.len() + 2 * length <= MAX_FILE {
        let correlation = rng.bits() >> rng.pick(&[0, 0, 48, 62]);
        let kind = rng.pick(&[Kind::Invoke, Kind::Response, Kind::Cancel]);
        record.extend(entry(kind, correlation, &[]));
    }
    let left = MAX_FILE - record.len() - length;
    record.extend(entry(Kind::Error, rng.bits(), &vec![0; left]));
    record
}

/// Schema files with a fault of each sort, and those at the limit.
fn schemas() -> Vec<Vec<u8>> {
    let good = table_t();
    let mut schemas = vec![Vec::new(), vec![0; 15], Table::default().bytes()];
    let mut many = good.clone();
    many.types = vec![[1, 0, 0]; 257];
    schemas.push(many.bytes());
    let mut faulty = good.clone();
    faulty.types[1] = [17, 0, 0];
    schemas.push(faulty.bytes());
    let mut faulty = good.clone();
    faulty.fields[2] = [5, 0];
    schemas.push(faulty.bytes());
    let mut faulty = good;
    faulty.methods.push(faulty.methods[0]);
    schemas.push(faulty.bytes());
    schemas.push(vec![1; MAX_FILE]);
    schemas.push(vec![1; MAX_FILE + 1]);
    schemas
}

/// All cases by hand, and so many random ones from a seed.
pub fn cases(seed: u64, number: usize) -> Vec<ListingCase> {
    let schema = table_t().bytes();
    let by_t = |record| ListingCase {
        schema: schema.clone(),
        record,
    };
    let mut cases: Vec<ListingCase> = records().into_iter().map(by_t).collect();
    cases.extend(long_records().into_iter().map(by_t));
    cases.push(maps());
    for schema in schemas() {
        for record in [Vec::new(), worked()] {
            let schema = schema.clone();
            cases.push(ListingCase { schema, record });
        }
    }
    cases.push(ListingCase {
        schema: vec![1; MAX_FILE + 1],
        record: vec![b'C'; MAX_FILE + 1],
    });
    let mut generator = Generator::new(seed, &[8]);
    let mut rng = Rng::new(seed);
    for _ in 0..number {
        if let Some(Case::Run(run)) = generator.case() {
            cases.push(random(&mut rng, run.schema, &run.frames));
        }
    }
    cases
}

/// A run of frames as a record; sometimes cut, or with a byte changed.
pub fn random(rng: &mut Rng, schema: Vec<u8>, frames: &[(u8, Vec<u8>)]) -> ListingCase {
    let mut record = Vec::new();
    for (side, bytes) in frames {
        record.push(*side);
        record.extend(bytes);
    }
    match rng.below(12) {
        0 => record.truncate(rng.below(record.len() + 1)),
        1 if !record.is_empty() => {
            let at = rng.below(record.len());
            record[at] ^= 1 << rng.below(8);
        }
        _ => {}
    }
    ListingCase { schema, record }
}
