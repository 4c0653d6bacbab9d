//! Cases for the forwarding write: sheets, and tails that are right or wrong.

use super::damage::Damage;
use super::payload::sample;
use super::relay::relay;
use super::rng::Rng;
use super::sheet::{inner_bit, sized, write_holding};
use super::sorts::writer_sheet;
use super::table::STRUCT;
use crate::bitmap;
use crate::cases::{Case, ForwardCase, WriteCase};
use crate::schema::{Schema, Type};
use crate::{forward, read, Tail, MAX_PAYLOAD};

/// Makes a tail for a root with so many unknown bits, maybe with bytes of its
/// own; none where these bits do not suit.
pub type TailMaker = fn(&mut Rng, &mut Vec<u8>, usize) -> Option<Tail>;

fn tail(place: usize, length: usize) -> Tail {
    Tail {
        place: place as u32,
        length: length as u32,
    }
}

/// A span of so many bytes: new ones at the end, or any that are there.
fn any_span(rng: &mut Rng, data: &mut Vec<u8>, length: usize) -> Tail {
    if length > data.len() || rng.one_in(2) {
        let place = data.len();
        data.extend(rng.bytes(length));
        return tail(place, length);
    }
    tail(rng.below(data.len() - length + 1), length)
}

/// A tail as the bits ask for it; without any an empty one, mostly at the end.
pub fn right(rng: &mut Rng, data: &mut Vec<u8>, unknown: usize) -> Option<Tail> {
    if unknown > 0 {
        let length = unknown + rng.pick(&[0, 0, 0, 1, 4]);
        return Some(any_span(rng, data, length));
    }
    let place = rng.below(data.len() + 1);
    Some(tail(rng.pick(&[data.len(), data.len(), place]), 0))
}

/// A tail longer than the bits ask for, up to all bytes.
pub fn longer(rng: &mut Rng, data: &mut Vec<u8>, unknown: usize) -> Option<Tail> {
    if unknown == 0 {
        return None;
    }
    let more = unknown + rng.range(1, 40);
    Some(match rng.one_in(3) {
        true if data.len() >= unknown => tail(0, data.len()),
        _ => any_span(rng, data, more),
    })
}

/// A tail of thousands of bytes, up to more than a payload may have (7).
pub fn long(rng: &mut Rng, data: &mut Vec<u8>, unknown: usize) -> Option<Tail> {
    if unknown == 0 {
        return None;
    }
    let length = rng.range(1_000, MAX_PAYLOAD) + rng.pick(&[0, 0, 0, 500]);
    Some(any_span(rng, data, length))
}

/// A tail shorter than the unknown bits, by one or by all (50).
pub fn short(rng: &mut Rng, data: &mut Vec<u8>, unknown: usize) -> Option<Tail> {
    let length = rng.below(unknown);
    let length = rng.pick(&[unknown.checked_sub(1)?, length, 0]);
    Some(any_span(rng, data, length))
}

/// A tail where the root has no unknown bit (50).
pub fn without_bits(rng: &mut Rng, data: &mut Vec<u8>, unknown: usize) -> Option<Tail> {
    if unknown > 0 {
        return None;
    }
    let length = rng.pick(&[1, 1, 2, 9]);
    Some(any_span(rng, data, length))
}

/// A tail that ends beyond the bytes, by one, by far, or past 32 bits, whether
/// it suits the bits or not (51).
#[allow(clippy::ptr_arg)] // a `TailMaker` like the others
pub fn outside(rng: &mut Rng, data: &mut Vec<u8>, unknown: usize) -> Option<Tail> {
    let end = data.len();
    let place = rng.below(end + 1);
    let far = u32::MAX as usize;
    Some(match rng.below(8) {
        0 | 1 => tail(place, end - place + 1),
        2 => tail(end + 1 - unknown.min(end), unknown.max(1)),
        3 => tail(place, far - rng.below(3)),
        4 => tail(far - rng.below(3), unknown),
        // The sum is small again in 32 bits.
        5 => tail(far, place + 1),
        6 => tail(place + 1, far - rng.below(place + 1)),
        _ => tail(1 << 31, 1 << 31),
    })
}

/// An empty tail beyond the bytes (51).
#[allow(clippy::ptr_arg)] // a `TailMaker` like the others
pub fn empty_beyond(rng: &mut Rng, data: &mut Vec<u8>, _: usize) -> Option<Tail> {
    let end = data.len();
    Some(tail(
        rng.pick(&[end + 1, end + 1, end + 9, u32::MAX as usize]),
        0,
    ))
}

/// A tail of any of these sorts.
pub fn any_tail(rng: &mut Rng, data: &mut Vec<u8>, unknown: usize) -> Option<Tail> {
    const ALL: &[TailMaker] = &[
        right,
        right,
        longer,
        short,
        without_bits,
        outside,
        empty_beyond,
    ];
    rng.pick(ALL)(rng, data, unknown)
}

/// The place of the root's presence bytes in a sheet's bytes, and the number of
/// fields, where there are such bytes.
fn root_bitmap(case: &WriteCase) -> Option<(usize, u32)> {
    let schema = Schema::check(&case.schema).ok()?;
    let Type::Struct { count, .. } = schema.find_type(case.type_number)? else {
        return None;
    };
    let place = *case.sheet.get(1)? as usize;
    case.data.get(place..)?.get(..bitmap::width(count))?;
    Some((place, count))
}

/// Sets some of the root's unknown bits, where it has any to set.
fn set_unknown_bits(rng: &mut Rng, case: &mut WriteCase) {
    if let Some((place, count)) = root_bitmap(case) {
        let last = place + bitmap::width(count) - 1;
        let unknown = !(bitmap::known((count - 1) % 8 + 1) as u8);
        let some = rng.byte();
        case.data[last] |= unknown & rng.pick(&[some, 0xFF]);
    }
}

fn unknown_bits(case: &WriteCase) -> usize {
    root_bitmap(case).map_or(0, |(place, count)| {
        let bits = bitmap::load(&case.data[place..][..bitmap::width(count)]);
        (bits & !bitmap::known(count)).count_ones() as usize
    })
}

fn passed_on(sheet: WriteCase, tail: Tail, room: usize) -> ForwardCase {
    ForwardCase {
        schema: sheet.schema,
        type_number: sheet.type_number,
        sheet: sheet.sheet,
        data: sheet.data,
        tail,
        room,
    }
}

/// The length of the output, if the sheet and its tail are right.
fn length(case: &ForwardCase) -> Option<usize> {
    let mut out = vec![0; MAX_PAYLOAD];
    let (schema, sheet, data) = (&case.schema, &case.sheet, &case.data);
    forward(schema, case.type_number, sheet, data, case.tail, &mut out).ok()
}

/// The case with room enough in most.
fn with_room(rng: &mut Rng, mut case: ForwardCase) -> Case {
    let length = length(&case).unwrap_or(20);
    case.room = match rng.below(8) {
        0..=3 => length,
        4..=6 => length + rng.range(1, 20),
        _ => length.saturating_sub(rng.below(3)),
    };
    Case::Forward(case)
}

/// A sheet of the value writer, in many with unknown bits, and a tail.
pub fn sheet(rng: &mut Rng, number: Option<u32>, make: TailMaker) -> Case {
    loop {
        let sheet = writer_sheet(rng, number);
        if let Some(case) = of_sheet(rng, sheet, make) {
            return case;
        }
    }
}

/// A sheet, in many with unknown bits, and a tail, where one suits.
pub fn of_sheet(rng: &mut Rng, mut sheet: WriteCase, make: TailMaker) -> Option<Case> {
    if rng.below(3) > 0 {
        set_unknown_bits(rng, &mut sheet);
    }
    let unknown = unknown_bits(&sheet);
    let tail = make(rng, &mut sheet.data, unknown)?;
    let case = passed_on(sheet, tail, 0);
    Some(with_room(rng, case))
}

/// What reading a payload gives, if it is accepted.
fn reading_of(schema: Vec<u8>, root: u32, payload: Vec<u8>) -> Option<ForwardCase> {
    let mut cells = vec![0; 4 * (payload.len() + 1)];
    let reading = read(&schema, root, &payload, &mut cells).ok()?;
    cells.truncate(4 * reading.rows);
    Some(ForwardCase {
        schema,
        type_number: root,
        sheet: cells,
        data: payload,
        tail: tail(reading.tail_place, reading.tail_length),
        room: 0,
    })
}

/// The sheet and the tail that reading a payload gives.
pub fn as_read(rng: &mut Rng, damage: Damage) -> Case {
    loop {
        let sample = sample(rng);
        let payload = damage(rng, &sample.table, &sample.payload);
        let reading =
            payload.and_then(|payload| reading_of(sample.table.bytes(), sample.root, payload));
        if let Some(case) = reading {
            return with_room(rng, case);
        }
    }
}

/// What an old table reads of a new writer's payload.
pub fn relayed(rng: &mut Rng) -> Case {
    loop {
        let relay = relay(rng);
        if let Some(case) = reading_of(relay.old, relay.root, relay.payload) {
            return with_room(rng, case);
        }
    }
}

/// Unknown bits in an inner struct (50), with or without some in the root.
pub fn inner_bits(rng: &mut Rng) -> Case {
    loop {
        let Case::Write(mut sheet) = write_holding(rng, STRUCT, inner_bit) else {
            continue;
        };
        if rng.one_in(2) {
            set_unknown_bits(rng, &mut sheet);
        }
        let unknown = unknown_bits(&sheet);
        if let Some(tail) = right(rng, &mut sheet.data, unknown) {
            let case = passed_on(sheet, tail, 0);
            return with_room(rng, case);
        }
    }
}

/// An output that is too small, by one byte, by the tail or by all (52).
pub fn small_output(rng: &mut Rng) -> Case {
    loop {
        let Case::Forward(mut case) = sheet(rng, Some(0), right) else {
            continue;
        };
        if let Some(length) = length(&case) {
            let missing = rng.range(1, length);
            let tail = (case.tail.length as usize).max(1);
            case.room = length - rng.pick(&[1, 1, tail, missing, length]);
            return Case::Forward(case);
        }
    }
}

/// A sheet whose value and tail have so many bytes together.
fn sized_with_tail(rng: &mut Rng, size: usize) -> ForwardCase {
    let bits = rng.range(1, 7);
    let length = bits + rng.pick(&[0, 0, 1, 100, 600]);
    let mut sheet = sized(rng, size - length);
    sheet.data[0] |= ((1 << bits) - 1) << 1;
    let place = rng.below(sheet.data.len() - length + 1);
    passed_on(sheet, tail(place, length), 0)
}

/// Value and tail of 16,384 bytes or nearly, with room to the byte (0, 52).
pub fn at_the_limit(rng: &mut Rng) -> Case {
    let size = MAX_PAYLOAD - rng.pick(&[0, 0, 1]);
    let mut case = sized_with_tail(rng, size);
    case.room = size - rng.pick(&[0, 0, 1]);
    Case::Forward(case)
}

/// Value and tail above 16,384 bytes (7), the value alone below or above, and
/// in some the tail at fault too (50, 51).
pub fn too_long(rng: &mut Rng) -> Case {
    let size = MAX_PAYLOAD + rng.pick(&[1, 1, 2, 5_000]);
    let mut case = sized_with_tail(rng, size);
    case.room = rng.pick(&[0, 16_384, 16_385, 40_000]);
    match rng.below(6) {
        0 => case.tail.length = 0,
        1 => case.tail.place = case.data.len() as u32,
        _ => {}
    }
    Case::Forward(case)
}
