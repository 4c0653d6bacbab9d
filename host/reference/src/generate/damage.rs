//! Ways to make a payload wrong, one for each refusal of the reader.

use super::maps::excessive;
use super::rng::Rng;
use super::table::Table;
use super::value::{overlong, padded, random_text, unfinished, varuint, Mark, Payload, Spot};
use crate::varuint::{decode, Decoded};

/// A change to a payload that makes it wrong in one way; none where the
/// payload has no spot for it.
pub type Damage = fn(&mut Rng, &Table, &Payload) -> Option<Vec<u8>>;

fn choose(rng: &mut Rng, payload: &Payload, holds: impl Fn(&Mark) -> bool) -> Option<Mark> {
    let marks: Vec<Mark> = payload
        .marks
        .iter()
        .copied()
        .filter(|mark| holds(mark))
        .collect();
    (!marks.is_empty()).then(|| rng.pick(&marks))
}

/// The payload with a span of it replaced.
fn replaced(payload: &Payload, place: usize, end: usize, new: &[u8]) -> Vec<u8> {
    [&payload.bytes[..place], new, &payload.bytes[end..]].concat()
}

/// Cut anywhere (20).
pub fn cut(rng: &mut Rng, _: &Table, payload: &Payload) -> Option<Vec<u8>> {
    let length = rng.below(payload.bytes.len());
    Some(payload.bytes[..length].to_vec())
}

/// A length or count.
fn choose_size(rng: &mut Rng, payload: &Payload) -> Option<Mark> {
    let is_size = |mark: &Mark| matches!(mark.spot, Spot::Length | Spot::Count | Spot::MapCount);
    choose(rng, payload, is_size)
}

/// A size above what remains after its mark, by one or by far.
fn oversize(rng: &mut Rng, payload: &Payload, mark: &Mark) -> u64 {
    let remaining = (payload.bytes.len() - mark.end) as u64;
    let limit = match mark.spot {
        Spot::MapCount => remaining / 2,
        _ => remaining,
    };
    match rng.below(6) {
        0 => 1 << 63,
        1 => u64::MAX - rng.below(3) as u64,
        2 => (1 << 32) + rng.below(3) as u64,
        3 => (1 << 63) + rng.below(3) as u64,
        _ => limit + 1,
    }
}

/// A length or count above what remains, by one or by far (20).
pub fn oversized(rng: &mut Rng, _: &Table, payload: &Payload) -> Option<Vec<u8>> {
    let mark = choose_size(rng, payload)?;
    let size = oversize(rng, payload, &mark);
    Some(replaced(payload, mark.place, mark.end, &varuint(size)))
}

/// The payload's end within a length or count, after one to nine bytes (20).
pub fn cut_size(rng: &mut Rng, _: &Table, payload: &Payload) -> Option<Vec<u8>> {
    let mark = choose_size(rng, payload)?;
    Some([&payload.bytes[..mark.place], &unfinished(rng)].concat())
}

/// A VarUInt of ten bytes or more that is no number of 64 bits (21).
pub fn malformed(rng: &mut Rng, _: &Table, payload: &Payload) -> Option<Vec<u8>> {
    let mark = choose_size(rng, payload)?;
    let mut bytes = overlong(rng);
    if rng.one_in(3) {
        bytes.push(0);
    }
    Some(replaced(payload, mark.place, mark.end, &bytes))
}

/// A length or count with spare zero groups, right otherwise or above what
/// remains (21).
pub fn padded_size(rng: &mut Rng, _: &Table, payload: &Payload) -> Option<Vec<u8>> {
    let mark = choose_size(rng, payload)?;
    let size = match decode(&payload.bytes[mark.place..mark.end]) {
        Decoded::Whole { value, .. } if !rng.one_in(4) => value,
        _ => oversize(rng, payload, &mark),
    };
    let bytes = padded(rng, size)?;
    let end = match rng.one_in(8) {
        true => payload.bytes.len(),
        false => mark.end,
    };
    Some(replaced(payload, mark.place, end, &bytes))
}

/// A bool of 2 or more (22).
pub fn not_bool(rng: &mut Rng, _: &Table, payload: &Payload) -> Option<Vec<u8>> {
    let mark = choose(rng, payload, |mark| mark.spot == Spot::Bool)?;
    let byte = rng.pick(&[2, 3, 0x80, 0x81, 0xFF]);
    Some(replaced(payload, mark.place, mark.end, &[byte]))
}

/// Byte strings that are not UTF-8, each for its own reason.
const NOT_UTF8: &[&[u8]] = &[
    &[0x80],
    &[0xBF],
    &[0xC0, 0x80],
    &[0xC1, 0xBF],
    &[0xC2],
    &[0xC2, 0x41],
    &[0xDF, 0xC0],
    &[0xE0, 0x9F, 0xBF],
    &[0xE0, 0x80, 0x80],
    &[0xE2, 0x82],
    &[0xE2, 0x28, 0xA1],
    &[0xED, 0xA0, 0x80],
    &[0xED, 0xBF, 0xBF],
    &[0xEF, 0xBF],
    &[0xF0, 0x8F, 0xBF, 0xBF],
    &[0xF0, 0x80, 0x80, 0x80],
    &[0xF0, 0x9F, 0x98],
    &[0xF0, 0x9F, 0x98, 0x41],
    &[0xF4, 0x90, 0x80, 0x80],
    &[0xF5, 0x80, 0x80, 0x80],
    &[0xF8, 0x88, 0x80, 0x80, 0x80],
    &[0xFE],
    &[0xFF],
];

/// A text with a fault somewhere in it.
pub fn bad_text(rng: &mut Rng) -> Vec<u8> {
    let before = rng.below(4) * rng.below(12);
    let after = rng.below(4);
    let mut text = random_text(rng, before);
    text.extend(rng.pick(NOT_UTF8));
    text.extend(random_text(rng, after));
    text
}

/// A string that is not UTF-8 (23).
pub fn not_utf8(rng: &mut Rng, _: &Table, payload: &Payload) -> Option<Vec<u8>> {
    let mark = choose(rng, payload, |mark| mark.spot == Spot::String)?;
    let text = bad_text(rng);
    let mut new = varuint(text.len() as u64);
    new.extend(text);
    Some(replaced(payload, mark.place, mark.end, &new))
}

/// Two keys of one map, the earlier first.
fn choose_keys(rng: &mut Rng, payload: &Payload) -> Option<(Mark, Mark)> {
    let later = choose(rng, payload, |mark| matches!(mark.spot, Spot::Key { .. }))?;
    let earlier = choose(rng, payload, |mark| {
        mark.spot == later.spot && mark.place < later.place
    })?;
    Some((earlier, later))
}

/// A later key that is an earlier one again (24).
pub fn repeated_key(rng: &mut Rng, _: &Table, payload: &Payload) -> Option<Vec<u8>> {
    let (earlier, later) = choose_keys(rng, payload)?;
    let key = &payload.bytes[earlier.place..earlier.end];
    Some(replaced(payload, later.place, later.end, key))
}

/// A later key with the content of an earlier one and spare zero groups in its
/// length (21).
pub fn padded_key(rng: &mut Rng, _: &Table, payload: &Payload) -> Option<Vec<u8>> {
    let (earlier, later) = choose_keys(rng, payload)?;
    if earlier.content == earlier.place {
        return None;
    }
    let content = &payload.bytes[earlier.content..earlier.end];
    let mut new = padded(rng, content.len() as u64)?;
    new.extend(content);
    Some(replaced(payload, later.place, later.end, &new))
}

/// One of the last keys of a map of many pairs that is an earlier one again
/// (24).
pub fn repeated_late_key(rng: &mut Rng, _: &Table, payload: &Payload) -> Option<Vec<u8>> {
    let any = choose(rng, payload, |mark| matches!(mark.spot, Spot::Key { .. }))?;
    let marks = payload.marks.iter();
    let keys: Vec<&Mark> = marks.filter(|mark| mark.spot == any.spot).collect();
    if keys.len() < 32 {
        return None;
    }
    let late = keys.len() - 1 - rng.below(3);
    let earlier = match rng.below(3) {
        0 => 0,
        1 => late - 1,
        _ => rng.below(late),
    };
    let key = &payload.bytes[keys[earlier].place..keys[earlier].end];
    Some(replaced(payload, keys[late].place, keys[late].end, key))
}

/// The payload with another count of a map, and so many bytes after it.
fn recounted(rng: &mut Rng, payload: &Payload, count: &[u8], after: usize) -> Option<Vec<u8>> {
    let mark = choose(rng, payload, |mark| mark.spot == Spot::MapCount)?;
    let mut bytes = [&payload.bytes[..mark.place], count].concat();
    let rest = &payload.bytes[mark.end..];
    bytes.extend(&rest[..after.min(rest.len())]);
    let missing = after.saturating_sub(rest.len());
    bytes.extend(rng.bytes(missing));
    Some(bytes)
}

/// A map's count above 64, with bytes enough for as many pairs (31).
pub fn many_pairs(rng: &mut Rng, _: &Table, payload: &Payload) -> Option<Vec<u8>> {
    let count = excessive(rng);
    let after = 2 * count + rng.pick(&[0, 0, 1, 9]);
    recounted(rng, payload, &varuint(count as u64), after)
}

/// A map's count above 64, with bytes for fewer pairs (20).
pub fn many_pairs_cut(rng: &mut Rng, _: &Table, payload: &Payload) -> Option<Vec<u8>> {
    let count = excessive(rng);
    let after = 2 * count - rng.pick(&[1, 1, 2, 9, count]);
    recounted(rng, payload, &varuint(count as u64), after)
}

/// A map's count above 64 with spare zero groups (21).
pub fn padded_pairs(rng: &mut Rng, _: &Table, payload: &Payload) -> Option<Vec<u8>> {
    let count = excessive(rng);
    let bytes = padded(rng, count as u64)?;
    let after = 2 * count - rng.pick(&[0, 0, 1, count]);
    recounted(rng, payload, &bytes, after)
}

/// A required field's bit cleared, maybe with an unknown bit set (25).
pub fn absent(rng: &mut Rng, table: &Table, payload: &Payload) -> Option<Vec<u8>> {
    let mark = choose(rng, payload, |mark| {
        matches!(mark.spot, Spot::Bitmap { .. })
    })?;
    let Spot::Bitmap { number, .. } = mark.spot else {
        return None;
    };
    let fields = table.struct_fields(number);
    let required: Vec<usize> = (0..fields.len())
        .filter(|&bit| fields[bit][1] == 0)
        .collect();
    if required.is_empty() {
        return None;
    }
    let bit = rng.pick(&required);
    let mut bytes = payload.bytes.clone();
    bytes[mark.place + bit / 8] &= !(1 << (bit % 8));
    if rng.one_in(4) {
        bytes[mark.end - 1] |= 0x80;
    }
    if rng.one_in(8) {
        bytes.truncate(mark.end);
    }
    Some(bytes)
}

/// The payload with unknown bits set in one struct; gives how many.
fn with_unknown_bits(
    rng: &mut Rng,
    table: &Table,
    payload: &Payload,
    in_root: bool,
) -> Option<(Vec<u8>, usize)> {
    let suits = |mark: &Mark| match mark.spot {
        Spot::Bitmap { number, inner } => {
            inner != in_root && !table.struct_fields(number).len().is_multiple_of(8)
        }
        _ => false,
    };
    let mark = choose(rng, payload, suits)?;
    let Spot::Bitmap { number, .. } = mark.spot else {
        return None;
    };
    let first = table.struct_fields(number).len() % 8;
    let mut bytes = payload.bytes.clone();
    let mut set = 0;
    while set == 0 {
        for bit in first..8 {
            if rng.one_in(3) && bytes[mark.end - 1] >> bit & 1 == 0 {
                bytes[mark.end - 1] |= 1 << bit;
                set += 1;
            }
        }
    }
    Some((bytes, set))
}

/// An unknown bit in an inner struct (26).
pub fn inner_bit(rng: &mut Rng, table: &Table, payload: &Payload) -> Option<Vec<u8>> {
    with_unknown_bits(rng, table, payload, false).map(|(bytes, _)| bytes)
}

/// Unknown bits in the root and a tail that is long enough.
pub fn tail(rng: &mut Rng, table: &Table, payload: &Payload) -> Option<Vec<u8>> {
    let (mut bytes, set) = with_unknown_bits(rng, table, payload, true)?;
    let length = set + rng.pick(&[0, 0, 1, 5, 20]);
    bytes.extend(rng.bytes(length));
    Some(bytes)
}

/// Unknown bits in the root and a tail that is too short (20).
pub fn short_tail(rng: &mut Rng, table: &Table, payload: &Payload) -> Option<Vec<u8>> {
    let (mut bytes, set) = with_unknown_bits(rng, table, payload, true)?;
    let length = rng.below(set);
    bytes.extend(rng.bytes(length));
    Some(bytes)
}

/// Bytes after the value (27).
pub fn surplus(rng: &mut Rng, _: &Table, payload: &Payload) -> Option<Vec<u8>> {
    let length = rng.pick(&[1, 1, 2, 9]);
    Some([&payload.bytes[..], &rng.bytes(length)].concat())
}

/// A few bytes changed, inserted or taken out anywhere.
pub fn noise(rng: &mut Rng, _: &Table, payload: &Payload) -> Option<Vec<u8>> {
    let mut bytes = payload.bytes.clone();
    for _ in 0..rng.range(1, 3) {
        let at = rng.below(bytes.len());
        let byte = rng.byte();
        match rng.below(4) {
            0 => bytes.insert(at, byte),
            1 if bytes.len() > 1 => drop(bytes.remove(at)),
            2 => bytes[at] ^= 1 << rng.below(8),
            _ => bytes[at] = byte,
        }
    }
    Some(bytes)
}

/// Two faults at once, so that the order of refusals shows.
pub fn twice(rng: &mut Rng, table: &Table, payload: &Payload) -> Option<Vec<u8>> {
    const FIRST: &[Damage] = &[
        oversized,
        malformed,
        padded_size,
        many_pairs,
        not_bool,
        not_utf8,
        repeated_key,
        absent,
        inner_bit,
        tail,
        short_tail,
    ];
    const SECOND: &[Damage] = &[cut, surplus, noise, noise];
    let bytes = rng.pick(FIRST)(rng, table, payload)?;
    rng.pick(SECOND)(rng, table, &Payload::unmarked(bytes))
}

/// The payload as it is.
pub fn whole(_: &mut Rng, _: &Table, payload: &Payload) -> Option<Vec<u8>> {
    Some(payload.bytes.clone())
}
