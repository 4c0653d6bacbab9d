//! Cases for the salvage of records: whole ones, torn ones, and bytes that look
//! like the start of an entry.

use super::frames::{frame_bytes, random_frame, spoil};
use super::rng::Rng;
use super::value::{unfinished, varuint};
use crate::cases::{Case, SalvageCase};
use crate::frame::{Header, HEADER};
use crate::listing::MAX_FILE;
use crate::salvage::{salvage, Salvaged, SPAN_CELLS};

/// Makes a record.
pub type Record = fn(&mut Rng) -> Vec<u8>;

/// The bytes that an entry starts with, and some that it may hold.
const LETTERS: [u8; 8] = [b'C', b'S', b'C', b'S', 0xAF, 0x01, 0x01, 0x00];

fn side(rng: &mut Rng) -> u8 {
    rng.pick(b"CS")
}

/// A side byte and a whole frame; the side need not suit the kind.
fn entry(rng: &mut Rng) -> Vec<u8> {
    let mut bytes = vec![side(rng)];
    bytes.extend(random_frame(rng));
    bytes
}

fn entries(rng: &mut Rng, least: usize, most: usize) -> Vec<Vec<u8>> {
    (0..rng.range(least, most)).map(|_| entry(rng)).collect()
}

fn letters(rng: &mut Rng, length: usize) -> Vec<u8> {
    (0..length).map(|_| rng.pick(&LETTERS)).collect()
}

/// Bytes of a hole: zeros, one byte again and again, letters or any bytes.
fn blot(rng: &mut Rng, length: usize) -> Vec<u8> {
    match rng.below(4) {
        0 => vec![0; length],
        1 => vec![rng.pick(&LETTERS); length],
        2 => letters(rng, length),
        _ => rng.bytes(length),
    }
}

/// An entry whose payload holds the given bytes.
fn around(rng: &mut Rng, payload: &[u8]) -> Vec<u8> {
    let header = Header {
        kind: rng.range(1, 8) as u32,
        identifiers: [rng.word() >> 28, 2, 3],
        correlation: rng.bits() >> 60,
    };
    [vec![side(rng)], frame_bytes(&header, payload)].concat()
}

/// A record without holes; sometimes the empty one.
pub fn whole(rng: &mut Rng) -> Vec<u8> {
    entries(rng, 0, 6).concat()
}

/// A record that lacks some bytes, once or twice.
pub fn torn(rng: &mut Rng) -> Vec<u8> {
    let mut record = entries(rng, 1, 6).concat();
    for _ in 0..rng.range(1, 2) {
        let from = rng.below(record.len() + 1);
        let length = rng.pick(&[1, 2, 5, 27, 60]).min(record.len() - from);
        record.drain(from..from + length);
    }
    record
}

/// A record in which some bytes are written over, once or twice.
pub fn blotted(rng: &mut Rng) -> Vec<u8> {
    let mut record = entries(rng, 1, 6).concat();
    for _ in 0..rng.range(1, 2) {
        let from = rng.below(record.len());
        let length = rng.pick(&[1, 1, 2, 4, 30, 70]).min(record.len() - from);
        let bytes = blot(rng, length);
        record[from..from + length].copy_from_slice(&bytes);
    }
    record
}

/// A record with bytes put between its entries or inside them.
pub fn inserted(rng: &mut Rng) -> Vec<u8> {
    let mut record = entries(rng, 0, 5).concat();
    for _ in 0..rng.range(1, 3) {
        let at = rng.below(record.len() + 1);
        let length = rng.pick(&[1, 1, 2, 3, 26, 40]);
        let bytes = blot(rng, length);
        record.splice(at..at, bytes);
    }
    record
}

/// Entries with one to three bytes before, between and after them.
pub fn crumbs(rng: &mut Rng) -> Vec<u8> {
    let mut record = Vec::new();
    for entry in entries(rng, 1, 6) {
        let length = rng.below(4);
        record.extend(letters(rng, length));
        record.extend(entry);
    }
    let length = rng.below(4);
    record.extend(letters(rng, length));
    record
}

/// A record that ends within its last entry, at any of its bytes.
pub fn cut(rng: &mut Rng) -> Vec<u8> {
    let mut record = entries(rng, 0, 3).concat();
    let mut last = entry(rng);
    last.truncate(rng.below(last.len()));
    record.extend(last);
    record
}

/// A record that ends within the length of its last frame.
pub fn cut_length(rng: &mut Rng) -> Vec<u8> {
    let mut record = entries(rng, 0, 3).concat();
    let last = entry(rng);
    record.extend(&last[..1 + HEADER]);
    record.extend(unfinished(rng));
    record
}

/// A whole frame whose payload holds whole entries and more.
pub fn nested(rng: &mut Rng) -> Vec<u8> {
    let inner = crumbs(rng);
    let outer = around(rng, &inner);
    let mut record = entries(rng, 0, 2).concat();
    record.extend(outer);
    record.extend(entries(rng, 0, 2).concat());
    record
}

/// The same with a header that is at fault, so that what is inside shows.
pub fn nested_spoilt(rng: &mut Rng) -> Vec<u8> {
    let inner = crumbs(rng);
    let mut outer = around(rng, &inner);
    if rng.one_in(4) {
        outer[0] = rng.pick(&[0, b'c', b'X', 0xAF]);
    } else {
        let mut frame = outer.split_off(1);
        let number = rng.range(2, 7) as u32;
        spoil(rng, &mut frame, number);
        outer.extend(frame);
    }
    let before = entries(rng, 0, 2).concat();
    let after = entries(rng, 0, 2).concat();
    [before, outer, after].concat()
}

/// A frame cut at the record's end, with whole entries in its payload.
pub fn nested_cut(rng: &mut Rng) -> Vec<u8> {
    let inner = crumbs(rng);
    let before = entries(rng, 0, 2).concat();
    let mut outer = around(rng, &inner);
    let missing = rng.pick(&[1, 1, 2, 5, 30]).min(outer.len());
    outer.truncate(outer.len() - missing);
    [before, outer].concat()
}

/// A header that claims as its payload some of the entries that follow, up to
/// a place between two of them or within one, or more than there is.
pub fn swallowing(rng: &mut Rng) -> Vec<u8> {
    let mut outer = around(rng, &[]);
    let after = entries(rng, 1, 4).concat();
    let length = match rng.one_in(4) {
        true => after.len() + rng.range(1, 300),
        false => rng.below(after.len() + 1),
    };
    outer.truncate(1 + HEADER);
    outer.extend(varuint(length as u64));
    let before = entries(rng, 0, 2).concat();
    [before, outer, after].concat()
}

/// A record in which one frame has a wrong field (2 to 7).
pub fn spoilt(rng: &mut Rng) -> Vec<u8> {
    let mut all = entries(rng, 1, 5);
    let number = rng.range(2, 7) as u32;
    let index = rng.below(all.len());
    let mut frame = all[index].split_off(1);
    spoil(rng, &mut frame, number);
    all[index].extend(frame);
    all.concat()
}

/// A record in which a side byte is missing, doubled or neither C nor S.
pub fn wrong_side(rng: &mut Rng) -> Vec<u8> {
    let mut all = entries(rng, 1, 5);
    let index = rng.below(all.len());
    match rng.below(3) {
        0 => drop(all[index].remove(0)),
        1 => all[index].insert(0, side(rng)),
        _ => all[index][0] = rng.pick(&[0, b'c', b's', b'B', b'D', 0xAF, 255]),
    }
    all.concat()
}

/// Letters alone, or around an entry.
pub fn letters_alone(rng: &mut Rng) -> Vec<u8> {
    let length = rng.below(80);
    let mut record = letters(rng, length);
    if rng.one_in(2) {
        let at = rng.below(record.len() + 1);
        let entry = entry(rng);
        record.splice(at..at, entry);
    }
    record
}

/// Any bytes, with or without the start of an entry.
pub fn noise(rng: &mut Rng) -> Vec<u8> {
    let length = rng.below(120);
    let mut record = rng.bytes(length);
    let at = rng.below(length + 1);
    let start = [b'C', 0xAF, 1, 1, rng.range(1, 8) as u8, 0];
    if rng.one_in(2) {
        for (byte, known) in record[at..].iter_mut().zip(start) {
            *byte = known;
        }
        // A length that is within reach.
        if let Some(byte) = record.get_mut(at + 1 + HEADER) {
            *byte &= 0x1F;
        }
    }
    record
}

/// A record of 65,536 bytes: as many entries as fit, with a byte between them
/// or without; frames of 16,384 bytes; letters alone.
pub fn longest(rng: &mut Rng) -> Vec<u8> {
    let mut record = Vec::new();
    let sort = rng.below(4);
    while record.len() < MAX_FILE {
        match sort {
            0 => record.extend(around(rng, &[])),
            1 => {
                record.extend(around(rng, &[]));
                record.push(rng.pick(&LETTERS));
            }
            2 => record.extend(around(rng, &[b'C'; 16_384])),
            _ => record.extend(letters(rng, MAX_FILE)),
        }
    }
    record.truncate(MAX_FILE);
    record
}

/// The counts of a record, whatever room is lent.
fn counts(record: &[u8]) -> Salvaged {
    let mut copy = vec![0; record.len()];
    let mut list = vec![0; SPAN_CELLS * record.len()];
    salvage(record, &mut copy, &mut list).unwrap_or_default()
}

fn case(record: Vec<u8>, room: usize, cells: usize) -> Case {
    Case::Salvage(SalvageCase {
        record,
        room,
        cells,
    })
}

/// A record with just enough room, or a little more; a cell left over too.
pub fn enough(rng: &mut Rng, make: Record) -> Case {
    let record = make(rng);
    let Salvaged { copied, spans, .. } = counts(&record);
    let room = copied + rng.pick(&[0, 0, 1, 9, 40]);
    let cells = SPAN_CELLS * spans + rng.pick(&[0, 0, 1, 1, 2, 7]);
    case(record, room, cells)
}

/// A record whose copy has no room (52), the list having room or not.
pub fn short_copy(rng: &mut Rng, make: Record) -> Case {
    let record = make(rng);
    let Salvaged { copied, spans, .. } = counts(&record);
    let room = copied.saturating_sub(rng.pick(&[1, 1, 1, 2, 27, 1_000]));
    let cells = SPAN_CELLS * spans;
    let cells = rng.pick(&[cells, cells, cells + 3, cells.saturating_sub(1), 0]);
    case(record, room, cells)
}

/// A record whose list has no room (53), be it for want of one cell.
pub fn short_list(rng: &mut Rng, make: Record) -> Case {
    let record = make(rng);
    let Salvaged { copied, spans, .. } = counts(&record);
    let cells = SPAN_CELLS * spans;
    let cells = cells.saturating_sub(rng.pick(&[1, 1, 2, 3, 1_000]));
    let room = copied + rng.pick(&[0, 0, 1]);
    case(record, room, cells)
}

/// A record above 65,536 bytes (45), with room or without.
pub fn too_long(rng: &mut Rng) -> Case {
    let mut record = longest(rng);
    let more = rng.pick(&[1, 1, 2, 27, 4_000]);
    record.extend(letters(rng, more));
    let room = rng.pick(&[0, record.len()]);
    let cells = rng.pick(&[0, 1, 2, 4_700]);
    case(record, room, cells)
}
