//! Cases for the frame reader and the frame writer.

use super::rng::Rng;
use super::value::{overlong, padded, unfinished, varuint};
use crate::cases::{Case, FrameCase, FrameWriteCase};
use crate::frame::{Header, HEADER};
use crate::varuint::{decode, Decoded};
use crate::MAX_PAYLOAD;

/// A frame.
pub fn frame_bytes(header: &Header, payload: &[u8]) -> Vec<u8> {
    let mut bytes = vec![0xAF, 0x01, 1, header.kind as u8, 0];
    for identifier in header.identifiers {
        bytes.extend(identifier.to_le_bytes());
    }
    bytes.extend(header.correlation.to_le_bytes());
    bytes.extend(varuint(payload.len() as u64));
    bytes.extend(payload);
    bytes
}

pub fn random_header(rng: &mut Rng) -> Header {
    Header {
        kind: rng.range(1, 8) as u32,
        identifiers: [rng.word(), rng.word() >> 28, rng.word()],
        correlation: rng.bits() >> rng.pick(&[0, 0, 32, 60]),
    }
}

/// A header of a kind that does not exist.
pub fn random_kind_fault(rng: &mut Rng) -> Header {
    let mut header = random_header(rng);
    header.kind = rng.pick(&[0, 9, 10, 255, 256, 257, 264, 1 << 31, u32::MAX]);
    header
}

pub fn random_frame(rng: &mut Rng) -> Vec<u8> {
    let length = rng.pick(&[0, 0, 1, 5, 20, 130]);
    let payload = rng.bytes(length);
    frame_bytes(&random_header(rng), &payload)
}

/// A whole frame, sometimes with bytes after it.
pub fn frame_good(rng: &mut Rng) -> Case {
    let mut data = random_frame(rng);
    if rng.one_in(3) {
        let length = rng.below(8);
        data.extend(rng.bytes(length));
    }
    Case::Frame(FrameCase { data })
}

/// A frame cut at any point (1), the first bytes as often as the rest.
pub fn frame_cut(rng: &mut Rng) -> Case {
    let mut data = random_frame(rng);
    let length = data.len();
    let length = match rng.one_in(2) {
        true => rng.below(28.min(length)),
        false => rng.below(length),
    };
    data.truncate(length);
    if length == 1 && rng.one_in(2) {
        data[0] = rng.byte();
    }
    Case::Frame(FrameCase { data })
}

/// A frame that ends within its length, after one to nine bytes of it (1).
pub fn frame_cut_length(rng: &mut Rng) -> Case {
    let mut data = random_frame(rng);
    data.truncate(HEADER);
    data.extend(unfinished(rng));
    Case::Frame(FrameCase { data })
}

/// Replaces the length of a frame.
fn replace_length(frame: &mut Vec<u8>, bytes: Vec<u8>) {
    let end = match decode(&frame[HEADER..]) {
        Decoded::Whole { length, .. } => HEADER + length,
        _ => HEADER + 1,
    };
    frame.splice(HEADER..end, bytes);
}

/// A length with spare groups: the frame's own, one above its bytes, or one
/// above the limit.
fn padded_length(rng: &mut Rng, frame: &[u8]) -> Option<Vec<u8>> {
    let length = match decode(&frame[HEADER..]) {
        Decoded::Whole { value, .. } if !rng.one_in(3) => value,
        _ => rng.pick(&[1, 200, MAX_PAYLOAD as u64, 1 << 20, 1 << 50]),
    };
    padded(rng, length)
}

/// One of the judged fields of a frame made wrong: 2 to 7 by number.
pub fn spoil(rng: &mut Rng, frame: &mut Vec<u8>, number: u32) {
    match number {
        2 => frame[rng.below(2)] ^= 1 << rng.below(8),
        3 => frame[2] = rng.pick(&[0, 2, 0x80, 0xFF]),
        4 => frame[3] = rng.pick(&[0, 9, 10, 0x80, 0xFF]),
        5 => frame[4] = rng.pick(&[1, 2, 0x80, 0xFF]),
        6 => {
            let padded = padded_length(rng, frame).filter(|_| !rng.one_in(4));
            let length = padded.unwrap_or_else(|| overlong(rng));
            replace_length(frame, length);
        }
        _ => {
            let over = MAX_PAYLOAD as u64 + rng.pick(&[1, 1, 2, 1 << 20, 1 << 50]);
            replace_length(frame, varuint(over));
        }
    }
}

/// A frame with one wrong field, or two, sometimes cut afterwards.
pub fn frame_spoilt(rng: &mut Rng, number: u32) -> Case {
    let mut data = random_frame(rng);
    if rng.one_in(5) {
        let other = rng.range(2, 7) as u32;
        spoil(rng, &mut data, other);
    }
    spoil(rng, &mut data, number);
    if rng.one_in(3) {
        let shortest = 2 + number as usize;
        let length = rng.range(shortest.min(data.len()), data.len());
        data.truncate(length);
    }
    Case::Frame(FrameCase { data })
}

/// Random bytes with or without the magic.
pub fn frame_random(rng: &mut Rng) -> Case {
    let length = rng.below(40);
    let mut data = rng.bytes(length);
    for (byte, known) in data.iter_mut().zip([0xAF, 1, 1, 1, 0]) {
        if !rng.one_in(6) {
            *byte = known;
        }
    }
    Case::Frame(FrameCase { data })
}

/// A frame to write, with a given room relative to its length.
fn frame_write(
    rng: &mut Rng,
    header: Header,
    length: usize,
    room: impl Fn(usize) -> usize,
) -> Case {
    let payload = rng.bytes(length);
    let whole = 25 + crate::varuint::length(length as u64) + length;
    Case::FrameWrite(FrameWriteCase {
        header,
        payload,
        room: room(whole).min(crate::cases::MAX_OUTPUT),
    })
}

/// A frame with room enough.
pub fn frame_write_good(rng: &mut Rng) -> Case {
    let header = random_header(rng);
    let length = rng.pick(&[0, 0, 1, 3, 20, 127, 128, 129]);
    let extra = rng.pick(&[0, 0, 1, 9]);
    frame_write(rng, header, length, |whole| whole + extra)
}

/// A payload of exactly 16,384 bytes.
pub fn frame_write_longest(rng: &mut Rng) -> Case {
    let header = random_header(rng);
    frame_write(rng, header, MAX_PAYLOAD, |whole| whole)
}

/// A kind that does not exist (4), also with the other faults.
pub fn frame_write_kind(rng: &mut Rng) -> Case {
    let header = random_kind_fault(rng);
    let length = rng.below(20);
    let missing = rng.pick(&[0, 0, 1, 40]);
    frame_write(rng, header, length, |whole| whole.saturating_sub(missing))
}

/// A payload above the limit (7), also without room.
pub fn frame_write_long(rng: &mut Rng) -> Case {
    let header = random_header(rng);
    let length = MAX_PAYLOAD + rng.pick(&[1, 1, 2, 200]);
    let missing = rng.pick(&[0, 0, 1, 17_000]);
    frame_write(rng, header, length, |whole| whole.saturating_sub(missing))
}

/// An output that is too small (52).
pub fn frame_write_small(rng: &mut Rng) -> Case {
    let header = random_header(rng);
    let length = rng.pick(&[0, 1, 3, 20, 128]);
    let missing = rng.pick(&[1, 1, 2, 10, 26]);
    frame_write(rng, header, length, |whole| whole.saturating_sub(missing))
}
