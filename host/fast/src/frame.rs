//! Frames.

use crate::bytes::{u32_at, u64_at};
use crate::MAX_PAYLOAD;

pub const HEADER: usize = 25;

/// A whole frame: its header, and where its payload stands.
#[derive(Clone, Copy, Debug, PartialEq, Eq)]
pub struct Frame {
    pub kind: u8,
    pub identifiers: [u32; 3],
    pub correlation: u64,
    pub place: usize,
    pub length: usize,
}

/// What the start of some bytes is: the refusal is a number.
#[derive(Clone, Copy, Debug, PartialEq, Eq)]
pub enum FrameAnswer {
    More,
    Whole(Frame),
    Refused(u32),
}

/// The first frame of some bytes. Most frames are told by one look at their
/// first 28 bytes; the others are judged field by field.
#[inline]
pub fn read_frame(b: &[u8]) -> FrameAnswer {
    if let Some(h) = b.first_chunk::<28>() {
        let start = u64_at(h, 0) & 0xFF_00FF_FFFF;
        let kind = h[3];
        let n = h[25] as usize;
        let (size, place) = if n < 0x80 {
            (n, 26)
        } else {
            (n - 0x80 + ((h[26] as usize) << 7), 27)
        };
        if start == 0x01_01AF
            && kind.wrapping_sub(1) < 8
            && (n < 0x80 || h[26].wrapping_sub(1) < 0x7F)
            && place + size <= b.len()
            && size <= MAX_PAYLOAD
        {
            return FrameAnswer::Whole(Frame {
                kind,
                identifiers: [u32_at(h, 5), u32_at(h, 9), u32_at(h, 13)],
                correlation: u64_at(h, 17),
                place,
                length: size,
            });
        }
    }
    slow(b)
}

#[inline(never)]
fn slow(b: &[u8]) -> FrameAnswer {
    if b.len() < 2 {
        return FrameAnswer::More;
    }
    if b[0] != 0xAF || b[1] != 1 {
        return FrameAnswer::Refused(2);
    }
    if b.len() > 2 && b[2] != 1 {
        return FrameAnswer::Refused(3);
    }
    if b.len() > 3 && !(1..=8).contains(&b[3]) {
        return FrameAnswer::Refused(4);
    }
    if b.len() > 4 && b[4] != 0 {
        return FrameAnswer::Refused(5);
    }
    if b.len() < HEADER {
        return FrameAnswer::More;
    }
    let mut value = 0u64;
    for i in 0..10 {
        let Some(&x) = b.get(HEADER + i) else {
            return FrameAnswer::More;
        };
        if (i == 9 && x > 1) || (i > 0 && x == 0) {
            return FrameAnswer::Refused(6);
        }
        value |= ((x & 0x7F) as u64) << (7 * i);
        if x < 0x80 {
            if value > MAX_PAYLOAD as u64 {
                return FrameAnswer::Refused(7);
            }
            let place = HEADER + i + 1;
            if b.len() < place + value as usize {
                return FrameAnswer::More;
            }
            return FrameAnswer::Whole(Frame {
                kind: b[3],
                identifiers: [u32_at(b, 5), u32_at(b, 9), u32_at(b, 13)],
                correlation: u64_at(b, 17),
                place,
                length: value as usize,
            });
        }
    }
    FrameAnswer::Refused(6)
}

/// The header of a frame to be written.
#[derive(Clone, Copy, Debug, PartialEq, Eq)]
pub struct Header {
    pub kind: u32,
    pub identifiers: [u32; 3],
    pub correlation: u64,
}

/// Writes a frame and gives its length, or the number of the refusal.
#[inline]
pub fn write_frame(header: &Header, payload: &[u8], out: &mut [u8]) -> Result<usize, u32> {
    let Header {
        kind,
        identifiers: ids,
        correlation,
    } = *header;
    if kind.wrapping_sub(1) >= 8 {
        return Err(4);
    }
    let n = payload.len();
    if n > MAX_PAYLOAD {
        return Err(7);
    }
    let place = if n < 0x80 {
        26
    } else if n < 0x4000 {
        27
    } else {
        28
    };
    let length = place + n;
    let Some(out) = out.get_mut(..length) else {
        return Err(52);
    };
    let (head, body) = out.split_at_mut(place);
    if let Some(h) = head.first_chunk_mut::<26>() {
        h[..5].copy_from_slice(&[0xAF, 1, 1, kind as u8, 0]);
        h[5..9].copy_from_slice(&ids[0].to_le_bytes());
        h[9..13].copy_from_slice(&ids[1].to_le_bytes());
        h[13..17].copy_from_slice(&ids[2].to_le_bytes());
        h[17..25].copy_from_slice(&correlation.to_le_bytes());
        h[25] = n as u8 & 0x7F | if n < 0x80 { 0 } else { 0x80 };
    }
    if n >= 0x80 {
        head[26] = (n >> 7) as u8 & 0x7F | if n < 0x4000 { 0 } else { 0x80 };
        if n >= 0x4000 {
            head[27] = (n >> 14) as u8;
        }
    }
    body.copy_from_slice(payload);
    Ok(length)
}
