//! Frames: 25 bytes of header, a VarUInt payload length, the payload.

use crate::refusal::Reason;
use crate::varuint::{self, Decoded};
use crate::MAX_PAYLOAD;

/// The bytes of a frame before its payload length.
pub const HEADER: usize = 25;

/// What a frame is for.
#[derive(Clone, Copy, Debug, PartialEq, Eq)]
#[repr(u8)]
pub enum Kind {
    Invoke = 1,
    InStream = 2,
    InClose = 3,
    OutStream = 4,
    OutClose = 5,
    Response = 6,
    Error = 7,
    Cancel = 8,
}

impl Kind {
    /// The kind of a number, if there is one.
    pub const fn from_number(number: u32) -> Option<Kind> {
        Some(match number {
            1 => Kind::Invoke,
            2 => Kind::InStream,
            3 => Kind::InClose,
            4 => Kind::OutStream,
            5 => Kind::OutClose,
            6 => Kind::Response,
            7 => Kind::Error,
            8 => Kind::Cancel,
            _ => return None,
        })
    }

    /// The side byte of the one that sends this kind: C or S.
    pub const fn side(self) -> u8 {
        match self {
            Kind::Invoke | Kind::InStream | Kind::InClose | Kind::Cancel => b'C',
            Kind::OutStream | Kind::OutClose | Kind::Response | Kind::Error => b'S',
        }
    }
}

/// The fields of a frame that its sender chooses.
#[derive(Clone, Copy, Debug, Default, PartialEq, Eq)]
pub struct Header {
    pub kind: u32,
    /// Package, service and method.
    pub identifiers: [u32; 3],
    pub correlation: u64,
}

/// A whole frame: its header, and where its payload lies.
#[derive(Clone, Copy, Debug, PartialEq, Eq)]
pub struct Frame {
    pub header: Header,
    pub kind: Kind,
    pub payload_place: usize,
    pub payload_length: usize,
}

impl Frame {
    /// How many bytes the frame has.
    pub const fn length(&self) -> usize {
        self.payload_place + self.payload_length
    }
}

/// What the bytes at hand say about the frame that starts at the first of them.
#[derive(Clone, Copy, Debug, PartialEq, Eq)]
pub enum FrameAnswer {
    MoreNeeded,
    Whole(Frame),
    Refused(Reason),
}

/// Reads the first frame. Each field is judged once it is whole, so a fault is
/// found before the rest of the frame has come.
pub fn read_frame(bytes: &[u8]) -> FrameAnswer {
    let kind = match judge_start(bytes) {
        Ok(Some(kind)) => kind,
        Ok(None) => return FrameAnswer::MoreNeeded,
        Err(reason) => return FrameAnswer::Refused(reason),
    };
    let Some((start, rest)) = bytes.split_first_chunk::<HEADER>() else {
        return FrameAnswer::MoreNeeded;
    };
    match varuint::decode(rest) {
        Decoded::Cut => FrameAnswer::MoreNeeded,
        Decoded::Malformed => FrameAnswer::Refused(Reason::FrameLength),
        Decoded::Whole { value, .. } if value > MAX_PAYLOAD as u64 => {
            FrameAnswer::Refused(Reason::PayloadTooLong)
        }
        Decoded::Whole { value, length } => {
            let frame = Frame {
                header: header(start),
                kind,
                payload_place: HEADER + length,
                payload_length: value as usize,
            };
            match bytes.len() < frame.length() {
                true => FrameAnswer::MoreNeeded,
                false => FrameAnswer::Whole(frame),
            }
        }
    }
}

/// Judges magic, version, kind and flags as far as they are there.
fn judge_start(bytes: &[u8]) -> Result<Option<Kind>, Reason> {
    let Some((magic, rest)) = bytes.split_first_chunk::<2>() else {
        return Ok(None);
    };
    if *magic != [0xAF, 0x01] {
        return Err(Reason::Magic);
    }
    if rest.first().is_some_and(|&version| version != 1) {
        return Err(Reason::Version);
    }
    let Some(&number) = rest.get(1) else {
        return Ok(None);
    };
    let kind = Kind::from_number(u32::from(number)).ok_or(Reason::Kind)?;
    match rest.get(2) {
        None => Ok(None),
        Some(0) => Ok(Some(kind)),
        Some(_) => Err(Reason::Flags),
    }
}

/// The header fields of 25 bytes that passed [`judge_start`].
fn header(start: &[u8; HEADER]) -> Header {
    let word = |at: usize| {
        let four = [start[at], start[at + 1], start[at + 2], start[at + 3]];
        u32::from_le_bytes(four)
    };
    Header {
        kind: u32::from(start[3]),
        identifiers: [word(5), word(9), word(13)],
        correlation: u64::from(word(17)) | u64::from(word(21)) << 32,
    }
}

/// Writes a frame and gives its length.
pub fn write_frame(header: &Header, payload: &[u8], out: &mut [u8]) -> Result<usize, Reason> {
    let kind = Kind::from_number(header.kind).ok_or(Reason::Kind)?;
    if payload.len() > MAX_PAYLOAD {
        return Err(Reason::PayloadTooLong);
    }
    let length = frame_length(payload.len());
    let out = out.get_mut(..length).ok_or(Reason::OutputTooSmall)?;
    write_start(kind, header, payload.len(), out).copy_from_slice(payload);
    Ok(length)
}

/// The length of a frame with a payload of so many bytes.
pub(crate) fn frame_length(size: usize) -> usize {
    HEADER + varuint::length(size as u64) + size
}

/// Writes everything before the payload to an output of the frame's length,
/// and gives the rest of it.
pub(crate) fn write_start<'o>(
    kind: Kind,
    header: &Header,
    size: usize,
    out: &'o mut [u8],
) -> &'o mut [u8] {
    out[..5].copy_from_slice(&[0xAF, 0x01, 1, kind as u8, 0]);
    for (index, identifier) in header.identifiers.iter().enumerate() {
        out[5 + 4 * index..][..4].copy_from_slice(&identifier.to_le_bytes());
    }
    out[17..HEADER].copy_from_slice(&header.correlation.to_le_bytes());
    let place = HEADER + varuint::encode(size as u64, &mut out[HEADER..]);
    &mut out[place..]
}
