//! Frames that break a rule of their own, or of the order of calls.

use super::steps::{either, follow_up, open, step};
use super::{legal_kinds, sent, Line, Sent};
use crate::frame::Kind;
use crate::generate::frames::spoil;
use crate::generate::rng::Rng;

/// A frame that is right but for its side (8).
pub fn wrong_side(rng: &mut Rng, line: &Line) -> Option<Sent> {
    let (side, bytes) = match rng.one_in(2) {
        true => open(rng, line)?,
        false => step(rng, line)?,
    };
    let other = if side == b'C' { b'S' } else { b'C' };
    Some((rng.pick(&[other, other, 0, b'c', 255]), bytes))
}

/// An INVOKE of a method that is not in the table (9).
pub fn unknown_method(rng: &mut Rng, line: &Line) -> Option<Sent> {
    let method = rng.below(line.table.methods.len());
    let known_call = line.pick_call(rng).map(|call| call.correlation);
    let correlation = match known_call {
        Some(correlation) if rng.one_in(3) => correlation,
        _ => line.unused_correlation(rng),
    };
    let mut header = line.header(method, Kind::Invoke, correlation);
    header.identifiers[rng.below(3)] ^= 1 << rng.range(5, 31);
    Some(sent(&header, Kind::Invoke, &[]))
}

/// An INVOKE for a call that is open (10).
pub fn already_open(rng: &mut Rng, line: &Line) -> Option<Sent> {
    let call = line.pick_call(rng)?;
    let method = rng.below(line.table.methods.len());
    let header = line.header(method, Kind::Invoke, call.correlation);
    let payload = line.payload(rng, method, Kind::Invoke);
    Some(sent(&header, Kind::Invoke, &payload))
}

/// A frame for a call that is not open (11).
pub fn not_open(rng: &mut Rng, line: &Line) -> Option<Sent> {
    let method = rng.below(line.table.methods.len());
    let kind = Kind::from_number(rng.range(2, 8) as u32)?;
    let header = line.header(method, kind, line.unused_correlation(rng));
    let payload = line.payload(rng, method, kind);
    Some(sent(&header, kind, &payload))
}

/// A frame with other identifiers than its call (12).
pub fn other_identifiers(rng: &mut Rng, line: &Line) -> Option<Sent> {
    let call = line.pick_call(rng)?;
    let kind = Kind::from_number(rng.range(2, 8) as u32)?;
    let other = rng.below(line.table.methods.len());
    let mut header = line.header(other, kind, call.correlation);
    if other == call.method as usize {
        header.identifiers[rng.below(3)] ^= 1 << rng.below(32);
    }
    Some(sent(&header, kind, &[]))
}

/// A frame that the order of its call does not allow (14).
pub fn out_of_order(rng: &mut Rng, line: &Line) -> Option<Sent> {
    let call = line.pick_call(rng)?;
    let kind = Kind::from_number(rng.range(2, 6) as u32)?;
    if legal_kinds(&line.table, &call).contains(&kind) {
        return None;
    }
    follow_up(rng, line, &call, kind)
}

/// A right frame with one wrong field of its header (2 to 7).
pub fn spoilt(rng: &mut Rng, line: &Line, number: u32) -> Option<Sent> {
    let (side, mut bytes) = either(rng, line)?;
    spoil(rng, &mut bytes, number);
    Some((side, bytes))
}

/// A right frame cut at any point (1).
pub fn cut_frame(rng: &mut Rng, line: &Line) -> Option<Sent> {
    let (side, mut bytes) = either(rng, line)?;
    let length = rng.below(bytes.len());
    bytes.truncate(length);
    let side = if rng.one_in(5) { b'X' } else { side };
    Some((side, bytes))
}
