//! Frames for calls that are cancelled, and those that cancel with a fault.

use super::steps::follow_up;
use super::{sent, Line, Sent};
use crate::frame::Kind;
use crate::generate::frames::spoil;
use crate::generate::rng::Rng;

/// A frame of the server, other than ERROR, for a cancelled call (16): right by
/// its payload, or with bytes that nobody reads.
pub fn crossing(rng: &mut Rng, line: &Line) -> Option<Sent> {
    let call = line.pick_by_mark(rng, true)?;
    let kind = rng.pick(&[Kind::OutStream, Kind::OutClose, Kind::Response]);
    if rng.one_in(2) {
        return follow_up(rng, line, &call, kind);
    }
    let header = line.header(call.method as usize, kind, call.correlation);
    let few = rng.pick(&[0, 1, 3, 9]);
    let length = line.unread(rng, few);
    let payload = rng.bytes(length);
    Some(sent(&header, kind, &payload))
}

/// The same cut (1), with a wrong field (2 to 7) or from the wrong side (8), all
/// of which come before 16.
pub fn crossing_at_fault(rng: &mut Rng, line: &Line) -> Option<Sent> {
    let (mut side, mut bytes) = crossing(rng, line)?;
    match rng.below(6) {
        0 => bytes.truncate(rng.below(bytes.len())),
        1 => drop(bytes.pop()),
        2 | 3 => side = rng.pick(b"CC\0s"),
        _ => {
            let number = rng.range(2, 7) as u32;
            let number = rng.pick(&[6, 7, number]);
            spoil(rng, &mut bytes, number);
        }
    }
    Some((side, bytes))
}

/// A frame of the client for a cancelled call: 14, or 10 for an INVOKE; a
/// CANCEL with bytes too.
pub fn after_cancel(rng: &mut Rng, line: &Line) -> Option<Sent> {
    let call = line.pick_by_mark(rng, true)?;
    let kinds = [Kind::Invoke, Kind::InStream, Kind::InClose, Kind::Cancel];
    let kind = rng.pick(&kinds);
    let header = line.header(call.method as usize, kind, call.correlation);
    let payload = match rng.one_in(3) {
        true => rng.bytes(2),
        false => line.payload(rng, call.method as usize, kind),
    };
    Some(sent(&header, kind, &payload))
}

/// A CANCEL that carries bytes, for a call that is not cancelled (29).
pub fn cancel_with_bytes(rng: &mut Rng, line: &Line) -> Option<Sent> {
    let call = line.pick_by_mark(rng, false)?;
    let header = line.header(call.method as usize, Kind::Cancel, call.correlation);
    let length = rng.range(1, 3);
    let payload = rng.bytes(length);
    Some(sent(&header, Kind::Cancel, &payload))
}

/// An INVOKE of a method that is not there, for a cancelled call (9).
pub fn unknown_cancelled(rng: &mut Rng, line: &Line) -> Option<Sent> {
    let call = line.pick_by_mark(rng, true)?;
    let mut header = line.header(call.method as usize, Kind::Invoke, call.correlation);
    header.identifiers[rng.below(3)] ^= 1 << rng.range(5, 31);
    Some(sent(&header, Kind::Invoke, &[]))
}

/// A frame with other identifiers than its cancelled call (12), ERROR too.
pub fn other_cancelled(rng: &mut Rng, line: &Line) -> Option<Sent> {
    let call = line.pick_by_mark(rng, true)?;
    let kind = Kind::from_number(rng.range(2, 8) as u32)?;
    let mut header = line.header(call.method as usize, kind, call.correlation);
    header.identifiers[rng.below(3)] ^= 1 << rng.below(32);
    Some(sent(&header, kind, &[]))
}
