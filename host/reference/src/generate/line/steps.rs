//! Frames that the calls of a connection allow.

use super::{legal_kinds, sent, Line, Sent};
use crate::calls::{Call, FORMS};
use crate::frame::Kind;
use crate::generate::rng::Rng;

/// An INVOKE of a method for an unused identifier.
pub fn open(rng: &mut Rng, line: &Line) -> Option<Sent> {
    let method = rng.below(line.table.methods.len());
    let correlation = line.unused_correlation(rng);
    let header = line.header(method, Kind::Invoke, correlation);
    let payload = line.payload(rng, method, Kind::Invoke);
    Some(sent(&header, Kind::Invoke, &payload))
}

/// A frame that its open call allows.
pub fn step(rng: &mut Rng, line: &Line) -> Option<Sent> {
    let call = line.pick_call(rng)?;
    let kind = match rng.below(12) {
        0 => Kind::Error,
        1 if !call.cancelled => Kind::Cancel,
        _ => rng.pick(&legal_kinds(&line.table, &call)),
    };
    follow_up(rng, line, &call, kind)
}

/// A CANCEL for an open call that is not cancelled.
pub fn cancel(rng: &mut Rng, line: &Line) -> Option<Sent> {
    let call = line.pick_by_mark(rng, false)?;
    follow_up(rng, line, &call, Kind::Cancel)
}

/// An ERROR for a cancelled call, which ends it.
pub fn late_error(rng: &mut Rng, line: &Line) -> Option<Sent> {
    let call = line.pick_by_mark(rng, true)?;
    follow_up(rng, line, &call, Kind::Error)
}

/// A frame of a kind for an open call, with a payload that suits.
pub(super) fn follow_up(rng: &mut Rng, line: &Line, call: &Call, kind: Kind) -> Option<Sent> {
    let method = call.method as usize;
    let header = line.header(method, kind, call.correlation);
    let payload = line.payload(rng, method, kind);
    Some(sent(&header, kind, &payload))
}

/// The frame that completes an open call.
pub fn completing(rng: &mut Rng, line: &Line) -> Option<Sent> {
    let call = line.pick_by_mark(rng, false)?;
    let form = FORMS[line.table.methods[call.method as usize][3] as usize];
    let mut kinds = legal_kinds(&line.table, &call);
    kinds.retain(|&kind| {
        let next = Call {
            response: call.response || kind == Kind::Response,
            input_closed: call.input_closed || kind == Kind::InClose,
            output_closed: call.output_closed || kind == Kind::OutClose,
            ..call
        };
        next.is_complete(form)
    });
    let kind = kinds.first()?;
    follow_up(rng, line, &call, *kind)
}

/// An element of a stream that its call allows, with a right payload or not.
pub fn element(rng: &mut Rng, line: &Line) -> Option<Sent> {
    let call = line.pick_by_mark(rng, false)?;
    let mut kinds = legal_kinds(&line.table, &call);
    kinds.retain(|kind| matches!(kind, Kind::InStream | Kind::OutStream));
    if kinds.is_empty() {
        return None;
    }
    let kind = rng.pick(&kinds);
    if rng.one_in(4) {
        let header = line.header(call.method as usize, kind, call.correlation);
        return Some(sent(&header, kind, &[]));
    }
    follow_up(rng, line, &call, kind)
}

/// An ERROR or CANCEL for an open call.
pub fn end(rng: &mut Rng, line: &Line) -> Option<Sent> {
    let call = line.pick_call(rng)?;
    let kind = rng.pick(&[Kind::Error, Kind::Cancel]);
    follow_up(rng, line, &call, kind)
}

/// A right frame for a new or an open call.
pub fn either(rng: &mut Rng, line: &Line) -> Option<Sent> {
    match rng.one_in(2) {
        true => open(rng, line),
        false => step(rng, line).or_else(|| open(rng, line)),
    }
}
