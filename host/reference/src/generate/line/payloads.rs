//! Frames whose payload is wrong, or is missing.

use super::{legal_kinds, sent, with_pairs, Line, Sent};
use crate::frame::{Header, Kind};
use crate::generate::damage::Damage;
use crate::generate::maps::{give_pairs, Pairs};
use crate::generate::payload::value_of;
use crate::generate::rng::Rng;
use crate::generate::value::{Content, Length, Maker, Types, Value};
use crate::MAX_PAIRS;

/// An INVOKE without the payload that its method takes (20): no call opens, and
/// no tally has to rise.
pub fn unread_invoke(rng: &mut Rng, line: &Line) -> Option<Sent> {
    let method = rng.below(line.table.methods.len());
    line.payload_type(method, Kind::Invoke)?;
    let correlation = line.unused_correlation(rng);
    let header = line.header(method, Kind::Invoke, correlation);
    Some(sent(&header, Kind::Invoke, &[]))
}

/// A header and payload type of a frame that carries a value.
fn carrying(rng: &mut Rng, line: &Line) -> Option<(Header, Kind, u32)> {
    let live = line.pick_by_mark(rng, false);
    if let Some(call) = live.filter(|_| rng.one_in(2)) {
        let kind = rng.pick(&legal_kinds(&line.table, &call));
        let method = call.method as usize;
        let number = line.payload_type(method, kind)?;
        return Some((line.header(method, kind, call.correlation), kind, number));
    }
    let method = rng.below(line.table.methods.len());
    let number = line.payload_type(method, Kind::Invoke)?;
    let correlation = line.unused_correlation(rng);
    let header = line.header(method, Kind::Invoke, correlation);
    Some((header, Kind::Invoke, number))
}

/// A frame whose payload is damaged in one way.
pub fn damaged(rng: &mut Rng, line: &Line, damage: Damage) -> Option<Sent> {
    let (header, kind, number) = carrying(rng, line)?;
    let payload = line.sample(rng, &Types::new(&line.table), number)?;
    let bytes = damage(rng, &line.table, &payload)?;
    Some(sent(&header, kind, &bytes))
}

/// A frame whose payload has a map of so many pairs.
pub fn mapped(rng: &mut Rng, line: &Line, pairs: Pairs) -> Option<Sent> {
    let (header, kind, number) = carrying(rng, line)?;
    let bytes = with_pairs(rng, &Types::new(&line.table), number, pairs)?;
    Some(sent(&header, kind, &bytes))
}

/// A frame whose payload has a map of 64 pairs, damaged in one way.
pub fn mapped_damaged(rng: &mut Rng, line: &Line, damage: Damage) -> Option<Sent> {
    let (header, kind, number) = carrying(rng, line)?;
    let types = Types::new(&line.table);
    let mut value = value_of(rng, &types, number, true)?;
    give_pairs(rng, &types, &mut value, MAX_PAIRS)?;
    let bytes = damage(rng, &line.table, &value.payload())?;
    Some(sent(&header, kind, &bytes))
}

/// A frame without a payload where one belongs (20).
pub fn empty_payload(rng: &mut Rng, line: &Line) -> Option<Sent> {
    let (header, kind, _) = carrying(rng, line)?;
    Some(sent(&header, kind, &[]))
}

/// A frame whose payload is a struct within itself, 15 to 18 levels deep (28).
pub fn deep(rng: &mut Rng, line: &Line) -> Option<Sent> {
    let (header, kind, number) = carrying(rng, line)?;
    let levels = rng.pick(&[15, 16, 17, 17, 17, 18]);
    let payload = nested(rng, &Types::new(&line.table), number, levels)?;
    let bytes = payload.payload().bytes;
    Some(sent(&header, kind, &bytes))
}

/// A struct whose last field is itself, so many times.
fn nested(rng: &mut Rng, types: &Types, number: u32, levels: usize) -> Option<Value> {
    let fields = types.table.struct_fields(number);
    let last = fields.len() - 1;
    if fields[last] != [number, 1] {
        return None;
    }
    let mut maker = Maker {
        types,
        rng,
        budget: 0,
        full: false,
        length: Length::Short,
    };
    let mut value = maker.value(number, 15);
    if let Content::Fields { bits, fields, .. } = &mut value.content {
        if levels > 1 {
            *bits |= 1 << last;
            fields.push(nested(rng, types, number, levels - 1)?);
        }
    }
    Some(value)
}

/// A payload where none belongs (29), also on CANCEL and closes.
pub fn unexpected_payload(rng: &mut Rng, line: &Line) -> Option<Sent> {
    let live = line.pick_by_mark(rng, false);
    let (method, kind, correlation) = match live.filter(|_| !rng.one_in(3)) {
        Some(call) => {
            let mut kinds = legal_kinds(&line.table, &call);
            kinds.push(Kind::Cancel);
            (call.method as usize, rng.pick(&kinds), call.correlation)
        }
        None => {
            let method = rng.below(line.table.methods.len());
            (method, Kind::Invoke, line.unused_correlation(rng))
        }
    };
    if line.payload_type(method, kind).is_some() {
        return None;
    }
    let header = line.header(method, kind, correlation);
    let length = rng.range(1, 4);
    let payload = rng.bytes(length);
    Some(sent(&header, kind, &payload))
}
