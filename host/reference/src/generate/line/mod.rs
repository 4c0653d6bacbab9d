//! A connection, and frames that suit its calls or break a rule.

mod cancelled;
mod misfits;
mod payloads;
mod steps;
mod tables;

pub use cancelled::{
    after_cancel, cancel_with_bytes, crossing, crossing_at_fault, other_cancelled,
    unknown_cancelled,
};
pub use misfits::{
    already_open, cut_frame, not_open, other_identifiers, out_of_order, spoilt, unknown_method,
    wrong_side,
};
pub use payloads::{
    damaged, deep, empty_payload, mapped, mapped_damaged, unexpected_payload, unread_invoke,
};
pub use steps::{cancel, completing, either, element, end, late_error, open, step};

use super::frames::frame_bytes;
use super::large::{long_length, long_value};
use super::maps::{allowed, give_pairs, Pairs};
use super::payload::{payload_of, value_of};
use super::rng::Rng;
use super::table::Table;
use super::value::{Payload, Types};
use crate::calls::{Call, CallTable, FORMS, SLOTS};
use crate::frame::{Header, Kind};
use crate::schema::{Schema, NO_TYPE};
use crate::tallies::Tally;
use crate::MAX_ELEMENTS;
use tables::{line_table, long_table, maps_table};

/// A frame and the side it comes from.
pub type Sent = (u8, Vec<u8>);

/// One connection: its table, its calls so far, the tallies of its methods, and
/// how its right payloads are.
pub struct Line {
    pub table: Table,
    pub calls: CallTable,
    pub tallies: Vec<Tally>,
    payloads: Payloads,
}

/// What is large in the payloads of a connection.
#[derive(Clone, Copy, Debug, PartialEq, Eq)]
enum Payloads {
    Small,
    /// Maps have many pairs.
    Maps,
    /// Every other payload has 1,024 bytes or more.
    Long,
}

impl Line {
    /// A new connection.
    pub fn fresh(rng: &mut Rng) -> Line {
        Line::new(line_table(rng), Payloads::Small)
    }

    fn new(table: Table, payloads: Payloads) -> Line {
        Line {
            tallies: vec![Tally::default(); table.methods.len()],
            calls: CallTable::fresh(),
            table,
            payloads,
        }
    }

    /// A new connection whose payloads have maps of many pairs.
    pub fn with_maps(rng: &mut Rng) -> Line {
        Line::new(maps_table(rng), Payloads::Maps)
    }

    /// A new connection with long payloads.
    pub fn with_long_payloads(rng: &mut Rng) -> Line {
        Line::new(long_table(rng), Payloads::Long)
    }

    /// A number of bytes that nobody reads: a few, or up to 16,384.
    fn unread(&self, rng: &mut Rng, few: usize) -> usize {
        match self.payloads == Payloads::Long && rng.one_in(2) {
            true => long_length(rng),
            false => few,
        }
    }

    /// A right value of a type, damaged or not by whoever asks for it.
    fn sample(&self, rng: &mut Rng, types: &Types, number: u32) -> Option<Payload> {
        match self.payloads == Payloads::Long && rng.one_in(2) {
            true => long_value(rng, types, number).map(|value| value.payload()),
            false => payload_of(rng, types, number, true),
        }
    }

    /// The connection in the middle of its life, with so many open calls.
    pub fn busy(mut self, rng: &mut Rng, open: usize) -> Line {
        let bytes = self.table.bytes();
        let Ok(schema) = Schema::check(&bytes) else {
            return self;
        };
        let mut slots: Vec<usize> = (0..SLOTS).collect();
        if rng.one_in(2) {
            rng.shuffle(&mut slots);
        }
        for (index, &slot) in slots[..open].iter().enumerate() {
            let correlation = match rng.below(9) {
                0 if index == 0 => u64::MAX,
                0..=2 => rng.bits() | 1 << 32,
                _ => index as u64,
            };
            self.calls.slots[slot] = open_call(rng, &schema, correlation);
        }
        for tally in &mut self.tallies {
            *tally = Tally::from_figures([0; 5].map(|_: u32| figure(rng)));
        }
        self
    }

    fn open_calls(&self) -> Vec<Call> {
        let open = self.calls.slots.iter().filter(|call| call.open);
        open.copied().collect()
    }

    fn pick_call(&self, rng: &mut Rng) -> Option<Call> {
        let open = self.open_calls();
        (!open.is_empty()).then(|| rng.pick(&open))
    }

    /// An open call that is cancelled, or one that is not.
    pub fn pick_by_mark(&self, rng: &mut Rng, cancelled: bool) -> Option<Call> {
        let mut open = self.open_calls();
        open.retain(|call| call.cancelled == cancelled);
        (!open.is_empty()).then(|| rng.pick(&open))
    }

    pub fn unused_correlation(&self, rng: &mut Rng) -> u64 {
        loop {
            let correlation = match rng.below(16) {
                0 => u64::MAX,
                1..=3 => rng.bits(),
                4..=7 => rng.below(200) as u64,
                _ => rng.below(6) as u64,
            };
            if self.calls.find(correlation).is_none() {
                return correlation;
            }
        }
    }

    /// The type of the payload that a kind of a method carries.
    fn payload_type(&self, method: usize, kind: Kind) -> Option<u32> {
        let [_, _, _, _, input, output, input_stream, output_stream] = self.table.methods[method];
        let number = match kind {
            Kind::Invoke => input,
            Kind::Response => output,
            Kind::InStream => input_stream,
            Kind::OutStream => output_stream,
            _ => NO_TYPE,
        };
        (number != NO_TYPE).then_some(number)
    }

    fn header(&self, method: usize, kind: Kind, correlation: u64) -> Header {
        let [package, service, number, ..] = self.table.methods[method];
        Header {
            kind: kind as u32,
            identifiers: [package, service, number],
            correlation,
        }
    }

    /// A right payload for a kind of a method; any bytes for ERROR.
    fn payload(&self, rng: &mut Rng, method: usize, kind: Kind) -> Vec<u8> {
        let types = Types::new(&self.table);
        let full = rng.one_in(3);
        match self.payload_type(method, kind) {
            Some(number) if self.payloads == Payloads::Maps => {
                with_pairs(rng, &types, number, allowed).unwrap_or_default()
            }
            Some(number) if self.payloads == Payloads::Long && rng.one_in(2) => {
                long_value(rng, &types, number).map_or(Vec::new(), |made| made.bytes())
            }
            Some(number) => {
                value_of(rng, &types, number, full).map_or(Vec::new(), |made| made.bytes())
            }
            None if kind == Kind::Error => {
                let few = rng.below(6);
                let length = self.unread(rng, few);
                rng.bytes(length)
            }
            None => Vec::new(),
        }
    }
}

/// A frame that is sent by its own side.
fn sent(header: &Header, kind: Kind, payload: &[u8]) -> Sent {
    (kind.side(), frame_bytes(header, payload))
}

/// A payload of a type with a map of so many pairs, where it has one.
fn with_pairs(rng: &mut Rng, types: &Types, number: u32, pairs: Pairs) -> Option<Vec<u8>> {
    let mut value = value_of(rng, types, number, true)?;
    for _ in 0..rng.range(1, 2) {
        let count = pairs(rng);
        give_pairs(rng, types, &mut value, count);
    }
    Some(value.bytes())
}

/// The kinds an open call may see next, other than ERROR and CANCEL where it is
/// not cancelled.
fn legal_kinds(table: &Table, call: &Call) -> Vec<Kind> {
    if call.cancelled {
        return vec![Kind::Error];
    }
    let form = FORMS[table.methods[call.method as usize][3] as usize];
    let mut kinds = Vec::new();
    if form.in_stream && !call.input_closed {
        kinds.extend([Kind::InStream, Kind::InClose]);
    }
    if form.out_stream && call.response && !call.output_closed {
        kinds.extend([Kind::OutStream, Kind::OutClose]);
    }
    if !call.response {
        kinds.extend([Kind::Response, Kind::Response]);
    }
    kinds
}

/// A figure of a tally: any, but seldom one that can hardly rise.
fn figure(rng: &mut Rng) -> u32 {
    match rng.below(40) {
        0 => u32::MAX,
        1 | 2 => u32::MAX - 1,
        3..=10 => rng.word() >> rng.below(32),
        _ => rng.below(200) as u32,
    }
}

/// The elements that a stream has had, near the limit too.
fn elements(rng: &mut Rng) -> u16 {
    match rng.below(16) {
        0 => MAX_ELEMENTS,
        1 | 2 => MAX_ELEMENTS - 1,
        3 => rng.word() as u16,
        4..=6 => 0,
        _ => rng.below(20) as u16,
    }
}

/// A record of an open call that a good table may hold.
fn open_call(rng: &mut Rng, schema: &Schema, correlation: u64) -> Call {
    loop {
        let call = Call {
            open: true,
            correlation,
            method: rng.below(schema.methods().len()) as u32,
            response: rng.one_in(2),
            input_closed: rng.one_in(2),
            output_closed: rng.one_in(2),
            cancelled: rng.one_in(4),
            input_elements: 0,
            output_elements: 0,
        };
        if call.is_good(schema) {
            let form = schema.method(call.method).map_or(0, |method| method.form);
            let count = |rng: &mut Rng, stream| if stream { elements(rng) } else { 0 };
            return Call {
                input_elements: count(rng, FORMS[form].in_stream),
                output_elements: count(rng, FORMS[form].out_stream),
                ..call
            };
        }
    }
}
