//! One frame against the call table: who may send it, whether the call's order
//! allows it, and its payload.

use crate::calls::{Call, CallTable, FORMS};
use crate::frame::{read_frame, Frame, FrameAnswer, Kind};
use crate::reader::{read_checked, Reading};
use crate::refusal::{Reason, Refusal};
use crate::schema::{Method, Schema, NO_TYPE};
use crate::tallies::{Figure, Tally};
use crate::MAX_ELEMENTS;

/// What became of a frame.
#[derive(Clone, Copy, Debug, PartialEq, Eq)]
pub enum Outcome {
    /// Accepted; a frame without a value has a reading of zeros.
    Accepted(Reading),
    /// The frame is not whole yet.
    MoreNeeded,
    Refused(Refusal),
}

/// The answer to a frame.
#[derive(Clone, Copy, Debug, PartialEq, Eq)]
pub struct Received {
    pub outcome: Outcome,
    /// How many bytes were used.
    pub used: usize,
    /// How many calls are open afterwards.
    pub open: usize,
}

impl Received {
    /// The number of the answer.
    pub const fn number(&self) -> u32 {
        match self.outcome {
            Outcome::Accepted(_) => 0,
            Outcome::MoreNeeded => 1,
            Outcome::Refused(refusal) => refusal.number(),
        }
    }

    /// The place of a refusal, else 0.
    pub const fn place(&self) -> u32 {
        match self.outcome {
            Outcome::Refused(refusal) => refusal.place,
            _ => 0,
        }
    }

    /// The reading of an accepted frame, else zeros.
    pub fn reading(&self) -> Reading {
        match self.outcome {
            Outcome::Accepted(reading) => reading,
            _ => Reading::default(),
        }
    }
}

/// What a frame's payload has to be.
enum Expected {
    Empty,
    Value(u32),
    Anything,
}

/// A frame that the order of calls allows.
struct Step {
    /// The slot that it concerns, and the method of the call there.
    slot: usize,
    method: u32,
    /// The record there once it is accepted.
    next: Call,
    /// The payload it must have.
    payload: Expected,
    /// The tally that rises where it is accepted, and where its payload is
    /// refused and so ends the call.
    accepted: Option<Figure>,
    refused: Option<Figure>,
}

impl CallTable {
    /// Judges the first frame of `bytes` from `side`, the byte C or S. The
    /// table changes only by what the frame does to its own call, the tallies
    /// only by one figure of that call's method.
    pub fn receive(
        &mut self,
        schema: &[u8],
        tallies: &mut [Tally],
        side: u8,
        bytes: &[u8],
        sheet: &mut [u32],
    ) -> Received {
        let (outcome, used) = match self.judge(schema, tallies, side, bytes, sheet) {
            Ok(answer) => answer,
            Err(refusal) => (Outcome::Refused(refusal), 0),
        };
        Received {
            outcome,
            used,
            open: self.open_count(),
        }
    }

    /// The outcome and the bytes used; an error is a refusal that uses none.
    fn judge(
        &mut self,
        schema: &[u8],
        tallies: &mut [Tally],
        side: u8,
        bytes: &[u8],
        sheet: &mut [u32],
    ) -> Result<(Outcome, usize), Refusal> {
        let schema = self.check(schema, tallies)?;
        let frame = match read_frame(bytes) {
            FrameAnswer::Whole(frame) => frame,
            FrameAnswer::MoreNeeded => return Ok((Outcome::MoreNeeded, 0)),
            FrameAnswer::Refused(reason) => return Err(reason.at(0)),
        };
        let payload = &bytes[frame.payload_place..frame.length()];
        let outcome = match self.advance(&schema, tallies, side, &frame, payload, sheet) {
            Ok(reading) => Outcome::Accepted(reading),
            Err(refusal) if refusal.reason.uses_frame() => Outcome::Refused(refusal),
            Err(refusal) => return Err(refusal),
        };
        Ok((outcome, frame.length()))
    }

    /// Judges a whole frame and brings the table and the tally of its method to
    /// their next state.
    fn advance(
        &mut self,
        schema: &Schema,
        tallies: &mut [Tally],
        side: u8,
        frame: &Frame,
        payload: &[u8],
        sheet: &mut [u32],
    ) -> Result<Reading, Refusal> {
        if side != frame.kind.side() {
            return Err(Reason::WrongSide.at(0));
        }
        let step = match frame.kind {
            Kind::Invoke => self.invoke(schema, frame),
            _ => self.follow(schema, frame),
        };
        let step = step.map_err(|reason| reason.at(0))?;
        let tally = &mut tallies[step.method as usize];
        let full = |figure| tally.is_full(figure);
        let judged = match step.accepted.is_some_and(full) {
            // It will not be accepted, so the sheet stays as it is.
            true => judge_payload(schema, &step.payload, payload, &mut sheet.to_vec()),
            false => judge_payload(schema, &step.payload, payload, sheet),
        };
        let (next, figure) = match judged {
            Ok(_) => (step.next, step.accepted),
            Err(refusal) if refusal.reason.ends_call() => (Call::default(), step.refused),
            Err(_) => return judged,
        };
        if let Some(figure) = figure {
            if tally.is_full(figure) {
                return Err(Reason::TallyFull.at(0));
            }
            tally.raise(figure);
        }
        self.slots[step.slot] = next;
        judged
    }

    /// An INVOKE opens a call in the lowest free slot.
    fn invoke(&self, schema: &Schema, frame: &Frame) -> Result<Step, Reason> {
        let header = &frame.header;
        let (number, method) = schema
            .methods()
            .enumerate()
            .find(|(_, method)| method.identifiers == header.identifiers)
            .ok_or(Reason::MethodUnknown)?;
        if self.find(header.correlation).is_some() {
            return Err(Reason::CallAlreadyOpen);
        }
        let slot = self.lowest_free().ok_or(Reason::TooManyCalls)?;
        let next = Call {
            open: true,
            correlation: header.correlation,
            method: number as u32,
            ..Call::default()
        };
        Ok(Step {
            slot,
            method: next.method,
            next,
            payload: value_or_empty(method.types[0]),
            accepted: Some(Figure::Opened),
            refused: None,
        })
    }

    /// Any other frame needs its call open and the order of frames kept.
    fn follow(&self, schema: &Schema, frame: &Frame) -> Result<Step, Reason> {
        let slot = self
            .find(frame.header.correlation)
            .ok_or(Reason::CallNotOpen)?;
        let call = self.slots[slot];
        let method = schema.method(call.method).ok_or(Reason::CallTableNotGood)?;
        if method.identifiers != frame.header.identifiers {
            return Err(Reason::IdentifiersDiffer);
        }
        let (next, payload) = match call.cancelled {
            true => order_cancelled(frame.kind)?,
            false => order(call, &method, frame.kind)?,
        };
        let accepted = match frame.kind {
            Kind::Error if call.cancelled => Some(Figure::Cancelled),
            Kind::Error => Some(Figure::Errored),
            _ if !next.open => Some(Figure::Completed),
            _ => None,
        };
        Ok(Step {
            slot,
            method: call.method,
            next,
            payload,
            accepted,
            refused: Some(Figure::Failed),
        })
    }
}

/// The order of frames within a cancelled call: ERROR ends it, the server's
/// other frames are dropped, and the client may send nothing more.
fn order_cancelled(kind: Kind) -> Result<(Call, Expected), Reason> {
    match kind {
        Kind::Error => Ok((Call::default(), Expected::Anything)),
        Kind::OutStream | Kind::OutClose | Kind::Response => Err(Reason::Dropped),
        Kind::Invoke | Kind::InStream | Kind::InClose | Kind::Cancel => Err(Reason::NotAllowedNow),
    }
}

/// The order of frames within an open call that is not cancelled: the record
/// after the frame and the payload it must have.
fn order(call: Call, method: &Method, kind: Kind) -> Result<(Call, Expected), Reason> {
    let form = FORMS[method.form];
    let [_, output, input_stream, output_stream] = method.types;
    let output_open = call.response && !call.output_closed;
    let (allowed, payload) = match kind {
        Kind::Invoke => (false, Expected::Empty),
        Kind::InStream => (
            form.in_stream && !call.input_closed,
            value_or_empty(input_stream),
        ),
        Kind::InClose => (form.in_close && !call.input_closed, Expected::Empty),
        Kind::OutStream => (
            form.out_stream && output_open,
            value_or_empty(output_stream),
        ),
        Kind::OutClose => (form.out_close && output_open, Expected::Empty),
        Kind::Response => (!call.response, value_or_empty(output)),
        Kind::Error => (true, Expected::Anything),
        Kind::Cancel => (true, Expected::Empty),
    };
    if !allowed {
        return Err(Reason::NotAllowedNow);
    }
    let next = Call {
        response: call.response || kind == Kind::Response,
        input_closed: call.input_closed || kind == Kind::InClose,
        output_closed: call.output_closed || kind == Kind::OutClose,
        cancelled: kind == Kind::Cancel,
        input_elements: count(call.input_elements, kind == Kind::InStream)?,
        output_elements: count(call.output_elements, kind == Kind::OutStream)?,
        ..call
    };
    let next = match kind == Kind::Error || next.is_complete(form) {
        true => Call::default(),
        false => next,
    };
    Ok((next, payload))
}

/// The elements of a stream once another has come, or none.
fn count(elements: u16, another: bool) -> Result<u16, Reason> {
    match another {
        true if elements == MAX_ELEMENTS => Err(Reason::ElementLimit),
        true => Ok(elements + 1),
        false => Ok(elements),
    }
}

/// A side of a method expects a value where its form has a Y.
fn value_or_empty(type_number: u32) -> Expected {
    match type_number {
        NO_TYPE => Expected::Empty,
        number => Expected::Value(number),
    }
}

/// Reads the payload that a step expects.
fn judge_payload(
    schema: &Schema,
    expected: &Expected,
    payload: &[u8],
    sheet: &mut [u32],
) -> Result<Reading, Refusal> {
    match *expected {
        Expected::Value(number) => read_checked(schema, number, payload, sheet),
        Expected::Empty if !payload.is_empty() => Err(Reason::UnexpectedPayload.at(0)),
        Expected::Empty | Expected::Anything => Ok(Reading::default()),
    }
}
