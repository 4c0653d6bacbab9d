//! The call table, and one frame against it.

use crate::bytes::{mixed, u32_at};
use crate::frame::{read_frame, Frame, FrameAnswer};
use crate::reader::{read_checked, Reading};
use crate::scratch::{with, Scratch};
use crate::table::{check, Table};
use crate::Refusal;

/// The number of slots.
pub const SLOTS: usize = 128;

/// The record of one call. A free slot is zero in every member.
#[derive(Clone, Copy, Debug, Default, PartialEq, Eq)]
pub struct Call {
    pub open: bool,
    pub correlation: u64,
    pub method: u32,
    pub response: bool,
    pub input_closed: bool,
    pub output_closed: bool,
    pub cancelled: bool,
    /// The stream elements accepted each way.
    pub input_elements: u16,
    pub output_elements: u16,
}

/// What became of the calls of one method: opened, completed, errored,
/// cancelled, failed on payload.
#[derive(Clone, Copy, Debug, Default, PartialEq, Eq)]
pub struct Tally(pub [u32; 5]);

const OPENED: usize = 0;
const COMPLETED: usize = 1;
const ERRORED: usize = 2;
const ENDED_CANCELLED: usize = 3;
const FAILED: usize = 4;

impl Tally {
    #[inline(always)]
    fn is_full(&self, figure: usize) -> bool {
        self.0[figure] == u32::MAX
    }
}

/// A record as three numbers: the correlation; the method in the low half of
/// the second with the marks above it; the input elements in the low half of
/// the third, with the output elements above.
#[derive(Clone, Copy, Debug, Default, PartialEq, Eq)]
struct Slot {
    correlation: u64,
    state: u64,
    elements: u32,
}

const OPEN: u64 = 1 << 32;
const RESPONSE: u64 = 1 << 33;
const INPUT_CLOSED: u64 = 1 << 34;
const OUTPUT_CLOSED: u64 = 1 << 35;
const CANCELLED: u64 = 1 << 36;

impl Slot {
    #[inline(always)]
    fn is_open(self) -> bool {
        self.state & OPEN != 0
    }

    #[inline(always)]
    fn method(self) -> usize {
        self.state as u32 as usize
    }

    /// The marks for RESPONSE (1), input closed (2) and output closed (4).
    #[inline(always)]
    fn marks(self) -> u64 {
        self.state >> 33 & 7
    }

    /// Whether no element has come of a stream that the form lacks.
    #[inline(always)]
    fn has_streams(self, form: u64) -> bool {
        (form & 2 != 0 || self.elements as u16 == 0) && (form & 1 != 0 || self.elements >> 16 == 0)
    }
}

/// The calls of one connection.
#[derive(Clone, Copy, Debug, PartialEq, Eq)]
pub struct CallTable {
    slots: [Slot; SLOTS],
}

/// What became of a frame.
#[derive(Clone, Copy, Debug, PartialEq, Eq)]
pub enum Outcome {
    /// Accepted; a frame without a value has a reading of zeros.
    Accepted(Reading),
    More,
    Refused(Refusal),
}

/// The answer to a frame: the bytes used, and how many calls are open then.
#[derive(Clone, Copy, Debug, PartialEq, Eq)]
pub struct Received {
    pub outcome: Outcome,
    pub used: usize,
    pub open: usize,
}

/// The answer to a release.
#[derive(Clone, Copy, Debug, PartialEq, Eq)]
pub struct Released {
    pub outcome: Result<(), Refusal>,
    pub open: usize,
}

/// Whether RESPONSE has come and each stream of the form is closed. A form has
/// 2 for an input stream and 1 for an output stream.
const fn complete(form: u64, marks: u64) -> bool {
    marks & 1 != 0 && (marks & 2 != 0 || form & 2 == 0) && (marks & 4 != 0 || form & 1 == 0)
}

/// Bit 8 * form + marks: an open call of that form may have these marks.
const GOOD: u32 = {
    let mut bits = 0;
    let mut i = 0;
    while i < 32 {
        let (form, marks) = (i >> 3, i & 7);
        let input = marks & 2 == 0 || form & 2 != 0;
        let output = marks & 4 == 0 || (form & 1 != 0 && marks & 1 != 0);
        if input && output && !complete(form, marks) {
            bits |= 1 << i;
        }
        i += 1;
    }
    bits
};

/// What one pass over a good table shows: the open calls by their correlation.
struct Seen {
    open: usize,
    free: usize,
    /// The index goes by mixed correlations.
    mixing: bool,
    index: [u8; 512],
}

/// What became of a look at the slots: how many are open and which is the first
/// that is free, where they are good.
enum Looked {
    Good {
        open: usize,
        free: usize,
    },
    Bad,
    /// Given up: too many places of the index were taken already.
    ManyCollisions,
}

/// So many taken places may be passed over before the numbers are mixed.
const MOST_PASSED: usize = 256;

/// The first place of a correlation in the index: the top nine bits of a number,
/// of which the library takes the top ten for its flag.
#[inline(always)]
fn hash(correlation: u64, mixing: bool) -> usize {
    let number = match mixing {
        true => mixed(correlation),
        false => correlation.wrapping_mul(0x9E37_79B9_7F4A_7C15),
    };
    (number >> 55) as usize
}

/// A frame that the order of calls allows: its slot, the record there once it
/// is accepted, the type of its payload, its method, and the figure that
/// rises where it is accepted.
struct Step {
    slot: usize,
    next: Slot,
    due: u32,
    method: usize,
    figure: Option<usize>,
}

/// No payload belongs here.
const EMPTY: u32 = u32::MAX;

/// ERROR carries any bytes. No type has this number.
const UNREAD: u32 = u32::MAX - 1;

impl CallTable {
    /// The table of a new connection: all slots free.
    pub fn fresh() -> Self {
        CallTable {
            slots: [Slot::default(); SLOTS],
        }
    }

    /// The table with these records.
    pub fn from_calls(calls: &[Call; SLOTS]) -> Self {
        let mark = |set: bool, bit: u64| if set { bit } else { 0 };
        CallTable {
            slots: calls.map(|call| Slot {
                correlation: call.correlation,
                state: u64::from(call.method)
                    | mark(call.open, OPEN)
                    | mark(call.response, RESPONSE)
                    | mark(call.input_closed, INPUT_CLOSED)
                    | mark(call.output_closed, OUTPUT_CLOSED)
                    | mark(call.cancelled, CANCELLED),
                elements: u32::from(call.input_elements) | u32::from(call.output_elements) << 16,
            }),
        }
    }

    /// The records.
    pub fn calls(&self) -> [Call; SLOTS] {
        self.slots.map(|slot| Call {
            open: slot.is_open(),
            correlation: slot.correlation,
            method: slot.state as u32,
            response: slot.state & RESPONSE != 0,
            input_closed: slot.state & INPUT_CLOSED != 0,
            output_closed: slot.state & OUTPUT_CLOSED != 0,
            cancelled: slot.state & CANCELLED != 0,
            input_elements: slot.elements as u16,
            output_elements: (slot.elements >> 16) as u16,
        })
    }

    fn open_count(&self) -> usize {
        self.slots.iter().filter(|slot| slot.is_open()).count()
    }

    /// Whether the slots are good by themselves and their correlations differ.
    #[inline(always)]
    fn look<const MIXING: bool>(&self, table: &Table, index: &mut [u8; 512]) -> Looked {
        let (mut open, mut free, mut passed) = (0, SLOTS, 0);
        for (i, &slot) in self.slots.iter().enumerate() {
            if !slot.is_open() {
                if slot != Slot::default() {
                    return Looked::Bad;
                }
                if free == SLOTS {
                    free = i;
                }
                continue;
            }
            let Some(method) = table.methods.get(slot.method()) else {
                return Looked::Bad;
            };
            let form = u64::from(method[12]) & 3;
            if GOOD >> (form << 3 | slot.marks()) & 1 == 0 || !slot.has_streams(form) {
                return Looked::Bad;
            }
            open += 1;
            let mut at = hash(slot.correlation, MIXING);
            if index[at] != 0 {
                let Some(steps) = self.pass(index, at, slot.correlation) else {
                    return Looked::Bad;
                };
                passed += steps;
                if !MIXING && passed > MOST_PASSED {
                    return Looked::ManyCollisions;
                }
                at += steps;
            }
            index[at & 511] = i as u8 + 1;
        }
        Looked::Good { open, free }
    }

    /// How far the first free place of the index is, or none where a place passed
    /// over has this correlation.
    #[inline(never)]
    fn pass(&self, index: &[u8; 512], from: usize, correlation: u64) -> Option<usize> {
        let mut steps = 0;
        loop {
            let there = index[(from + steps) & 511];
            if there == 0 {
                return Some(steps);
            }
            if self.slots[(usize::from(there) - 1) & 127].correlation == correlation {
                return None;
            }
            steps += 1;
        }
    }

    #[cold]
    fn look_mixing(&self, table: &Table, index: &mut [u8; 512]) -> Looked {
        *index = [0; 512];
        self.look::<true>(table, index)
    }

    #[inline(always)]
    fn find(&self, seen: &Seen, correlation: u64) -> Option<usize> {
        let mut at = hash(correlation, seen.mixing);
        loop {
            let there = usize::from(seen.index[at & 511]);
            if there == 0 {
                return None;
            }
            let slot = (there - 1) & 127;
            if self.slots[slot].correlation == correlation {
                return Some(slot);
            }
            at += 1;
        }
    }

    /// The schema table and what the call table shows, where both are good and
    /// there are as many tally rows as methods.
    #[inline(always)]
    fn check<'a>(
        &self,
        scratch: &mut Scratch,
        schema: &'a [u8],
        rows: usize,
    ) -> Result<(Table<'a>, Seen), Refusal> {
        let table = check(schema, &mut scratch.info)?;
        let mut index = [0; 512];
        let mut looked = self.look::<false>(&table, &mut index);
        let mixing = matches!(looked, Looked::ManyCollisions);
        if mixing {
            looked = self.look_mixing(&table, &mut index);
        }
        let Looked::Good { open, free } = looked else {
            return Err(Refusal::of(15));
        };
        if rows != table.methods.len() {
            return Err(Refusal::of(19));
        }
        let seen = Seen {
            open,
            free,
            mixing,
            index,
        };
        Ok((table, seen))
    }

    /// Judges the first frame of some bytes from a side, C or S.
    pub fn receive(
        &mut self,
        schema: &[u8],
        side: u8,
        bytes: &[u8],
        sheet: &mut [u32],
        tallies: &mut [Tally],
    ) -> Received {
        with(|scratch| self.receive_in(scratch, schema, side, bytes, sheet, tallies))
    }

    #[inline(always)]
    fn receive_in(
        &mut self,
        scratch: &mut Scratch,
        schema: &[u8],
        side: u8,
        bytes: &[u8],
        sheet: &mut [u32],
        tallies: &mut [Tally],
    ) -> Received {
        let refuse = |refusal, used, open| Received {
            outcome: Outcome::Refused(refusal),
            used,
            open,
        };
        let (table, seen) = match self.check(scratch, schema, tallies.len()) {
            Ok(good) => good,
            Err(refusal) => return refuse(refusal, 0, self.open_count()),
        };
        let open = seen.open;
        let frame = match read_frame(bytes) {
            FrameAnswer::Whole(frame) => frame,
            FrameAnswer::More => {
                return Received {
                    outcome: Outcome::More,
                    used: 0,
                    open,
                }
            }
            FrameAnswer::Refused(number) => return refuse(Refusal::of(number), 0, open),
        };
        let size = frame.place + frame.length;
        let sender = match frame.kind.wrapping_sub(4) < 4 {
            true => b'S',
            false => b'C',
        };
        if side != sender {
            return refuse(Refusal::of(8), size, open);
        }
        let step = match frame.kind {
            1 => self.invoke(&table, &seen, &frame),
            _ => self.follow(&table, &seen, &frame),
        };
        let step = match step {
            Ok(step) => step,
            Err(17) => return refuse(Refusal::of(17), 0, open),
            Err(number) => return refuse(Refusal::of(number), size, open),
        };
        let row = &mut tallies[step.method];
        let full = step.figure.is_some_and(|figure| row.is_full(figure));
        let payload = &bytes[frame.place..size];
        let judged = match step.due {
            UNREAD => Ok(Reading::default()),
            EMPTY if payload.is_empty() => Ok(Reading::default()),
            EMPTY => Err(Refusal::of(29)),
            // A full tally leaves the sheet as it was.
            ty if full => read_checked(scratch, &table, ty, payload, &mut sheet.to_vec()),
            ty => read_checked(scratch, &table, ty, payload, sheet),
        };
        let was_open = self.slots[step.slot].is_open();
        let others = open - usize::from(was_open);
        match judged {
            Ok(_) if full => refuse(Refusal::of(18), 0, open),
            Ok(reading) => {
                self.slots[step.slot] = step.next;
                if let Some(figure) = step.figure {
                    row.0[figure] += 1;
                }
                Received {
                    outcome: Outcome::Accepted(reading),
                    used: size,
                    open: others + usize::from(step.next.is_open()),
                }
            }
            Err(refusal) if refusal.number == 30 => refuse(refusal, 0, open),
            Err(refusal) => {
                if was_open {
                    if row.is_full(FAILED) {
                        return refuse(Refusal::of(18), 0, open);
                    }
                    row.0[FAILED] += 1;
                }
                self.slots[step.slot] = Slot::default();
                refuse(refusal, size, others)
            }
        }
    }

    /// An INVOKE opens a call in the lowest free slot.
    #[inline(always)]
    fn invoke(&self, table: &Table, seen: &Seen, frame: &Frame) -> Result<Step, u32> {
        let [package, service, name] = frame.identifiers;
        let named = |row: &[u8; 32]| {
            u32_at(row, 8) == name && u32_at(row, 4) == service && u32_at(row, 0) == package
        };
        let method = table.methods.iter().position(named).ok_or(9u32)?;
        if self.find(seen, frame.correlation).is_some() {
            return Err(10);
        }
        if seen.free == SLOTS {
            return Err(13);
        }
        Ok(Step {
            slot: seen.free,
            next: Slot {
                correlation: frame.correlation,
                state: OPEN | method as u64,
                elements: 0,
            },
            due: u32_at(&table.methods[method], 16),
            method,
            figure: Some(OPENED),
        })
    }

    /// Any other frame needs its call open and the order of frames kept.
    #[inline(always)]
    fn follow(&self, table: &Table, seen: &Seen, frame: &Frame) -> Result<Step, u32> {
        let at = self.find(seen, frame.correlation).ok_or(11u32)?;
        let slot = self.slots[at];
        let row = &table.methods[slot.method()];
        if [u32_at(row, 0), u32_at(row, 4), u32_at(row, 8)] != frame.identifiers {
            return Err(12);
        }
        let step = |next, due, figure| Step {
            slot: at,
            next,
            due,
            method: slot.method(),
            figure,
        };
        if slot.state & CANCELLED != 0 {
            return match frame.kind {
                7 => Ok(step(Slot::default(), UNREAD, Some(ENDED_CANCELLED))),
                4..=6 => Err(16),
                _ => Err(14),
            };
        }
        let form = u64::from(row[12]) & 3;
        let input = form & 2 != 0 && slot.state & INPUT_CLOSED == 0;
        let output = form & 1 != 0 && slot.state & RESPONSE != 0 && slot.state & OUTPUT_CLOSED == 0;
        let (allowed, mark, due) = match frame.kind {
            2 => (input, 0, u32_at(row, 24)),
            3 => (input, INPUT_CLOSED, EMPTY),
            4 => (output, 0, u32_at(row, 28)),
            5 => (output, OUTPUT_CLOSED, EMPTY),
            6 => (slot.state & RESPONSE == 0, RESPONSE, u32_at(row, 20)),
            7 => (true, 0, UNREAD),
            _ => (true, CANCELLED, EMPTY),
        };
        if !allowed {
            return Err(14);
        }
        let elements = match frame.kind {
            2 if slot.elements as u16 == u16::MAX => return Err(17),
            2 => slot.elements + 1,
            4 => slot.elements.checked_add(1 << 16).ok_or(17u32)?,
            _ => slot.elements,
        };
        let next = Slot {
            correlation: slot.correlation,
            state: slot.state | mark,
            elements,
        };
        Ok(match frame.kind {
            7 => step(Slot::default(), due, Some(ERRORED)),
            _ if complete(form, next.marks()) => step(Slot::default(), due, Some(COMPLETED)),
            _ => step(next, due, None),
        })
    }

    /// Ends a cancelled call without waiting for its ERROR.
    pub fn release(&mut self, schema: &[u8], correlation: u64, tallies: &mut [Tally]) -> Released {
        let outcome = with(|scratch| {
            let (_, seen) = self.check(scratch, schema, tallies.len())?;
            let at = self.find(&seen, correlation).ok_or(Refusal::of(11))?;
            let slot = self.slots[at];
            if slot.state & CANCELLED == 0 {
                return Err(Refusal::of(14));
            }
            let row = &mut tallies[slot.method()];
            if row.is_full(ENDED_CANCELLED) {
                return Err(Refusal::of(18));
            }
            row.0[ENDED_CANCELLED] += 1;
            self.slots[at] = Slot::default();
            Ok(())
        });
        Released {
            outcome,
            open: self.open_count(),
        }
    }
}
