//! The parts a case is made of: numbers, lengths with bytes, call tables, sums
//! and lines.

use std::fmt::Write;

use crate::calls::{Call, CallTable, SLOTS};
use crate::frame::Header;
use crate::tallies::Tally;

/// The most a case may ask for.
pub const MAX_BYTES: usize = 70_000;
pub const MAX_CELLS: usize = 70_000;
pub const MAX_OUTPUT: usize = 140_000;
pub const MAX_FRAMES: usize = 1_000;
pub const MAX_TALLIES: usize = 2_100;

/// A frame and the side byte it comes with.
pub type Sent = (u8, Vec<u8>);

/// What happens to a connection: a frame comes, or a call is released.
#[derive(Clone, Debug, PartialEq, Eq)]
pub enum Event {
    Frame(Sent),
    Release(u64),
}

/// Takes parts off the front of a case file; none where it is cut.
pub struct Input<'a> {
    bytes: &'a [u8],
}

impl<'a> Input<'a> {
    pub fn new(bytes: &'a [u8]) -> Self {
        Input { bytes }
    }

    pub fn is_empty(&self) -> bool {
        self.bytes.is_empty()
    }

    fn take<const N: usize>(&mut self) -> Option<[u8; N]> {
        let (front, rest) = self.bytes.split_first_chunk::<N>()?;
        self.bytes = rest;
        Some(*front)
    }

    pub fn u8(&mut self) -> Option<u8> {
        self.take::<1>().map(|[byte]| byte)
    }

    pub fn u16(&mut self) -> Option<u16> {
        self.take().map(u16::from_le_bytes)
    }

    pub fn u32(&mut self) -> Option<u32> {
        self.take().map(u32::from_le_bytes)
    }

    pub fn u64(&mut self) -> Option<u64> {
        self.take().map(u64::from_le_bytes)
    }

    pub fn u32s<const N: usize>(&mut self) -> Option<[u32; N]> {
        let mut words = [0; N];
        for word in &mut words {
            *word = self.u32()?;
        }
        Some(words)
    }

    /// A u32 that may not be above a limit.
    pub fn limited(&mut self, limit: usize) -> Option<usize> {
        let number = self.u32()? as usize;
        (number <= limit).then_some(number)
    }

    pub fn bytes(&mut self) -> Option<Vec<u8>> {
        let length = self.limited(MAX_BYTES)?;
        let (front, rest) = self.bytes.split_at_checked(length)?;
        self.bytes = rest;
        Some(front.to_vec())
    }

    pub fn sheet(&mut self) -> Option<Vec<u32>> {
        let cells = self.limited(MAX_CELLS)?;
        (0..cells).map(|_| self.u32()).collect()
    }

    pub fn frames(&mut self) -> Option<Vec<Sent>> {
        let frames = self.limited(MAX_FRAMES)?;
        let frame = |_| Some((self.u8()?, self.bytes()?));
        (0..frames).map(frame).collect()
    }

    pub fn events(&mut self) -> Option<Vec<Event>> {
        let events = self.limited(MAX_FRAMES)?;
        let event = |_| match self.u8()? {
            0 => Some(Event::Frame((self.u8()?, self.bytes()?))),
            1 => Some(Event::Release(self.u64()?)),
            _ => None,
        };
        (0..events).map(event).collect()
    }

    pub fn header(&mut self) -> Option<Header> {
        Some(Header {
            kind: self.u32()?,
            identifiers: self.u32s()?,
            correlation: self.u64()?,
        })
    }

    pub fn tallies(&mut self) -> Option<Vec<Tally>> {
        let rows = self.limited(MAX_TALLIES)?;
        let row = |_| self.u32s().map(Tally::from_figures);
        (0..rows).map(row).collect()
    }

    fn mark(&mut self) -> Option<bool> {
        self.u8().map(|byte| byte != 0)
    }

    pub fn call_table(&mut self) -> Option<Box<CallTable>> {
        let mut table = Box::new(CallTable::fresh());
        for slot in &mut table.slots {
            *slot = Call {
                open: self.mark()?,
                correlation: self.u64()?,
                method: self.u32()?,
                response: self.mark()?,
                input_closed: self.mark()?,
                output_closed: self.mark()?,
                cancelled: self.mark()?,
                input_elements: self.u16()?,
                output_elements: self.u16()?,
            };
        }
        Some(table)
    }
}

pub fn put_words(out: &mut Vec<u8>, words: &[u32]) {
    out.extend(words.iter().flat_map(|word| word.to_le_bytes()));
}

pub fn put_bytes(out: &mut Vec<u8>, bytes: &[u8]) {
    put_words(out, &[bytes.len() as u32]);
    out.extend(bytes);
}

pub fn put_sheet(out: &mut Vec<u8>, sheet: &[u32]) {
    put_words(out, &[sheet.len() as u32]);
    put_words(out, sheet);
}

pub fn put_header(out: &mut Vec<u8>, header: &Header) {
    put_words(out, &[header.kind]);
    put_words(out, &header.identifiers);
    out.extend(header.correlation.to_le_bytes());
}

pub fn put_call_table(out: &mut Vec<u8>, table: &CallTable) {
    for call in &table.slots {
        out.push(call.open.into());
        out.extend(call.correlation.to_le_bytes());
        out.extend(call.method.to_le_bytes());
        out.push(call.response.into());
        out.push(call.input_closed.into());
        out.push(call.output_closed.into());
        out.push(call.cancelled.into());
        out.extend(call.input_elements.to_le_bytes());
        out.extend(call.output_elements.to_le_bytes());
    }
}

/// The rows of tallies, without their number.
fn put_tally_rows(out: &mut Vec<u8>, tallies: &[Tally]) {
    for tally in tallies {
        put_words(out, &tally.figures());
    }
}

pub fn put_tallies(out: &mut Vec<u8>, tallies: &[Tally]) {
    put_words(out, &[tallies.len() as u32]);
    put_tally_rows(out, tallies);
}

/// The sum over a lent buffer: FNV-1a of 64 bits.
pub fn sum(bytes: impl IntoIterator<Item = u8>) -> u64 {
    let step = |hash: u64, byte| (hash ^ u64::from(byte)).wrapping_mul(1_099_511_628_211);
    bytes.into_iter().fold(14_695_981_039_346_656_037, step)
}

pub fn sheet_sum(sheet: &[u32]) -> u64 {
    sum(sheet.iter().flat_map(|cell| cell.to_le_bytes()))
}

pub fn call_table_sum(table: &CallTable) -> u64 {
    let mut bytes = Vec::with_capacity(21 * SLOTS);
    put_call_table(&mut bytes, table);
    sum(bytes)
}

pub fn tally_sum(tallies: &[Tally]) -> u64 {
    let mut bytes = Vec::with_capacity(20 * tallies.len());
    put_tally_rows(&mut bytes, tallies);
    sum(bytes)
}

/// A line of numbers with single blanks between.
pub fn line(text: &mut String, numbers: &[u64]) {
    for (index, number) in numbers.iter().enumerate() {
        let blank = if index == 0 { "" } else { " " };
        let _ = write!(text, "{blank}{number}");
    }
    text.push('\n');
}
