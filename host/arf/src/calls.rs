//! The calls of a connection, and what a frame does to them.

use crate::refusal::answer;
use crate::{ffi, Reading, Refusal, Tally, SLOTS};

/// The record of one slot. A free slot is zero in every member.
#[derive(Clone, Copy, Debug, Default, PartialEq, Eq)]
pub struct Call {
    /// The slot holds a call.
    pub open: bool,
    /// The number of the call.
    pub correlation: u64,
    /// The number of the method entry.
    pub method: u32,
    /// RESPONSE was accepted.
    pub response: bool,
    /// IN_CLOSE was accepted.
    pub input_closed: bool,
    /// OUT_CLOSE was accepted.
    pub output_closed: bool,
    /// CANCEL was accepted: the call stays open until the server's ERROR or a
    /// [release](CallTable::release).
    pub cancelled: bool,
    /// How many elements of the input stream were accepted.
    pub input_elements: u16,
    /// How many elements of the output stream were accepted.
    pub output_elements: u16,
}

impl Call {
    fn cells(&self) -> [u64; 3] {
        let marks = u64::from(self.open)
            | u64::from(self.response) << 1
            | u64::from(self.input_closed) << 2
            | u64::from(self.output_closed) << 3
            | u64::from(self.cancelled) << 4
            | u64::from(self.input_elements) << 5
            | u64::from(self.output_elements) << 21;
        [self.correlation, self.method.into(), marks]
    }

    fn from_cells([correlation, method, marks]: [u64; 3]) -> Call {
        Call {
            open: marks & 1 != 0,
            correlation,
            method: method as u32,
            response: marks & 2 != 0,
            input_closed: marks & 4 != 0,
            output_closed: marks & 8 != 0,
            cancelled: marks & 16 != 0,
            input_elements: (marks >> 5) as u16,
            output_elements: (marks >> 21) as u16,
        }
    }
}

/// The calls of one connection, as the library reads and writes them.
#[derive(Clone, Copy, Debug, PartialEq, Eq)]
pub struct CallTable {
    cells: [[u64; 3]; SLOTS],
}

impl Default for CallTable {
    fn default() -> Self {
        CallTable::fresh()
    }
}

/// What became of a frame.
#[derive(Clone, Copy, Debug, PartialEq, Eq)]
pub enum Outcome {
    /// Accepted; a frame without a value has a reading of zeros.
    Accepted(Reading),
    /// The frame is not whole yet.
    More,
    /// Refused.
    Refused(Refusal),
}

/// The answer to a frame.
#[derive(Clone, Copy, Debug, PartialEq, Eq)]
pub struct Received {
    /// What became of it.
    pub outcome: Outcome,
    /// How many bytes were used: the frame's length, or 0.
    pub used: usize,
    /// How many calls are open afterwards.
    pub open: usize,
}

/// The answer to a release.
#[derive(Clone, Copy, Debug, PartialEq, Eq)]
pub struct Released {
    /// Released, or why not.
    pub outcome: Result<(), Refusal>,
    /// How many calls are open afterwards.
    pub open: usize,
}

impl CallTable {
    /// The table of a new connection: all slots free.
    pub fn fresh() -> Self {
        CallTable {
            cells: [[0; 3]; SLOTS],
        }
    }

    /// The table with these records.
    pub fn from_calls(calls: &[Call; SLOTS]) -> Self {
        CallTable {
            cells: calls.map(|call| call.cells()),
        }
    }

    /// The records.
    pub fn calls(&self) -> [Call; SLOTS] {
        self.cells.map(Call::from_cells)
    }

    /// Judges the first frame of the bytes, from a side (the byte C or S). The
    /// table changes only by what the frame does to its own call, and of the
    /// tallies, one row for each method, at most one figure of that call's
    /// method rises by one. Each record counts the stream elements accepted.
    ///
    /// ```
    /// use arf::{CallTable, Header, Outcome, Tally};
    ///
    /// // uint8, a struct with one such field, and a method that takes and gives it.
    /// let words = [
    ///     6u32, 0, 0, 16, 0, 1, 0, 0, 1, 2, 3, 12, 1, 1, u32::MAX, u32::MAX, 24, 32, 64, 1,
    /// ];
    /// let schema: Vec<u8> = words.iter().flat_map(|word| word.to_le_bytes()).collect();
    /// let mut header = Header { kind: 1, package: 1, service: 2, method: 3, correlation: 9 };
    /// let (mut frame, mut sheet) = ([0; 28], [0; 8]);
    /// let mut table = CallTable::fresh();
    /// // One row for each method.
    /// let mut tallies = [Tally::default()];
    ///
    /// arf::write_frame(&header, &[0x01, 0x07], &mut frame).unwrap();
    /// let received = table.receive(&schema, b'C', &frame, &mut sheet, &mut tallies);
    /// assert!(matches!(received.outcome, Outcome::Accepted(reading) if reading.rows == 2));
    /// assert_eq!((received.used, received.open), (28, 1));
    ///
    /// // The response ends the call.
    /// header.kind = 6;
    /// arf::write_frame(&header, &[0x01, 0x07], &mut frame).unwrap();
    /// let received = table.receive(&schema, b'S', &frame, &mut sheet, &mut tallies);
    /// assert_eq!((received.used, received.open), (28, 0));
    /// assert_eq!(table, CallTable::fresh());
    /// assert_eq!(tallies, [Tally { opened: 1, completed: 1, ..Default::default() }]);
    /// ```
    ///
    /// # Bytes used
    ///
    /// A frame that is accepted, or refused with 8 to 14, 16, 20 to 29 or 31, is
    /// used whole, and the next one starts behind it. For 1 to 7, 15, 17 to 19,
    /// 30 and 40 to 44 `used` is 0 and nothing has changed, so the same call
    /// would give the same answer, and a loop over a byte stream that only goes
    /// on would not end. It has to do something else:
    ///
    /// - 1, which is [`Outcome::More`]: wait for more bytes, and call again
    ///   with these before them.
    /// - 2 to 7: end the connection, since these bytes are no frame and none can
    ///   be found behind them.
    /// - 15, 19, 40 to 44: stop, since the call table, the number of tally rows
    ///   or the schema is at fault and no frame can be judged.
    /// - 17: this stream of the call has had [`MAX_ELEMENTS`](crate::MAX_ELEMENTS) elements and takes
    ///   no more. The frame is whole, and [`read_frame`](crate::read_frame) tells its length: pass
    ///   over it, and let the call end, for example by a CANCEL.
    /// - 18: a figure of the call's method is full. Take the calls that have
    ///   ended out of the rows ([`Tally::take_ended`]), and call again with the
    ///   same bytes.
    /// - 30: call again with a longer sheet.
    ///
    /// ```
    /// use arf::{CallTable, FrameRead, Outcome, Refusal, Tally};
    ///
    /// /// Judges the frames of a buffer and gives the bytes left to wait with.
    /// fn judge(
    ///     table: &mut CallTable,
    ///     schema: &[u8],
    ///     mut buffer: &[u8],
    ///     sheet: &mut Vec<u32>,
    ///     tallies: &mut [Tally],
    /// ) -> Result<usize, Refusal> {
    ///     loop {
    ///         let received = table.receive(schema, b'C', buffer, sheet, tallies);
    ///         match received.outcome {
    ///             Outcome::More => return Ok(buffer.len()),
    ///             Outcome::Refused(refusal) if refusal.number == 30 => {
    ///                 sheet.resize(2 * sheet.len() + 4, 0)
    ///             }
    ///             Outcome::Refused(refusal) if refusal.number == 18 => {
    ///                 let moved = tallies.iter_mut().filter_map(Tally::take_ended);
    ///                 // Longer numbers of the host's own would get these; a row
    ///                 // in which none has ended stays full.
    ///                 if moved.map(|row| row.ended()).sum::<u64>() == 0 {
    ///                     return Err(refusal);
    ///                 }
    ///             }
    ///             Outcome::Refused(refusal) if refusal.number == 17 => {
    ///                 let Ok(FrameRead::Whole { place, length, .. }) = arf::read_frame(buffer)
    ///                 else {
    ///                     return Err(refusal);
    ///                 };
    ///                 buffer = &buffer[place + length..];
    ///             }
    ///             Outcome::Refused(refusal) if received.used == 0 => return Err(refusal),
    ///             _ => buffer = &buffer[received.used..],
    ///         }
    ///     }
    /// }
    ///
    /// // A table with no method, so that every whole frame is 9 and is used.
    /// let schema = [0, 0, 0, 0, 0, 0, 0, 0, 0, 0, 0, 0, 1, 0, 0, 0];
    /// let mut frame = [0; 26];
    /// let header = arf::Header { kind: 1, ..Default::default() };
    /// arf::write_frame(&header, &[], &mut frame).unwrap();
    /// let mut buffer = [frame, frame].concat();
    /// let (mut table, mut sheet) = (CallTable::fresh(), Vec::new());
    /// assert_eq!(judge(&mut table, &schema, &buffer[..40], &mut sheet, &mut []), Ok(14));
    /// buffer[26] = 0;
    /// let refused = judge(&mut table, &schema, &buffer, &mut sheet, &mut []).unwrap_err();
    /// assert_eq!(refused.number, 2);
    /// ```
    pub fn receive(
        &mut self,
        schema: &[u8],
        side: u8,
        bytes: &[u8],
        sheet: &mut [u32],
        tallies: &mut [Tally],
    ) -> Received {
        let table = self.cells.as_flattened_mut();
        let tallies = ffi::tally_cells(tallies);
        let mut cells = [0; 7];
        let number = ffi::receive(table, schema, side, bytes, sheet, tallies, &mut cells);
        let [place, used, rows, tail_place, tail_length, open, comparisons] = cells;
        let reading = Reading::from_cells([rows, tail_place, tail_length, comparisons]);
        let outcome = match answer(number, place, reading) {
            Ok(reading) => Outcome::Accepted(reading),
            Err(_) if number == 1 => Outcome::More,
            Err(refusal) => Outcome::Refused(refusal),
        };
        Received {
            outcome,
            used: used as usize,
            open: open as usize,
        }
    }

    /// Ends a cancelled call, so that its slot and its correlation are free
    /// again, and counts it as cancelled. The schema table's refusals come
    /// first, then 15 for a call table that is not good, 19 for a wrong number of
    /// tally rows, 11 for a call that is not open, 14 for one that is not
    /// cancelled and 18 for a full tally; a refusal changes nothing.
    ///
    /// A call that we cancel stays open, since answers may be on their way: the
    /// server's frames to it are dropped with 16, and its ERROR ends it. Where
    /// none comes, the host releases the call, after a time of its own choice
    /// or when the connection has answered something newer. A frame that still
    /// comes afterwards is 11, or belongs to the next call of that number.
    ///
    /// ```
    /// use arf::{CallTable, Header, Outcome, Tally};
    ///
    /// // uint8, a struct with one such field, and a method that takes and gives it.
    /// let words = [
    ///     6u32, 0, 0, 16, 0, 1, 0, 0, 1, 2, 3, 12, 1, 1, u32::MAX, u32::MAX, 24, 32, 64, 1,
    /// ];
    /// let schema: Vec<u8> = words.iter().flat_map(|word| word.to_le_bytes()).collect();
    /// let (mut table, mut tallies) = (CallTable::fresh(), [Tally::default()]);
    /// let send = |table: &mut CallTable, tallies: &mut [Tally], side, kind, payload: &[u8]| {
    ///     let header = Header { kind, package: 1, service: 2, method: 3, correlation: 9 };
    ///     let mut frame = [0; 28];
    ///     let length = arf::write_frame(&header, payload, &mut frame).unwrap();
    ///     table.receive(&schema, side, &frame[..length], &mut [0; 8], tallies)
    /// };
    ///
    /// send(&mut table, &mut tallies, b'C', 1, &[0x01, 0x07]);
    /// let refused = table.release(&schema, 9, &mut tallies).outcome.unwrap_err();
    /// assert_eq!(refused.number, 14);
    /// assert_eq!(send(&mut table, &mut tallies, b'C', 8, &[]).open, 1);
    /// assert!(table.calls()[0].cancelled);
    ///
    /// // The response crosses our cancel.
    /// let crossing = send(&mut table, &mut tallies, b'S', 6, &[0x01, 0x07]);
    /// assert!(matches!(crossing.outcome, Outcome::Refused(refusal) if refusal.number == 16));
    /// assert_eq!((crossing.used, crossing.open), (28, 1));
    ///
    /// let released = table.release(&schema, 9, &mut tallies);
    /// assert_eq!((released.outcome, released.open), (Ok(()), 0));
    /// assert_eq!(table, CallTable::fresh());
    /// assert_eq!((tallies[0].opened, tallies[0].cancelled), (1, 1));
    /// let refused = table.release(&schema, 9, &mut tallies).outcome.unwrap_err();
    /// assert_eq!(refused.number, 11);
    /// ```
    pub fn release(&mut self, schema: &[u8], correlation: u64, tallies: &mut [Tally]) -> Released {
        let table = self.cells.as_flattened_mut();
        let tallies = ffi::tally_cells(tallies);
        let mut cells = [0; 2];
        let number = ffi::release(table, schema, correlation, tallies, &mut cells);
        let [place, open] = cells;
        Released {
            outcome: answer(number, place, ()),
            open: open as usize,
        }
    }
}
