//! The calls of a connection with their schema, and what to do next after each
//! frame.

use crate::{
    read_frame, Call, CallTable, FrameRead, Header, Outcome, Reading, Refusal, Schema, Side, Tally,
    MAX_METHODS,
};
use core::ops::Range;

/// The calls of one connection under one schema, with a tally row for each
/// method.
///
/// Frames of both sides go through it, in their order: those that come, and
/// those that the host itself sends. A client that did not hand over its own
/// INVOKE gets 11 for the answer to it.
///
/// [`receive`](Calls::receive) judges the first frame of the bytes at hand and
/// says what to do next. A loop over a byte stream, whole:
///
/// ```
/// use arf::{Calls, Reason, Refusal, Schema, Side, Step};
/// use std::io::{self, Read};
///
/// /// Judges all frames of a stream, and gives how many there were.
/// fn follow(schema: Schema, stream: &mut impl Read) -> io::Result<Result<usize, Refusal>> {
///     let mut calls = Calls::new(schema);
///     let mut sheet = vec![0; 64];
///     let (mut buffer, mut count) = (Vec::new(), 0);
///     loop {
///         match calls.receive(Side::Client, &buffer, &mut sheet) {
///             // A whole frame, accepted or refused; the next one starts behind it.
///             Step::Frame(frame) => {
///                 count += 1;
///                 if let Ok(reading) = frame.outcome {
///                     let payload = &buffer[frame.payload];
///                     let value = schema.shown(payload, &sheet, reading);
///                     assert_eq!(value.rows().count(), reading.rows);
///                 }
///                 buffer.drain(..frame.used);
///             }
///             // In all that follows nothing was used, and nothing has changed. Here more
///             // bytes have to come first.
///             Step::More => {
///                 let mut more = [0; 512];
///                 match stream.read(&mut more)? {
///                     0 => return Ok(Ok(count)),
///                     n => buffer.extend(&more[..n]),
///                 }
///             }
///             Step::Stopped { refusal, whole } => match (refusal.reason(), whole) {
///                 // The value needs a longer sheet.
///                 (Some(Reason::SheetTooShort), _) => sheet.resize(2 * sheet.len(), 0),
///                 // The stream of this call has had all the elements it may have: pass
///                 // over this one, and cancel the call.
///                 (Some(Reason::TooManyElements), Some(length)) => {
///                     buffer.drain(..length);
///                 }
///                 // A tally is full: the calls that have ended go to numbers of our own.
///                 (Some(Reason::TallyFull), _) if calls.take_ended(|_, _| ()) > 0 => {}
///                 // The same bytes would give the same answer: the connection ends.
///                 _ => return Ok(Err(refusal)),
///             },
///         }
///     }
/// }
///
/// // uint8, a struct with one such field, and a method that takes and gives it.
/// let words = [
///     6u32, 0, 0, 16, 0, 1, 0, 0, 1, 2, 3, 12, 1, 1, u32::MAX, u32::MAX, 24, 32, 64, 1,
/// ];
/// let bytes: Vec<u8> = words.iter().flat_map(|word| word.to_le_bytes()).collect();
/// let schema = Schema::new(&bytes).unwrap();
/// let header = arf::Header { kind: 1, package: 1, service: 2, method: 3, correlation: 9 };
/// let mut stream = [0; 28];
/// arf::write_frame(&header, &[0x01, 0x07], &mut stream).unwrap();
/// assert_eq!(follow(schema, &mut &stream[..]).unwrap(), Ok(1));
/// assert_eq!(follow(schema, &mut &[0; 9][..]).unwrap().unwrap_err().number, 2);
/// ```
///
/// With a sheet of [`MAX_SHEET`](crate::MAX_SHEET) cells the sheet is never too
/// short. A `Calls` itself takes some 8 KiB: where a thread has little more
/// stack than [`STACK`](crate::STACK), keep it on the heap.
#[derive(Clone, Debug, PartialEq, Eq)]
pub struct Calls<'a> {
    schema: Schema<'a>,
    table: CallTable,
    tallies: [Tally; MAX_METHODS],
}

/// What became of the bytes at hand.
#[derive(Clone, Debug, PartialEq, Eq)]
pub enum Step {
    /// A whole frame: the next one starts [`used`](Frame::used) bytes on.
    Frame(Frame),
    /// The first frame is not whole: call again with more bytes behind these.
    More,
    /// No byte was used, and nothing has changed; the same call would give the
    /// same answer.
    ///
    /// - 2 to 7: these bytes are no frame, and none can be found behind them.
    ///   End the connection.
    /// - 17: the stream of the call takes no more elements. Pass over the frame,
    ///   and let the call end, for example by a CANCEL.
    /// - 18: a figure of the method is full. Call again after
    ///   [`take_ended`](Calls::take_ended).
    /// - 30: call again with a longer sheet.
    ///
    /// 15, 19 and 40 to 44 do not happen here, where the schema, the table and
    /// the number of tally rows are known to be right.
    Stopped {
        /// Why.
        refusal: Refusal,
        /// The length of the frame where it is whole, as for 17, 18 and 30.
        whole: Option<usize>,
    },
}

/// A whole frame that was judged.
#[derive(Clone, Debug, PartialEq, Eq)]
pub struct Frame {
    /// Its header.
    pub header: Header,
    /// Where its payload is in the bytes.
    pub payload: Range<usize>,
    /// Accepted, with the reading of its payload, which is all zeros for a
    /// frame without a value; or why it was refused. A payload refusal, 20 to 29
    /// or 31, has ended the call; no other one has changed anything.
    pub outcome: Result<Reading, Refusal>,
    /// How many bytes it has.
    pub used: usize,
    /// How many calls are open after it.
    pub open: usize,
}

impl<'a> Calls<'a> {
    /// A new connection: no call is open, and all tallies are 0.
    pub fn new(schema: Schema<'a>) -> Calls<'a> {
        Calls {
            schema,
            table: CallTable::fresh(),
            tallies: [Tally::ZERO; MAX_METHODS],
        }
    }

    /// The schema.
    pub fn schema(&self) -> Schema<'a> {
        self.schema
    }

    /// The call table.
    pub fn table(&self) -> &CallTable {
        &self.table
    }

    /// The call that is open under a correlation.
    ///
    /// ```
    /// # let words = [0u32, 0, 0, 1];
    /// # let bytes: Vec<u8> = words.iter().flat_map(|word| word.to_le_bytes()).collect();
    /// let calls = arf::Calls::new(arf::Schema::new(&bytes)?);
    /// assert_eq!(calls.call(9), None);
    /// # Ok::<(), arf::Refusal>(())
    /// ```
    pub fn call(&self, correlation: u64) -> Option<Call> {
        self.open_calls()
            .find(|call| call.correlation == correlation)
    }

    /// The calls that are open, those cancelled and not yet ended too.
    pub fn open_calls(&self) -> impl Iterator<Item = Call> {
        self.table.calls().into_iter().filter(|call| call.open)
    }

    /// The tallies, one row for each method of the schema in its order.
    pub fn tallies(&self) -> &[Tally] {
        &self.tallies[..self.rows()]
    }

    fn rows(&self) -> usize {
        self.schema.methods().len().min(MAX_METHODS)
    }

    /// Takes the calls that have ended out of the tallies, hands each row with
    /// its method's number to the host, which adds it to longer numbers of its
    /// own, and gives how many calls that were. The calls that are open stay
    /// counted as opened. After 18, call [`receive`](Calls::receive) again with
    /// the same bytes.
    ///
    /// ```
    /// # let none = u32::MAX;
    /// # let words = [1, 2, 3, 0, none, none, none, none, 0, 0, 32, 1];
    /// # let bytes: Vec<u8> = words.iter().flat_map(|word| word.to_le_bytes()).collect();
    /// use arf::{Calls, FrameKind, Schema, Step, Tally};
    ///
    /// // A method that neither takes nor gives a value.
    /// let schema = Schema::new(&bytes)?;
    /// let method = schema.method(1, 2, 3).unwrap();
    /// let mut calls = Calls::new(schema);
    /// for kind in [FrameKind::Invoke, FrameKind::Response] {
    ///     let mut frame = [0; 26];
    ///     arf::write_frame(&method.header(kind, 9), &[], &mut frame)?;
    ///     let Step::Frame(frame) = calls.receive(kind.side(), &frame, &mut []) else {
    ///         panic!("the frame is whole");
    ///     };
    ///     assert!(frame.outcome.is_ok());
    /// }
    /// assert_eq!(calls.tallies(), [Tally { opened: 1, completed: 1, ..Tally::ZERO }]);
    ///
    /// let mut completed = 0u64;
    /// let ended = calls.take_ended(|_, row| completed += u64::from(row.completed));
    /// assert_eq!((ended, completed), (1, 1));
    /// assert_eq!(calls.tallies(), [Tally::ZERO]);
    /// # Ok::<(), arf::Refusal>(())
    /// ```
    pub fn take_ended(&mut self, mut add: impl FnMut(u32, Tally)) -> u64 {
        let rows = self.rows();
        let mut ended = 0;
        for (method, row) in (0..).zip(&mut self.tallies[..rows]) {
            if let Some(row) = row.take_ended() {
                ended += row.ended();
                add(method, row);
            }
        }
        ended
    }

    /// Judges the first frame of the bytes, from a side, and shows its payload
    /// on the sheet.
    pub fn receive(&mut self, side: Side, bytes: &[u8], sheet: &mut [u32]) -> Step {
        let rows = self.rows();
        let (schema, tallies) = (self.schema.bytes(), &mut self.tallies[..rows]);
        let received = self
            .table
            .receive(schema, side.into(), bytes, sheet, tallies);
        let outcome = match received.outcome {
            Outcome::More => return Step::More,
            Outcome::Accepted(reading) => Ok(reading),
            Outcome::Refused(refusal) => Err(refusal),
        };
        let whole = match read_frame(bytes) {
            Ok(FrameRead::Whole {
                header,
                place,
                length,
            }) => Some((header, place..place + length)),
            _ => None,
        };
        match (outcome, whole) {
            (outcome, Some((header, payload))) if received.used > 0 => Step::Frame(Frame {
                header,
                payload,
                outcome,
                used: received.used,
                open: received.open,
            }),
            (Err(refusal), whole) => Step::Stopped {
                refusal,
                whole: whole.map(|(_, payload)| payload.end),
            },
            // An accepted frame is whole.
            (Ok(_), _) => Step::More,
        }
    }

    /// Ends a cancelled call, as [`CallTable::release`] does, and gives how many
    /// calls are open afterwards.
    pub fn release(&mut self, correlation: u64) -> Result<usize, Refusal> {
        let rows = self.rows();
        let (schema, tallies) = (self.schema.bytes(), &mut self.tallies[..rows]);
        let released = self.table.release(schema, correlation, tallies);
        released.outcome.map(|()| released.open)
    }
}
