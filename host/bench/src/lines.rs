//! The entries that are measured, each beside `fast` and the reference on the
//! same input. Before a line is timed every number that the sides answer, every
//! cell and byte that was lent to them, their call tables and their tally rows
//! are held against each other.

use std::hint::black_box;

use reference::tallies::Tally;
use reference::MAX_PAYLOAD;

use crate::answers::{agree, Answer, Told};
use crate::measure::{medians, side, Room};
use crate::samples::{self, Record, Sample};
use crate::CELLS;

/// The names of the sides, as a difference is told.
pub const LIBRARY: &str = "the library";
pub const FAST: &str = "host/fast";
pub const REFERENCE: &str = "host/reference";

/// The median time of one call in nanoseconds: of the library, of `fast` where
/// it has the entry, and of the reference.
pub struct Times {
    pub library: f64,
    pub fast: Option<f64>,
    pub reference: f64,
}

/// What is done with a line: its answers are compared, and then it is timed
/// too.
#[derive(Clone, Copy, PartialEq)]
pub enum Run {
    Compare,
    Time,
}

/// The times, none where the answers are compared alone, or where two sides
/// differ.
pub type Compared<T = Times> = Result<Option<T>, String>;

impl Run {
    /// Times what has been compared.
    pub fn times<T>(self, times: impl FnOnce() -> T) -> Compared<T> {
        Ok((self == Run::Time).then(times))
    }

    /// One call by all three, with so much room.
    fn three<A: Told, B: Told, C: Told>(
        self,
        room: Room,
        library: impl Fn(&mut [u32], &mut [u8]) -> A,
        fast: impl Fn(&mut [u32], &mut [u8]) -> B,
        reference: impl Fn(&mut [u32], &mut [u8]) -> C,
    ) -> Compared {
        agree(&[
            Answer::of(LIBRARY, room, &library),
            Answer::of(FAST, room, &fast),
            Answer::of(REFERENCE, room, &reference),
        ])?;
        self.times(|| {
            let [library, fast, reference] =
                medians([side(room, library), side(room, fast), side(room, reference)]);
            Times {
                library,
                fast: Some(fast),
                reference,
            }
        })
    }

    /// One call by the two that have the entry.
    fn two<A: Told, B: Told>(
        self,
        room: Room,
        library: impl Fn(&mut [u32], &mut [u8]) -> A,
        reference: impl Fn(&mut [u32], &mut [u8]) -> B,
    ) -> Compared {
        agree(&[
            Answer::of(LIBRARY, room, &library),
            Answer::of(REFERENCE, room, &reference),
        ])?;
        self.times(|| {
            let [library, reference] = medians([side(room, library), side(room, reference)]);
            Times {
                library,
                fast: None,
                reference,
            }
        })
    }

    pub fn check_table(self, schema: &[u8]) -> Compared {
        self.three(
            Room::NONE,
            |_, _| arf::check_table(black_box(schema)),
            |_, _| fast::check_table(black_box(schema)),
            |_, _| reference::check_table(black_box(schema)),
        )
    }

    pub fn read(self, sample: &Sample) -> Compared {
        let ty = sample.type_number;
        let input = || black_box((&sample.schema[..], &sample.payload[..]));
        self.three(
            Room::rows(sheet_of(sample).len() / 4),
            |sheet, _| {
                let (schema, payload) = input();
                arf::read(schema, ty, payload, sheet)
            },
            |sheet, _| {
                let (schema, payload) = input();
                fast::read(schema, ty, payload, sheet)
            },
            |sheet, _| {
                let (schema, payload) = input();
                reference::read(schema, ty, payload, sheet)
            },
        )
    }

    /// A payload by the writer's table, shown by ours.
    pub fn read_beside(self, (ours, sample): &(Vec<u8>, Sample)) -> Compared {
        let ty = sample.type_number;
        let input = || black_box((&sample.schema[..], &sample.payload[..]));
        // Ours shows no more rows than theirs.
        self.two(
            Room::rows(sheet_of(sample).len() / 4),
            |sheet, _| {
                let (theirs, payload) = input();
                arf::read_beside(ours, theirs, ty, payload, sheet)
            },
            |sheet, _| {
                let (theirs, payload) = input();
                reference::read_beside(ours, theirs, ty, payload, sheet)
            },
        )
    }

    pub fn write(self, sample: &Sample) -> Compared {
        let (ty, sheet) = (sample.type_number, &sheet_of(sample)[..]);
        let input = || black_box((&sample.schema[..], sheet, &sample.payload[..]));
        self.three(
            Room::output(sample.payload.len()),
            |_, output| {
                let (schema, sheet, payload) = input();
                arf::write(schema, ty, sheet, payload, output)
            },
            |_, output| {
                let (schema, sheet, payload) = input();
                fast::write(schema, ty, sheet, payload, output)
            },
            |_, output| {
                let (schema, sheet, payload) = input();
                reference::write(schema, ty, sheet, payload, output)
            },
        )
    }

    pub fn frame_read(self, sample: &Sample) -> Compared {
        let bytes = &samples::frame(1, 9, &sample.payload)[..];
        self.three(
            Room::NONE,
            |_, _| arf::read_frame(black_box(bytes)),
            |_, _| fast::read_frame(black_box(bytes)),
            |_, _| reference::read_frame(black_box(bytes)),
        )
    }

    pub fn frame_write(self, sample: &Sample) -> Compared {
        let payload = &sample.payload[..];
        let (quick, theirs) = (quick_header(), their_header());
        self.three(
            Room::output(samples::frame(1, 9, payload).len()),
            |_, output| arf::write_frame(black_box(&INVOKE), black_box(payload), output),
            |_, output| fast::write_frame(black_box(&quick), black_box(payload), output),
            |_, output| reference::write_frame(black_box(&theirs), black_box(payload), output),
        )
    }

    /// One frame. Each call starts from a copy of the same call table.
    pub fn receive(self, arrival: &Arrival) -> Compared {
        let (schema, bytes) = (&arrival.schema[..], &arrival.bytes[..]);
        let start = Connections::new(schema, &arrival.open);
        let room = Room::rows(start.clone().receive(b'C', bytes, Room::rows(MOST_ROWS))?);
        start.clone().receive(b'C', bytes, room)?;
        let Connections {
            library: (ours, mut rows),
            fast: (quick, mut quick_rows),
            reference: (theirs, mut their_rows),
            ..
        } = start;
        self.times(|| {
            let [library, fast, reference] = medians([
                side(room, |sheet, _| {
                    let mut table = black_box(ours);
                    table.receive(schema, b'C', black_box(bytes), sheet, &mut rows)
                }),
                side(room, |sheet, _| {
                    let mut table = black_box(quick);
                    table.receive(schema, b'C', black_box(bytes), sheet, &mut quick_rows)
                }),
                side(room, |sheet, _| {
                    let mut table = black_box(theirs);
                    table.receive(schema, &mut their_rows, b'C', black_box(bytes), sheet)
                }),
            ]);
            Times {
                library,
                fast: Some(fast),
                reference,
            }
        })
    }

    pub fn salvage(self, record: &Record) -> Compared {
        let bytes = &record.bytes[..];
        let room = Room {
            cells: arf::SPAN_CELLS,
            bytes: bytes.len(),
        };
        self.two(
            room,
            |spans, copy| arf::salvage(black_box(bytes), copy, spans),
            |spans, copy| reference::salvage(black_box(bytes), copy, spans),
        )
    }

    /// One write for a whole frame, beside the library's value writer and frame
    /// writer in turn. `said`: the root's row has the payload's length, as a
    /// sheet that was read has; otherwise 0, since no writer goes by it.
    pub fn value_frame(self, sample: &Sample, said: bool) -> Compared<[f64; 2]> {
        let (ty, mut sheet) = (sample.type_number, sheet_of(sample));
        if !said {
            sheet[2] = 0;
        }
        let input = || black_box((&sample.schema[..], &sheet[..], &sample.payload[..]));
        let room = Room::output(samples::frame(1, 9, &sample.payload).len());
        let between = &mut vec![0; MAX_PAYLOAD];
        let at_once = |_: &mut [u32], output: &mut [u8]| {
            let (schema, sheet, payload) = input();
            arf::write_value_frame(black_box(&INVOKE), schema, ty, sheet, payload, output)
        };
        let mut in_turn = |_: &mut [u32], output: &mut [u8]| {
            let (schema, sheet, payload) = input();
            let length = arf::write(schema, ty, sheet, payload, between)?;
            arf::write_frame(black_box(&INVOKE), &between[..length], output)
        };
        agree(&[
            Answer::of(LIBRARY, room, at_once),
            Answer::of("the library's two in turn", room, &mut in_turn),
            Answer::of("the two of host/fast in turn", room, |_, output| {
                let (schema, sheet, payload) = input();
                let mut between = vec![0; MAX_PAYLOAD];
                let length = fast::write(schema, ty, sheet, payload, &mut between);
                let length = length.map_err(|refusal| refusal.number)?;
                fast::write_frame(&quick_header(), &between[..length], output)
            }),
            Answer::of(REFERENCE, room, |_, output| {
                let (schema, sheet, payload) = input();
                reference::write_value_frame(&their_header(), schema, ty, sheet, payload, output)
            }),
        ])?;
        self.times(|| medians([side(room, at_once), side(room, in_turn)]))
    }
}

/// The most rows that a payload shows.
const MOST_ROWS: usize = CELLS / 4;

/// The rows that the reader shows.
pub fn sheet_of(sample: &Sample) -> Vec<u32> {
    let mut sheet = vec![0; CELLS];
    let (schema, payload) = (&sample.schema[..], &sample.payload[..]);
    let reading = reference::read(schema, sample.type_number, payload, &mut sheet);
    sheet.truncate(4 * reading.expect("the payload is right").rows);
    sheet
}

/// The header of INVOKE for the method 1, 2, 3.
pub const INVOKE: arf::Header = arf::Header {
    kind: 1,
    package: 1,
    service: 2,
    method: 3,
    correlation: 9,
};

fn quick_header() -> fast::Header {
    fast::Header {
        kind: INVOKE.kind,
        identifiers: [INVOKE.package, INVOKE.service, INVOKE.method],
        correlation: INVOKE.correlation,
    }
}

fn their_header() -> reference::Header {
    reference::Header {
        kind: INVOKE.kind,
        identifiers: [INVOKE.package, INVOKE.service, INVOKE.method],
        correlation: INVOKE.correlation,
    }
}

/// A frame of the client, and the call table that it meets.
pub struct Arrival {
    pub schema: Vec<u8>,
    pub bytes: Vec<u8>,
    /// The correlations of the calls that are open, from the lowest slot on.
    pub open: Vec<u64>,
}

/// One connection as each side has it: call table and tally rows.
#[derive(Clone)]
pub struct Connections<'a> {
    pub schema: &'a [u8],
    pub library: (arf::CallTable, Vec<arf::Tally>),
    pub fast: (fast::CallTable, Vec<fast::Tally>),
    pub reference: (reference::CallTable, Vec<Tally>),
}

impl<'a> Connections<'a> {
    /// Calls of the first method are open, and each figure of the tally rows is
    /// another number.
    pub fn new(schema: &'a [u8], open: &[u64]) -> Self {
        let mut ours = [arf::Call::default(); arf::SLOTS];
        let mut quick = [fast::Call::default(); fast::SLOTS];
        let mut theirs = reference::CallTable::fresh();
        for (slot, &correlation) in open.iter().enumerate() {
            (ours[slot].open, ours[slot].correlation) = (true, correlation);
            (quick[slot].open, quick[slot].correlation) = (true, correlation);
            (theirs.slots[slot].open, theirs.slots[slot].correlation) = (true, correlation);
        }
        let methods = reference::tallies::fresh(schema).len() as u32;
        let figures = (0..methods).map(|method| [1, 2, 3, 4, 5].map(|figure| 5 * method + figure));
        let rows = figures.clone().map(|figures| {
            let [opened, completed, errored, cancelled, failed] = figures;
            arf::Tally {
                opened,
                completed,
                errored,
                cancelled,
                failed,
            }
        });
        Connections {
            schema,
            library: (arf::CallTable::from_calls(&ours), rows.collect()),
            fast: (
                fast::CallTable::from_calls(&quick),
                figures.clone().map(fast::Tally).collect(),
            ),
            reference: (theirs, figures.map(Tally::from_figures).collect()),
        }
    }

    /// Judges a frame on every side, and gives how many rows are shown.
    pub fn receive(&mut self, from: u8, bytes: &[u8], room: Room) -> Result<usize, String> {
        let (schema, mut shown) = (self.schema, 0);
        let (table, rows) = &mut self.library;
        let ours = Answer::of(LIBRARY, room, |sheet, _| {
            table.receive(schema, from, bytes, sheet, rows)
        });
        let calls = table.calls();
        if arf::CallTable::from_calls(&calls) != *table {
            return Err(format!("{LIBRARY} has a call table of no records"));
        }
        let ours = ours.with("call table", &calls);
        let ours = ours.with("tally rows", rows);
        let (table, rows) = &mut self.fast;
        let quick = Answer::of(FAST, room, |sheet, _| {
            table.receive(schema, from, bytes, sheet, rows)
        });
        let quick = quick.with("call table", &table.calls());
        let quick = quick.with("tally rows", rows);
        let (table, rows) = &mut self.reference;
        let theirs = Answer::of(REFERENCE, room, |sheet, _| {
            let received = table.receive(schema, rows, from, bytes, sheet);
            shown = received.reading().rows;
            received
        });
        let theirs = theirs.with("call table", &table.slots);
        let theirs = theirs.with("tally rows", rows);
        agree(&[ours, quick, theirs])?;
        Ok(shown)
    }
}
