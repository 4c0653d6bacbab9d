//! Times calls side by side.

use std::hint::black_box;
use std::time::{Duration, Instant};

/// How many rounds the median is taken of. Each round times every side.
const ROUNDS: usize = 201;

/// How long one side of a round runs at least, in nanoseconds: short, so that most rounds are
/// not interrupted by other work on the machine.
const ROUND: f64 = 300_000.0;

/// How many bytes the buffers of a side have together, unless one call needs
/// more.
const BUFFERS: usize = 1 << 18;

/// What is lent to one call: so many cells of a sheet, and so many bytes of an
/// output.
#[derive(Clone, Copy, Default)]
pub struct Room {
    pub cells: usize,
    pub bytes: usize,
}

impl Room {
    /// Nothing is lent.
    pub const NONE: Room = Room { cells: 0, bytes: 0 };

    /// A sheet of so many rows, and four that stay as they were.
    pub const fn rows(rows: usize) -> Room {
        let cells = 4 * (rows + 4);
        Room { cells, bytes: 0 }
    }

    /// An output of so many bytes, and 16 that stay as they were.
    pub const fn output(length: usize) -> Room {
        let bytes = length + 16;
        Room { cells: 0, bytes }
    }
}

/// A sheet and an output for each of several calls.
struct Buffers {
    room: Room,
    sheets: Vec<u32>,
    outputs: Vec<u8>,
}

impl Buffers {
    /// As many as there is memory for. Each has a cell and a byte at least, so
    /// that they can be told apart.
    fn new(room: Room) -> Self {
        let room = Room {
            cells: room.cells.max(1),
            bytes: room.bytes.max(1),
        };
        let count = (BUFFERS / (4 * room.cells + room.bytes)).max(1);
        Buffers {
            room,
            sheets: vec![0; count * room.cells],
            outputs: vec![0; count * room.bytes],
        }
    }

    fn count(&self) -> usize {
        self.outputs.len() / self.room.bytes
    }

    fn clear(&mut self) {
        self.sheets.fill(0);
        self.outputs.fill(0);
    }

    fn each(&mut self) -> impl Iterator<Item = (&mut [u32], &mut [u8])> {
        let sheets = self.sheets.chunks_exact_mut(self.room.cells);
        sheets.zip(self.outputs.chunks_exact_mut(self.room.bytes))
    }
}

/// One implementation's call, ready to be timed: it runs so many calls and
/// gives the nanoseconds of one.
pub struct Side<'a>(Box<dyn FnMut(u32) -> f64 + 'a>);

/// A call as a side. Every call finds its sheet and its output cleared: they
/// are used one after the other, and all are cleared, outside the time that is
/// taken, before the first is used again.
pub fn side<'a, A>(room: Room, mut call: impl FnMut(&mut [u32], &mut [u8]) -> A + 'a) -> Side<'a> {
    let mut buffers = Buffers::new(room);
    let count = buffers.count();
    let mut run = move |calls: usize| {
        buffers.clear();
        let start = Instant::now();
        for (sheet, output) in buffers.each().take(calls) {
            black_box(call(sheet, output));
        }
        start.elapsed()
    };
    Side(Box::new(move |calls| {
        // The first call of a round is not timed.
        run(1);
        let (mut time, mut left) = (Duration::ZERO, calls as usize);
        while left > 0 {
            let now = left.min(count);
            time += run(now);
            left -= now;
        }
        time.as_nanos() as f64 / f64::from(calls)
    }))
}

impl Side<'_> {
    /// So many calls that a round is long enough for the clock.
    fn calls_a_round(&mut self) -> u32 {
        let mut calls = 1;
        while self.0(calls) * f64::from(calls) < ROUND {
            calls *= 2;
        }
        calls
    }
}

/// The median time of one call of each side, in nanoseconds. The sides run by
/// turns.
pub fn medians<const N: usize>(mut sides: [Side; N]) -> [f64; N] {
    let calls = sides.each_mut().map(Side::calls_a_round);
    by_turns(ROUNDS, |side| sides[side].0(calls[side]))
}

/// The median of each side's rounds, of which the sides run one each by turns.
pub fn by_turns<const N: usize>(rounds: usize, mut round: impl FnMut(usize) -> f64) -> [f64; N] {
    let mut times = [const { Vec::new() }; N];
    for _ in 0..rounds {
        for (side, times) in times.iter_mut().enumerate() {
            times.push(round(side));
        }
    }
    times.map(median)
}

fn median(mut times: Vec<f64>) -> f64 {
    times.sort_by(f64::total_cmp);
    times[times.len() / 2]
}

#[cfg(test)]
mod tests {
    use super::*;

    /// Whatever a call leaves behind, the next one finds zeros, over two rounds
    /// of more calls than there are buffers.
    #[test]
    fn every_call_finds_zeros() {
        for room in [Room::rows(3), Room::rows(16_384), Room::output(16_384)] {
            let calls = 2 * Buffers::new(room).count() + 1;
            let mut done = 0;
            let mut side = side(room, |sheet, output| {
                assert!(sheet.iter().all(|cell| *cell == 0));
                assert!(output.iter().all(|byte| *byte == 0));
                sheet.fill(7);
                output.fill(7);
                done += 1;
            });
            for _ in 0..2 {
                side.0(calls as u32);
            }
            drop(side);
            assert_eq!(done, 2 * (1 + calls));
        }
    }

    #[test]
    fn sides_run_by_turns() {
        let mut order = Vec::new();
        let medians = by_turns(3, |side| {
            order.push(side);
            [5.0, 9.0, 1.0, 8.0, 4.0, 7.0][order.len() - 1]
        });
        assert_eq!(order, [0, 1, 0, 1, 0, 1]);
        assert_eq!(medians, [4.0, 8.0]);
    }
}
