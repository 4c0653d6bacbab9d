//! Cases for frames against a call table: runs from the fresh one, and single
//! frames against any.

use super::damage::Damage;
use super::frames::frame_bytes;
use super::line::{cut_frame, damaged, either, end, open, spoilt, step, Line, Sent};
use super::maps::{fullest, maps_of_maps};
use super::rng::Rng;
use super::table::add_method_of;
use crate::calls::{FORMS, SLOTS};
use crate::cases::{Case, ReceiveCase, RunCase};
use crate::frame::{Header, Kind};
use crate::tallies::Tally;

/// The sheet's cells of a line whose payloads have maps of many pairs.
const MAP_CELLS: usize = 2_000;

/// The sheet's cells of a line: enough, with odd ones, or very few.
pub fn cells(rng: &mut Rng) -> usize {
    match rng.below(10) {
        0 => rng.below(9),
        1 => rng.range(9, 40),
        _ => rng.range(160, 400),
    }
}

/// Sends a frame and keeps what it does to the calls.
fn send(line: &mut Line, schema: &[u8], cells: usize, sent: &Sent) {
    let mut sheet = vec![0; cells];
    let (calls, tallies) = (&mut line.calls, &mut line.tallies);
    calls.receive(schema, tallies, sent.0, &sent.1, &mut sheet);
}

/// A run of so many frames by the given actions; where an action has no
/// occasion, the run goes on in a right way.
pub fn run(
    rng: &mut Rng,
    mut line: Line,
    frames: usize,
    cells: usize,
    next: impl Fn(&mut Rng, &Line) -> Option<Sent>,
) -> Case {
    let schema = line.table.bytes();
    let mut all = Vec::new();
    while all.len() < frames {
        let sent = next(rng, &line).or_else(|| either(rng, &line));
        if let Some(sent) = sent {
            send(&mut line, &schema, cells, &sent);
            all.push(sent);
        }
    }
    Case::Run(RunCase {
        schema,
        cells,
        frames: all,
    })
}

/// A run that keeps the order of calls.
pub fn run_good(rng: &mut Rng) -> Case {
    let line = Line::fresh(rng);
    let frames = rng.range(4, 16);
    run(rng, line, frames, 400, |rng, line| match rng.below(4) {
        0 => open(rng, line),
        _ => step(rng, line),
    })
}

/// A run in which one sort of frame comes up again and again.
pub fn run_with(rng: &mut Rng, action: impl Fn(&mut Rng, &Line) -> Option<Sent>) -> Case {
    let line = Line::fresh(rng);
    let frames = rng.range(4, 10);
    let cells = cells(rng);
    run(rng, line, frames, cells, |rng, line| match rng.below(5) {
        0 => open(rng, line),
        1 | 2 => step(rng, line),
        _ => action(rng, line),
    })
}

/// The same for payloads with maps of many pairs.
pub fn run_maps(rng: &mut Rng, action: impl Fn(&mut Rng, &Line) -> Option<Sent>) -> Case {
    let line = Line::with_maps(rng);
    let frames = rng.range(2, 5);
    run(rng, line, frames, MAP_CELLS, |rng, line| {
        match rng.below(4) {
            0 => open(rng, line),
            1 => step(rng, line),
            _ => action(rng, line),
        }
    })
}

/// The sheet's cells of a line with long payloads: mostly enough.
pub fn long_cells(rng: &mut Rng) -> usize {
    rng.pick(&[
        4 * crate::MAX_PAYLOAD,
        4 * crate::MAX_PAYLOAD,
        16_000,
        1_000,
    ])
}

/// The same for payloads of up to 16,384 bytes.
pub fn run_long(rng: &mut Rng, action: impl Fn(&mut Rng, &Line) -> Option<Sent>) -> Case {
    let line = Line::with_long_payloads(rng);
    let frames = rng.range(2, 6);
    let cells = long_cells(rng);
    run(rng, line, frames, cells, |rng, line| match rng.below(4) {
        0 => open(rng, line),
        1 => step(rng, line),
        _ => action(rng, line),
    })
}

/// An INVOKE with as many key comparisons due as can be, and a sheet of just
/// enough rows, or of one too few.
pub fn run_maps_of_maps(rng: &mut Rng) -> Case {
    let (mut table, value) = maps_of_maps(rng, fullest());
    add_method_of(rng, &mut table, 8);
    let [package, service, method, ..] = table.methods[0];
    let header = Header {
        kind: Kind::Invoke as u32,
        identifiers: [package, service, method],
        correlation: rng.bits(),
    };
    Case::Run(RunCase {
        schema: table.bytes(),
        cells: rng.pick(&[65_535, 65_536, 65_536]),
        frames: vec![(b'C', frame_bytes(&header, &value.bytes()))],
    })
}

/// A run in which payloads are damaged in one way.
pub fn run_damaged(rng: &mut Rng, damage: Damage) -> Case {
    run_with(rng, |rng, line| damaged(rng, line, damage))
}

/// A run in which one field of the header is wrong in some frames.
pub fn run_spoilt(rng: &mut Rng, number: u32) -> Case {
    run_with(rng, |rng, line| spoilt(rng, line, number))
}

/// A run with a sheet of very few rows (30).
pub fn run_small_sheet(rng: &mut Rng) -> Case {
    let line = Line::fresh(rng);
    let frames = rng.range(4, 8);
    let cells = rng.below(12);
    run(rng, line, frames, cells, either)
}

/// A run that opens 128 calls, goes on opening (13), cancels some, which stay
/// open, ends some and opens again.
pub fn run_full(rng: &mut Rng) -> Case {
    let line = Line::fresh(rng);
    let frames = rng.range(134, 140);
    run(rng, line, frames, 80, |rng, line| {
        match line.calls.open_count() {
            SLOTS if rng.one_in(4) => end(rng, line),
            _ => open(rng, line),
        }
    })
}

/// A few frames under a table with a fault.
pub fn run_bad_table(rng: &mut Rng, fault: fn(&mut Rng) -> Vec<u8>) -> Case {
    let line = Line::fresh(rng);
    let frames = rng.range(1, 2);
    Case::Run(RunCase {
        schema: fault(rng),
        cells: rng.below(20),
        frames: (0..frames).filter_map(|_| open(rng, &line)).collect(),
    })
}

fn receive_case(line: Line, cells: usize, sent: Sent) -> Case {
    Case::Receive(ReceiveCase {
        schema: line.table.bytes(),
        cells,
        table: Box::new(line.calls),
        tallies: line.tallies,
        side: sent.0,
        data: sent.1,
    })
}

pub fn open_count(rng: &mut Rng) -> usize {
    rng.pick(&[0, 1, 1, 2, 3, 5, 9, 40, 127, 128])
}

/// One frame by an action against a busy line.
pub fn receive_with(rng: &mut Rng, action: impl Fn(&mut Rng, &Line) -> Option<Sent>) -> Case {
    loop {
        let open = open_count(rng);
        let line = Line::fresh(rng).busy(rng, open);
        if let Some(mut sent) = action(rng, &line) {
            if rng.one_in(6) {
                sent.1.push(0xAF);
            }
            let cells = cells(rng);
            return receive_case(line, cells, sent);
        }
    }
}

/// The same for a payload with maps of many pairs.
pub fn receive_maps(rng: &mut Rng, action: impl Fn(&mut Rng, &Line) -> Option<Sent>) -> Case {
    loop {
        let open = open_count(rng);
        let line = Line::with_maps(rng).busy(rng, open);
        if let Some(sent) = action(rng, &line) {
            return receive_case(line, MAP_CELLS, sent);
        }
    }
}

/// The same for a payload of up to 16,384 bytes.
pub fn receive_long(rng: &mut Rng, action: impl Fn(&mut Rng, &Line) -> Option<Sent>) -> Case {
    loop {
        let open = open_count(rng);
        let line = Line::with_long_payloads(rng).busy(rng, open);
        if let Some(sent) = action(rng, &line) {
            let cells = long_cells(rng);
            return receive_case(line, cells, sent);
        }
    }
}

/// A frame whose payload is damaged in one way.
pub fn receive_damaged(rng: &mut Rng, damage: Damage) -> Case {
    receive_with(rng, |rng, line| damaged(rng, line, damage))
}

/// A frame with one wrong field of its header.
pub fn receive_spoilt(rng: &mut Rng, number: u32) -> Case {
    receive_with(rng, |rng, line| spoilt(rng, line, number))
}

/// A frame with too small a sheet (30).
pub fn receive_small_sheet(rng: &mut Rng) -> Case {
    loop {
        let open = rng.range(0, 4);
        let line = Line::fresh(rng).busy(rng, open);
        if let Some(sent) = either(rng, &line) {
            let cells = rng.below(9);
            return receive_case(line, cells, sent);
        }
    }
}

/// An INVOKE when all slots are taken (13).
pub fn receive_full(rng: &mut Rng) -> Case {
    loop {
        let line = Line::fresh(rng).busy(rng, SLOTS);
        if let Some(sent) = open(rng, &line) {
            return receive_case(line, 40, sent);
        }
    }
}

/// Puts about half of the figures at or next to their limit.
pub fn fill_tallies(rng: &mut Rng, line: &mut Line) {
    for tally in &mut line.tallies {
        let figures = tally.figures().map(|figure| match rng.below(4) {
            0 | 1 => figure.min(u32::MAX - 1),
            2 => u32::MAX - 1,
            _ => u32::MAX,
        });
        *tally = Tally::from_figures(figures);
    }
}

/// A frame by an action against tallies that can hardly rise.
pub fn receive_tallied(rng: &mut Rng, action: impl Fn(&mut Rng, &Line) -> Option<Sent>) -> Case {
    loop {
        let open = rng.pick(&[0, 1, 2, 3, 5, 9, 127]);
        let mut line = Line::fresh(rng).busy(rng, open);
        fill_tallies(rng, &mut line);
        if let Some(sent) = action(rng, &line) {
            let cells = cells(rng);
            return receive_case(line, cells, sent);
        }
    }
}

/// A frame by an action against tallies of which none can rise.
pub fn receive_all_full(
    rng: &mut Rng,
    action: impl Fn(&mut Rng, &Line) -> Option<Sent>,
    cells: usize,
) -> Case {
    loop {
        let open = rng.pick(&[0, 1, 2, 3, 5, 9, 127]);
        let mut line = Line::fresh(rng).busy(rng, open);
        line.tallies.fill(Tally::from_figures([u32::MAX; 5]));
        if let Some(sent) = action(rng, &line) {
            return receive_case(line, cells, sent);
        }
    }
}

/// Gives a connection another number of tally rows than it has methods.
pub fn miscount(rng: &mut Rng, line: &mut Line) {
    let methods = line.tallies.len();
    let rows = rng.pick(&[0, methods - 1, methods + 1, methods + 1, methods + 9, 257]);
    line.tallies.resize(rows, Tally::default());
}

/// A wrong number of tally rows (19), with any frame.
pub fn receive_miscounted(rng: &mut Rng) -> Case {
    loop {
        let open = rng.pick(&[0, 1, 2, 4, 128]);
        let mut line = Line::fresh(rng).busy(rng, open);
        let fault = rng.range(2, 7) as u32;
        let sent = match rng.below(3) {
            0 => spoilt(rng, &line, fault),
            1 => cut_frame(rng, &line),
            _ => either(rng, &line),
        };
        miscount(rng, &mut line);
        // Seldom the call table is not good, which comes first.
        if rng.one_in(8) {
            spoil_calls(rng, &mut line);
        }
        if let Some(sent) = sent {
            return receive_case(line, 40, sent);
        }
    }
}

/// A call table that breaks one of its rules (15), with any frame.
pub fn receive_bad_calls(rng: &mut Rng) -> Case {
    loop {
        let open = rng.pick(&[0, 1, 2, 4, 60, 127, 128]);
        let mut line = Line::fresh(rng).busy(rng, open);
        let fault = rng.range(2, 7) as u32;
        let sent = match rng.one_in(4) {
            true => spoilt(rng, &line, fault),
            false => either(rng, &line),
        };
        if let Some(sent) = sent.filter(|_| spoil_calls(rng, &mut line).is_some()) {
            if rng.one_in(4) {
                miscount(rng, &mut line);
            }
            return receive_case(line, 40, sent);
        }
    }
}

/// Breaks one rule of the call table; none where it has no record for it.
pub fn spoil_calls(rng: &mut Rng, line: &mut Line) -> Option<()> {
    if rng.one_in(3) {
        return spoil_free(rng, line);
    }
    let open: Vec<usize> = (0..SLOTS)
        .filter(|&slot| line.calls.slots[slot].open)
        .collect();
    if open.is_empty() {
        return None;
    }
    let methods = line.table.methods.len() as u32;
    let (slot, other) = (rng.pick(&open), rng.pick(&open));
    let correlation = line.calls.slots[other].correlation;
    let call = &mut line.calls.slots[slot];
    let form = FORMS[line.table.methods[call.method as usize][3] as usize];
    match rng.below(9) {
        0 if slot != other => call.correlation = correlation,
        1 => call.method = rng.pick(&[methods, methods + 1, 256, u32::MAX]),
        2 if !form.in_close => call.input_closed = true,
        3 if !form.out_close => (call.response, call.output_closed) = (true, true),
        4 if form.out_close => (call.response, call.output_closed) = (false, true),
        5 => {
            call.response = true;
            call.input_closed = form.in_close;
            call.output_closed = form.out_close;
        }
        6 if !form.in_stream => call.input_elements = rng.pick(&[1, u16::MAX]),
        7 if !form.out_stream => call.output_elements = rng.pick(&[1, u16::MAX]),
        _ => return None,
    }
    Some(())
}

/// Makes a free slot differ from zero in one member.
fn spoil_free(rng: &mut Rng, line: &mut Line) -> Option<()> {
    let slots = &mut line.calls.slots;
    let free: Vec<usize> = (0..SLOTS).filter(|&slot| !slots[slot].open).collect();
    if free.is_empty() {
        return None;
    }
    let call = &mut slots[rng.pick(&free)];
    match rng.below(8) {
        0 => call.correlation = rng.pick(&[1, 1 << 32, 1 << 63]),
        1 => call.method = rng.pick(&[1, u32::MAX]),
        2 => call.response = true,
        3 => call.input_closed = true,
        4 => call.output_closed = true,
        5 => call.cancelled = true,
        6 => call.input_elements = rng.pick(&[1, 256]),
        _ => call.output_elements = rng.pick(&[1, 256]),
    }
    Some(())
}

/// A frame under a table with a fault, the call table good or not.
pub fn receive_bad_table(rng: &mut Rng, fault: fn(&mut Rng) -> Vec<u8>) -> Case {
    let open = rng.pick(&[0, 1, 3]);
    let mut line = Line::fresh(rng).busy(rng, open);
    let sent = either(rng, &line).unwrap_or((b'C', Vec::new()));
    if rng.one_in(3) {
        spoil_calls(rng, &mut line);
    }
    Case::Receive(ReceiveCase {
        schema: fault(rng),
        cells: 20,
        table: Box::new(line.calls),
        tallies: line.tallies,
        side: sent.0,
        data: sent.1,
    })
}
