//! Cases for releases, and for histories in which frames and releases follow
//! each other: calls are cancelled, answers cross the cancel, an ERROR comes
//! late or the owner lets go, and identifiers are used again.

use super::damage::Damage;
use super::line::{
    after_cancel, cancel, completing, crossing, damaged, either, late_error, open, spoilt, step,
    Line, Sent,
};
use super::rng::Rng;
use super::runs::{cells, fill_tallies, long_cells, miscount, open_count, spoil_calls};
use crate::calls::SLOTS;
use crate::cases::{Case, Event, HistoryCase, ReleaseCase};

fn release_case(line: Line, correlation: u64) -> Case {
    Case::Release(ReleaseCase {
        schema: line.table.bytes(),
        table: Box::new(line.calls),
        tallies: line.tallies,
        correlation,
    })
}

/// A release of a cancelled call.
pub fn release_cancelled(rng: &mut Rng) -> Case {
    loop {
        let open = open_count(rng);
        let line = Line::fresh(rng).busy(rng, open);
        if let Some(call) = line.pick_by_mark(rng, true) {
            return release_case(line, call.correlation);
        }
    }
}

/// A release of a call that is open and not cancelled (14).
pub fn release_live(rng: &mut Rng) -> Case {
    loop {
        let open = open_count(rng);
        let line = Line::fresh(rng).busy(rng, open);
        if let Some(call) = line.pick_by_mark(rng, false) {
            return release_case(line, call.correlation);
        }
    }
}

/// A release of a call that is not open (11), 0 while slots are free too.
pub fn release_not_open(rng: &mut Rng) -> Case {
    let open = open_count(rng);
    let line = Line::fresh(rng).busy(rng, open);
    let correlation = match line.calls.find(0) {
        None if rng.one_in(2) => 0,
        _ => line.unused_correlation(rng),
    };
    release_case(line, correlation)
}

/// A release against tallies that can hardly rise.
pub fn release_tallied(rng: &mut Rng) -> Case {
    loop {
        let open = open_count(rng);
        let mut line = Line::fresh(rng).busy(rng, open);
        fill_tallies(rng, &mut line);
        let cancelled = !rng.one_in(8);
        if let Some(call) = line.pick_by_mark(rng, cancelled) {
            return release_case(line, call.correlation);
        }
    }
}

/// A release with a wrong number of tally rows (19).
pub fn release_miscounted(rng: &mut Rng) -> Case {
    let open = rng.pick(&[0, 1, 2, 4, 128]);
    let mut line = Line::fresh(rng).busy(rng, open);
    let correlation = any_correlation(rng, &line);
    miscount(rng, &mut line);
    if rng.one_in(8) {
        spoil_calls(rng, &mut line);
    }
    release_case(line, correlation)
}

/// An identifier to release, be its call open, cancelled or neither.
fn any_correlation(rng: &mut Rng, line: &Line) -> u64 {
    let cancelled = !rng.one_in(3);
    match line.pick_by_mark(rng, cancelled) {
        Some(call) => call.correlation,
        None => rng.below(6) as u64,
    }
}

/// A release under a call table that breaks one of its rules (15).
pub fn release_bad_calls(rng: &mut Rng) -> Case {
    loop {
        let open = rng.pick(&[0, 1, 2, 4, 60, 127, 128]);
        let mut line = Line::fresh(rng).busy(rng, open);
        let correlation = any_correlation(rng, &line);
        if spoil_calls(rng, &mut line).is_some() {
            if rng.one_in(4) {
                miscount(rng, &mut line);
            }
            return release_case(line, correlation);
        }
    }
}

/// A release under a schema table with a fault, the call table good or not.
pub fn release_bad_table(rng: &mut Rng, fault: fn(&mut Rng) -> Vec<u8>) -> Case {
    let open = rng.pick(&[0, 1, 3]);
    let mut line = Line::fresh(rng).busy(rng, open);
    let correlation = any_correlation(rng, &line);
    if rng.one_in(3) {
        spoil_calls(rng, &mut line);
    }
    Case::Release(ReleaseCase {
        schema: fault(rng),
        table: Box::new(line.calls),
        tallies: line.tallies,
        correlation,
    })
}

/// A release in a history, mostly of a cancelled call.
fn release(rng: &mut Rng, line: &Line) -> Option<Event> {
    let correlation = match rng.below(6) {
        0 => line.unused_correlation(rng),
        1 => line.pick_by_mark(rng, false)?.correlation,
        _ => line.pick_by_mark(rng, true)?.correlation,
    };
    Some(Event::Release(correlation))
}

/// Lets an event happen to a connection.
fn happen(line: &mut Line, schema: &[u8], cells: usize, event: &Event) {
    let (calls, tallies) = (&mut line.calls, &mut line.tallies);
    match event {
        Event::Frame((side, bytes)) => {
            let mut sheet = vec![0; cells];
            calls.receive(schema, tallies, *side, bytes, &mut sheet);
        }
        Event::Release(correlation) => {
            calls.release(schema, tallies, *correlation);
        }
    }
}

/// A history of so many events by the given actions; where an action has no
/// occasion, the history goes on in a right way.
fn history(
    rng: &mut Rng,
    mut line: Line,
    events: usize,
    cells: usize,
    next: impl Fn(&mut Rng, &Line) -> Option<Event>,
) -> Case {
    let schema = line.table.bytes();
    let mut all = Vec::new();
    while all.len() < events {
        let event = next(rng, &line).or_else(|| either(rng, &line).map(Event::Frame));
        if let Some(event) = event {
            happen(&mut line, &schema, cells, &event);
            all.push(event);
        }
    }
    Case::History(HistoryCase {
        schema,
        cells,
        events: all,
    })
}

/// Calls that open, go on, are cancelled and end in either way.
pub fn cancels(rng: &mut Rng) -> Case {
    let line = Line::fresh(rng);
    let events = rng.range(6, 18);
    history(rng, line, events, 400, |rng, line| {
        let sent = match rng.below(12) {
            0 | 1 => open(rng, line),
            2 => step(rng, line),
            3 if rng.one_in(2) => completing(rng, line),
            3 | 4 => cancel(rng, line),
            5..=7 => crossing(rng, line),
            8 => late_error(rng, line),
            9 => after_cancel(rng, line),
            _ => return release(rng, line),
        };
        sent.map(Event::Frame)
    })
}

/// A history in which one sort of frame comes up again and again.
pub fn mixed(rng: &mut Rng, action: impl Fn(&mut Rng, &Line) -> Option<Sent>) -> Case {
    let line = Line::fresh(rng);
    let events = rng.range(4, 10);
    let cells = cells(rng);
    history(rng, line, events, cells, |rng, line| {
        let sent = match rng.below(8) {
            0 => open(rng, line),
            1 => step(rng, line),
            2 => cancel(rng, line),
            3 => return release(rng, line),
            4 => crossing(rng, line),
            _ => action(rng, line),
        };
        sent.map(Event::Frame)
    })
}

/// The same for payloads of up to 16,384 bytes.
pub fn long_mixed(rng: &mut Rng, action: impl Fn(&mut Rng, &Line) -> Option<Sent>) -> Case {
    let line = Line::with_long_payloads(rng);
    let events = rng.range(3, 8);
    let cells = long_cells(rng);
    history(rng, line, events, cells, |rng, line| {
        let sent = match rng.below(7) {
            0 => open(rng, line),
            1 => step(rng, line),
            2 => cancel(rng, line),
            3 => return release(rng, line),
            _ => action(rng, line),
        };
        sent.map(Event::Frame)
    })
}

/// A history in which payloads are damaged in one way.
pub fn damaged_payload(rng: &mut Rng, damage: Damage) -> Case {
    mixed(rng, |rng, line| damaged(rng, line, damage))
}

/// A history in which one field of the header is wrong in some frames.
pub fn spoilt_frame(rng: &mut Rng, number: u32) -> Case {
    mixed(rng, |rng, line| spoilt(rng, line, number))
}

/// A history with a sheet of very few rows (30); what is dropped needs none.
pub fn small_sheet(rng: &mut Rng) -> Case {
    let line = Line::fresh(rng);
    let events = rng.range(4, 10);
    let cells = rng.below(12);
    history(rng, line, events, cells, |rng, line| {
        let sent = match rng.below(4) {
            0 => cancel(rng, line),
            1 => crossing(rng, line),
            _ => either(rng, line),
        };
        sent.map(Event::Frame)
    })
}

/// 128 open calls, some of them cancelled: no more can open (13) until one is
/// released or ends.
pub fn full(rng: &mut Rng) -> Case {
    let line = Line::fresh(rng);
    let events = rng.range(138, 150);
    history(rng, line, events, 80, |rng, line| {
        let full = line.calls.open_count() == SLOTS;
        let sent = match rng.below(8) {
            0 if full => cancel(rng, line),
            1 if full => late_error(rng, line),
            2 if full => return release(rng, line),
            0 => cancel(rng, line).filter(|_| rng.one_in(2)),
            _ => open(rng, line),
        };
        sent.map(Event::Frame)
    })
}

/// A few events under a table with a fault.
pub fn bad_table(rng: &mut Rng, fault: fn(&mut Rng) -> Vec<u8>) -> Case {
    let line = Line::fresh(rng);
    let events = rng.range(1, 3);
    let event = |rng: &mut Rng| match rng.one_in(2) {
        true => Some(Event::Release(rng.below(3) as u64)),
        false => open(rng, &line).map(Event::Frame),
    };
    let events = (0..events).filter_map(|_| event(rng)).collect();
    Case::History(HistoryCase {
        schema: fault(rng),
        cells: rng.below(20),
        events,
    })
}
