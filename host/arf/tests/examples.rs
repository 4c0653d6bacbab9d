//! What a host does with the record of examples/ that releases a call.

use arf::{CallTable, Outcome, Schema, Tally};

/// The entries of a record: a side byte and a frame each.
fn entries(mut record: &[u8]) -> Vec<(u8, &[u8])> {
    let mut entries = Vec::new();
    while let [side, frames @ ..] = record {
        let Ok(arf::FrameRead::Whole { place, length, .. }) = arf::read_frame(frames) else {
            panic!("no whole frame at entry {}", entries.len() + 1);
        };
        let (frame, rest) = frames.split_at(place + length);
        entries.push((*side, frame));
        record = rest;
    }
    entries
}

/// The answers to the entries, with a release of call 5 before the given one,
/// and the tallies afterwards.
fn answers(release_before: Option<usize>) -> (Vec<(u32, usize)>, Vec<Tally>) {
    let schema = include_bytes!("../../../examples/carrier.schema");
    let record = include_bytes!("../../../examples/released.record");
    let (mut table, mut sheet) = (CallTable::fresh(), [0; 64]);
    let methods = Schema::new(schema).expect("the schema is good").methods();
    let mut tallies = vec![Tally::ZERO; methods.len()];
    let judge = |(at, (side, frame)): (usize, (u8, &[u8]))| {
        if release_before == Some(at + 1) {
            assert_eq!(table.release(schema, 5, &mut tallies).outcome, Ok(()));
        }
        let received = table.receive(schema, side, frame, &mut sheet, &mut tallies);
        assert_eq!(received.used, frame.len());
        let number = match received.outcome {
            Outcome::Accepted(_) => 0,
            Outcome::More => 1,
            Outcome::Refused(refusal) => refusal.number,
        };
        (number, received.open)
    };
    let answers = entries(record).into_iter().enumerate().map(judge).collect();
    (answers, tallies)
}

#[test]
fn a_released_number_is_used_again() {
    let numbers = [0, 0, 0, 16, 0, 0, 0, 0];
    let open = [1, 1, 1, 1, 1, 1, 1, 0];
    let expected: Vec<_> = numbers.into_iter().zip(open).collect();
    let (answers, tallies) = answers(Some(5));
    assert_eq!(answers, expected);
    // One was released, and the next of that number went to its end.
    let cancelled: u32 = tallies.iter().map(|row| row.cancelled).sum();
    let completed: u32 = tallies.iter().map(|row| row.completed).sum();
    assert_eq!((cancelled, completed), (1, 1));
    assert!(tallies
        .iter()
        .all(|row| u64::from(row.opened) == row.ended()));
}

#[test]
fn without_a_release_the_call_stays_cancelled() {
    let numbers = [0, 0, 0, 16, 10, 16, 16, 16];
    let expected: Vec<_> = numbers.into_iter().zip([1; 8]).collect();
    let (answers, tallies) = answers(None);
    assert_eq!(answers, expected);
    let opened: u32 = tallies.iter().map(|row| row.opened).sum();
    let ended: u64 = tallies.iter().map(Tally::ended).sum();
    assert_eq!((opened, ended), (1, 0));
}
