//! Identifiers and correlations chosen so that many have the same hash. The
//! search then mixes the numbers and starts anew, and one that is there twice is
//! still found.

use fast::{check_table, Call, CallTable, Outcome, Refusal, Tally, SLOTS};
use reference::generate::table::Table;

const NONE: u32 = u32::MAX;

/// A table of methods with these last identifiers, which take and give nothing.
fn table(methods: &[u32]) -> Vec<u8> {
    let mut table = Table::default();
    let row = |&method: &u32| [1, 2, method, 0, NONE, NONE, NONE, NONE];
    table.methods.extend(methods.iter().map(row));
    table.bytes()
}

#[test]
fn a_method_twice_among_colliding_ones() {
    let apart: Vec<u32> = (0..256).map(|method| 45_202 * method).collect();
    assert_eq!(check_table(&table(&apart)), Ok(()));
    for (first, second) in [(0, 1), (0, 255), (100, 101), (127, 255), (254, 255)] {
        let mut twice = apart.clone();
        twice[second] = twice[first];
        let bytes = table(&twice);
        let refusal = reference::schema::check_table(&bytes).expect_err("one is there twice");
        let expected = Refusal {
            number: refusal.number(),
            place: refusal.place as usize,
        };
        assert_eq!(check_table(&bytes), Err(expected));
        assert_eq!((expected.number, expected.place), (44, second));
    }
}

/// What becomes of no bytes where these calls are open.
fn received(correlations: &[u64]) -> Outcome {
    let mut calls = [Call::default(); SLOTS];
    for (call, &correlation) in calls.iter_mut().zip(correlations) {
        call.open = true;
        call.correlation = correlation;
    }
    let mut calls = CallTable::from_calls(&calls);
    let schema = table(&[3]);
    let received = calls.receive(&schema, b'C', &[], &mut [], &mut [Tally::default()]);
    received.outcome
}

#[test]
fn a_call_twice_among_colliding_ones() {
    let apart: Vec<u64> = (0..128).map(|call| 5473 * call).collect();
    assert_eq!(received(&apart), Outcome::More);
    for (first, second) in [(0, 1), (0, 127), (50, 51), (63, 127), (126, 127)] {
        let mut twice = apart.clone();
        twice[second] = twice[first];
        let Outcome::Refused(refusal) = received(&twice) else {
            panic!("a correlation is open twice");
        };
        assert_eq!(refusal.number, 15);
    }
}
