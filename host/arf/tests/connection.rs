//! A connection that comes to the limits at which nothing is used.

use arf::{Calls, FrameKind, Reason, Refusal, Schema, Side, Step, Tally, MAX_ELEMENTS};

/// uint8, a struct with one such field, and a method that streams it both ways.
fn file() -> Vec<u8> {
    let none = u32::MAX;
    let words = [
        [6, 0, 0, 16, 0, 1, 0, 0].as_slice(),
        &[1, 2, 3, 3, none, none, 1, 1],
        &[24, 32, 64, 1],
    ]
    .concat();
    words.iter().flat_map(|word| word.to_le_bytes()).collect()
}

/// A frame of call 9.
fn frame(schema: Schema, kind: FrameKind, payload: &[u8]) -> Vec<u8> {
    let header = schema.methods().next().unwrap().header(kind, 9);
    let mut out = vec![0; 26 + payload.len()];
    let length = arf::write_frame(&header, payload, &mut out);
    assert_eq!(length, Ok(out.len()));
    out
}

/// Sends a frame that is used.
fn send(calls: &mut Calls, kind: FrameKind, payload: &[u8]) -> Result<usize, Refusal> {
    let bytes = frame(calls.schema(), kind, payload);
    match calls.receive(kind.side(), &bytes, &mut [0; 8]) {
        Step::Frame(frame) => {
            assert_eq!((frame.used, frame.payload), (bytes.len(), 26..bytes.len()));
            frame.outcome.map(|reading| reading.rows)
        }
        step => panic!("{kind}: {step:?}"),
    }
}

#[test]
fn an_element_too_many_is_passed_over() {
    let file = file();
    let schema = Schema::new(&file).unwrap();
    let mut calls = Calls::new(schema);
    assert_eq!(send(&mut calls, FrameKind::Invoke, &[]), Ok(0));
    for _ in 0..MAX_ELEMENTS {
        assert_eq!(send(&mut calls, FrameKind::InStream, &[1, 7]), Ok(2));
    }
    let full = calls.clone();
    assert_eq!(full.call(9).unwrap().input_elements, MAX_ELEMENTS);

    // The element, and a CANCEL behind it.
    let mut bytes = frame(schema, FrameKind::InStream, &[1, 7]);
    let whole = Some(bytes.len());
    bytes.extend(frame(schema, FrameKind::Cancel, &[]));
    let Step::Stopped { refusal, whole: at } = calls.receive(Side::Client, &bytes, &mut [0; 8])
    else {
        panic!("an element too many is used");
    };
    assert_eq!(
        (refusal.reason(), at),
        (Some(Reason::TooManyElements), whole)
    );
    assert_eq!(calls, full);
    let step = calls.receive(Side::Client, &bytes[at.unwrap()..], &mut []);
    assert!(matches!(step, Step::Frame(frame) if frame.outcome.is_ok() && frame.open == 1));

    assert_eq!(calls.release(9), Ok(0));
    assert_eq!(
        calls.release(9).unwrap_err().reason(),
        Some(Reason::CallNotOpen)
    );
    let row = Tally {
        opened: 1,
        cancelled: 1,
        ..Tally::ZERO
    };
    assert_eq!(
        (calls.tallies(), calls.open_calls().count()),
        (&[row][..], 0)
    );
}

#[test]
fn nothing_changes_where_nothing_is_used() {
    let file = file();
    let schema = Schema::new(&file).unwrap();
    let mut calls = Calls::new(schema);
    send(&mut calls, FrameKind::Invoke, &[]).unwrap();
    let before = calls.clone();
    let bytes = frame(schema, FrameKind::InStream, &[1, 7]);
    // A sheet of one row, a frame that is cut, and bytes that are none.
    let step = calls.receive(Side::Client, &bytes, &mut [0; 7]);
    let refusal = Refusal {
        number: 30,
        place: 0,
    };
    assert_eq!(
        step,
        Step::Stopped {
            refusal,
            whole: Some(28)
        }
    );
    assert_eq!(
        calls.receive(Side::Client, &bytes[..27], &mut [0; 8]),
        Step::More
    );
    let refusal = Refusal {
        number: 2,
        place: 0,
    };
    let step = calls.receive(Side::Client, &bytes[1..], &mut [0; 8]);
    assert_eq!(
        step,
        Step::Stopped {
            refusal,
            whole: None
        }
    );
    assert_eq!(calls, before);
    // A payload that is refused ends its call, and counts.
    let refused = send(&mut calls, FrameKind::InStream, &[0]).unwrap_err();
    assert_eq!(refused.reason(), Some(Reason::AbsentField));
    assert_eq!((calls.call(9), calls.tallies()[0].failed), (None, 1));
}
