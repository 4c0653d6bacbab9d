//! Prints the least stack with which a thread survives the deepest values, for
//! each entry that goes down levels, and a record that holds one. The exit
//! status is 1 where that is more than `arf::STACK`, or `arf::INDEX_STACK` for
//! `make_index`.
//!
//! A stack that is too small ends the whole process, so each trial is a child
//! of this program: `stack ENTRY NEST KIB`, with the nest's number.

#![forbid(unsafe_code)]

use std::hint::black_box;
use std::os::unix::process::ExitStatusExt;
use std::process::{Command, ExitCode, Stdio};
use std::thread;

use bench::nests::{nests, Nest};
use bench::samples::frame;
use bench::CELLS;
use reference::MAX_PAYLOAD;

/// What is measured, `frame` for `write_value_frame`; a trial runs one of them, or nothing.
const ENTRIES: [&str; 9] = [
    "read", "beside", "write", "forward", "receive", "frame", INDEX, LOOK_UP, SALVAGE,
];
const INDEX: &str = "index";
const LOOK_UP: &str = "look_up";
const SALVAGE: &str = "salvage";
const NOTHING: &str = "nothing";

/// More than any entry may take, in KiB.
const MOST: usize = 4_096;

/// Each thread first takes this many KiB, which do not count: the system gives
/// no thread less than some 20 KiB, so smaller needs would not show.
const BALLAST: usize = 64;

fn main() -> ExitCode {
    let arguments: Vec<String> = std::env::args().skip(1).collect();
    let arguments: Vec<&str> = arguments.iter().map(String::as_str).collect();
    match arguments[..] {
        [] => figures(),
        [entry, nest, kib] => trial(entry, parse(nest), parse(kib)),
        _ => panic!("usage: stack, or stack ENTRY NEST KIB for one trial"),
    }
}

fn parse(word: &str) -> usize {
    word.parse().expect("nest and KiB are numbers")
}

/// Prints the table.
fn figures() -> ExitCode {
    let empty = least(NOTHING, 0);
    println!("Least stack of a thread in KiB. A thread that calls nothing needs {empty}.");
    println!();
    row("16 levels", &ENTRIES);
    let mut most = [0; ENTRIES.len()];
    for (number, nest) in nests().iter().enumerate() {
        let needs = ENTRIES.map(|entry| least(entry, number));
        row(nest.name, &needs);
        most = std::array::from_fn(|column| most[column].max(needs[column]));
    }
    row("the most", &most);
    let columns = ENTRIES.iter().zip(most);
    let mut short = columns.filter(|(entry, kib)| 1024 * kib > promised(entry));
    match short.next() {
        Some((entry, _)) => {
            let kib = promised(entry) / 1024;
            eprintln!("{entry}: {kib} KiB are promised, which is too little");
            ExitCode::FAILURE
        }
        None => ExitCode::SUCCESS,
    }
}

/// The stack that `arf` promises to be enough.
fn promised(entry: &str) -> usize {
    match entry {
        INDEX => arf::INDEX_STACK,
        _ => arf::STACK,
    }
}

fn row<T: ToString>(name: &str, columns: &[T]) {
    let column = |column: &T| format!("{:>9}", column.to_string());
    let columns: String = columns.iter().map(column).collect();
    println!("{name:<36}{columns}");
}

/// The least stack in KiB that an entry survives a nest with.
fn least(entry: &str, nest: usize) -> usize {
    let (mut low, mut high) = (0, MOST);
    assert!(survives(entry, nest, high), "{MOST} KiB are too small");
    while low + 1 < high {
        let middle = (low + high) / 2;
        match survives(entry, nest, middle) {
            true => high = middle,
            false => low = middle,
        }
    }
    high
}

/// Runs a trial as a child, which a stack that is too small ends by a signal.
fn survives(entry: &str, nest: usize, kib: usize) -> bool {
    let program = std::env::current_exe().expect("the program has a path");
    let status = Command::new(program)
        .args([entry, &nest.to_string(), &kib.to_string()])
        .stderr(Stdio::null())
        .status()
        .expect("a trial starts");
    assert!(
        status.success() || status.signal().is_some(),
        "trial {entry} {nest} {kib} fails: {status}"
    );
    status.success()
}

/// Runs an entry on a nest, and on the nest that is too deep, with so much
/// stack; all else is made before, and on the heap where it is large.
fn trial(entry: &str, nest: usize, kib: usize) -> ExitCode {
    let nest = &nests()[nest];
    let mut numbers = vec![run(entry, nest, kib)];
    numbers.extend(nest.too_deep().map(|deeper| run(entry, &deeper, kib)));
    // A salvage does not look into payloads.
    let expected = match entry {
        NOTHING | SALVAGE => [0, 0],
        _ => [0, 28],
    };
    assert_eq!(numbers, expected[..numbers.len()], "{}", nest.name);
    ExitCode::SUCCESS
}

/// The number that an entry answers for a nest.
fn run(entry: &str, nest: &Nest, kib: usize) -> u32 {
    let (schema, ty, payload) = (&nest.schema[..], nest.type_number, &nest.payload[..]);
    let (mut sheet, mut out) = (vec![0; CELLS], vec![0; MAX_PAYLOAD + 40]);
    let header = arf::Header {
        kind: 1,
        ..Default::default()
    };
    let invoke = frame(1, 1_000, payload);
    let mut table = Box::new(open_calls());
    let methods = arf::Schema::new(schema)
        .expect("the schema is good")
        .methods();
    let mut tallies = vec![arf::Tally::ZERO; methods.len()];
    match entry {
        "read" => on_thread(kib, || number(arf::read(schema, ty, payload, &mut sheet))),
        "beside" => on_thread(kib, || {
            let (ours, theirs) = (&nest.ours, &nest.theirs);
            number(arf::read_beside(ours, theirs, ty, payload, &mut sheet))
        }),
        "write" => on_thread(kib, || {
            number(arf::write(schema, ty, &nest.sheet, payload, &mut out))
        }),
        "frame" => on_thread(kib, || {
            let sheet = &nest.sheet;
            let written = arf::write_value_frame(&header, schema, ty, sheet, payload, &mut out);
            number(written)
        }),
        "forward" => on_thread(kib, || {
            let (sheet, end) = (&nest.sheet[..], payload.len());
            number(arf::forward(schema, ty, sheet, payload, end, 0, &mut out))
        }),
        "receive" => on_thread(kib, || {
            let received = table.receive(schema, b'C', &invoke, &mut sheet, &mut tallies);
            match received.outcome {
                arf::Outcome::Accepted(_) => 0,
                arf::Outcome::More => 1,
                arf::Outcome::Refused(refusal) => refusal.number,
            }
        }),
        INDEX | LOOK_UP | SALVAGE => on_record(entry, schema, &invoke, kib),
        _ => on_thread(kib, || 0),
    }
}

/// The number that an entry answers for a record with one frame; `make_index`
/// and `look_up` have it in a row.
fn on_record(entry: &str, schema: &[u8], frame: &[u8], kib: usize) -> u32 {
    let record = [b"C", frame].concat();
    let mut out = vec![0; arf::MAX_INDEX];
    match entry {
        INDEX => on_thread(kib, || {
            let made = arf::make_index(schema, &record, &mut out);
            made.map_or_else(
                |refusal| refusal.number,
                |_| u32::from_le_bytes([out[12], out[13], out[14], out[15]]),
            )
        }),
        LOOK_UP => {
            let length = arf::make_index(schema, &record, &mut out).expect("there is room");
            let (index, mut text) = (&out[..length], vec![0; 24 + 22]);
            on_thread(kib, || {
                let found = arf::look_up_text(index, &record, 1_000, &mut text);
                found.outcome.expect("the index is right");
                let rows = arf::look_up(index, &record, 1_000);
                let row = rows.expect("the index is right").next();
                row.expect("the call has a row").answer
            })
        }
        _ => {
            let torn = [&[0; 99], &record[..], &[0; 99]].concat();
            let (mut copy, mut spans) = (vec![0; torn.len()], vec![0; arf::SPAN_CELLS]);
            // With more room than any record needs, and with no more than this one.
            on_thread(kib, || {
                let wide = arf::salvage(&torn, &mut copy, &mut spans);
                let (copy, spans) = (&mut copy[..record.len()], &mut spans[..4]);
                number(wide.and(arf::salvage(&torn, copy, spans)))
            })
        }
    }
}

fn number<T>(result: Result<T, arf::Refusal>) -> u32 {
    result.map_or_else(|refusal| refusal.number, |_| 0)
}

/// Runs a call on a thread with so much stack, beside the ballast.
fn on_thread(kib: usize, call: impl FnOnce() -> u32 + Send) -> u32 {
    let builder = thread::Builder::new().stack_size(1024 * (BALLAST + kib));
    thread::scope(|scope| {
        let thread = builder.spawn_scoped(scope, || above_ballast(call));
        let answer = thread.expect("a thread starts").join();
        answer.expect("the call does not panic")
    })
}

#[inline(never)]
fn above_ballast(call: impl FnOnce() -> u32) -> u32 {
    let mut ballast = [0u8; 1024 * BALLAST];
    black_box(&mut ballast);
    let answer = call();
    black_box(&mut ballast);
    answer
}

/// A call table with one slot free.
fn open_calls() -> arf::CallTable {
    let mut calls = [arf::Call::default(); arf::SLOTS];
    for (correlation, call) in (0..).zip(&mut calls[1..]) {
        (call.open, call.correlation) = (true, correlation);
    }
    arf::CallTable::from_calls(&calls)
}
