//! Lists a record by a schema file, with the contents that `arf list` leaves
//! out: `cargo run -p arf --example list -- SCHEMA RECORD`.

use arf::{Calls, Kind, Refusal, Role, Schema, Step, Value, MAX_SHEET};
use std::fmt::Write as _;
use std::io::{self, Write};
use std::process::ExitCode;

/// A value on one line: each scalar and text after the way to it.
fn contents(value: &Value) -> Result<String, Refusal> {
    let (mut text, mut path) = (String::new(), Vec::new());
    for node in value.rows() {
        path.truncate(node.depth - 1);
        path.push(match node.role {
            Role::Root => String::new(),
            Role::Field(i) => format!(".{i}"),
            Role::Element(i) => format!("[{i}]"),
            Role::Key(i) => format!("[{i}].key"),
            Role::Value(i) => format!("[{i}].value"),
        });
        let way = path.concat();
        match node.kind {
            Kind::Struct | Kind::Array | Kind::Map => {}
            Kind::String => write!(text, " {way}={:?}", node.text().unwrap_or_default()).unwrap(),
            Kind::Bytes => write!(text, " {way}={:02x?}", node.bytes()).unwrap(),
            _ => write!(text, " {way}={}", node.scalar()?).unwrap(),
        }
    }
    Ok(text)
}

/// Hands out a line for each entry of the record, up to one that stops it.
fn list(schema: &[u8], record: &[u8], mut line: impl FnMut(String)) -> Result<(), Refusal> {
    let schema = Schema::new(schema)?;
    let mut calls = Calls::new(schema);
    let mut sheet = vec![0; MAX_SHEET];
    for entry in arf::entries(record) {
        let entry = entry?;
        let frame = match calls.receive(entry.side, entry.frame, &mut sheet) {
            Step::Frame(frame) => frame,
            Step::Stopped { refusal, .. } => return Err(refusal),
            Step::More => unreachable!("an entry's frame is whole"),
        };
        let kind = frame.header.frame_kind().expect("a frame has a kind");
        let call = frame.header.correlation;
        line(match frame.outcome {
            Ok(reading) => {
                let value = schema.shown(entry.payload, &sheet, reading);
                format!("{} {kind} {call}:{}", entry.side, contents(&value)?)
            }
            Err(refusal) => format!("{} {kind} {call}: refused, {refusal}", entry.side),
        });
    }
    Ok(())
}

fn run(schema: &str, record: &str) -> io::Result<ExitCode> {
    let (schema, record) = (std::fs::read(schema)?, std::fs::read(record)?);
    let (mut out, mut written) = (io::stdout().lock(), Ok(()));
    let listed = list(&schema, &record, |line| {
        if written.is_ok() {
            written = writeln!(out, "{line}");
        }
    });
    written?;
    Ok(match listed {
        Ok(()) => ExitCode::SUCCESS,
        Err(refusal) => {
            eprintln!("list: {refusal}. {}", refusal.advice());
            ExitCode::FAILURE
        }
    })
}

fn main() -> ExitCode {
    let words: Vec<String> = std::env::args().collect();
    let [_, schema, record] = &words[..] else {
        eprintln!("usage: list SCHEMA RECORD");
        return ExitCode::from(2);
    };
    run(schema, record).unwrap_or_else(|error| {
        eprintln!("list: {error}");
        ExitCode::from(2)
    })
}

#[cfg(test)]
mod tests {
    use arf::Refusal;

    /// The lines, and how the listing ended.
    fn listed(record: &[u8]) -> (Vec<String>, Result<(), Refusal>) {
        let mut lines = Vec::new();
        let schema = include_bytes!("../../../examples/carrier.schema");
        let end = super::list(schema, record, |line| lines.push(line));
        (lines, end)
    }

    #[test]
    fn a_day_has_contents() {
        let (lines, end) = listed(include_bytes!("../../../examples/day.record"));
        assert_eq!((lines.len(), end), (9, Ok(())));
        assert!(lines[0].starts_with("client INVOKE 1: .0="), "{}", lines[0]);
        assert_eq!(lines[8], "server OUT_CLOSE 3:");
    }

    #[test]
    fn an_added_field_is_told_in_words() {
        let (lines, _) = listed(include_bytes!("../../../examples/added.record"));
        let refused = lines.iter().find(|line| line.contains("refused"));
        let words = "refused, 26 at 20: an inner struct sets an unknown bit";
        assert!(refused.unwrap().ends_with(words));
    }

    #[test]
    fn what_stands_before_a_cut_is_listed() {
        let (lines, end) = listed(include_bytes!("../../../examples/damaged.record"));
        assert!(!lines.is_empty());
        assert_eq!(end.unwrap_err().number, 1);
    }
}
