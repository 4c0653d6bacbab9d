//! The command line of the reference implementation.
//!
//! ```text
//! reference list SCHEMA RECORD        print the listing of a record
//! reference index SCHEMA RECORD       write the index of a record
//! reference look-up INDEX RECORD CALL print the entries of one call
//! reference listings SEED N           write a file of listing cases, N of them random
//! reference list-all                  print the listing of each case from standard input
//! reference examples FOLDER           write the files of the folder examples/
//! reference cases SEED N [CODES]      write a case file of N cases
//! reference answers                   answer a case file from standard input
//! reference count SEED N [CODES]      count the answers to those cases
//! ```
//!
//! SCHEMA, RECORD and INDEX are files. CALL is a correlation. CODES is a list
//! such as `1,2` and selects the entries the cases are about; without it all
//! come up. The word `across` in its place asks for payloads of one table that
//! are read by another, where one of the two extends the other, and the word
//! `large` for large cases of all entries in turn. The same SEED, N and CODES always give the
//! same case file. `count` prints a line for each entry and answer: the code,
//! the answer's number, and how often it is given. A listing case is a schema
//! file and a record, each as a length of four bytes and its bytes.

#![forbid(unsafe_code)]

use std::collections::BTreeMap;
use std::io::{self, Read, Write};
use std::path::Path;
use std::process::ExitCode;

use reference::cases::{answer_file, list_file, put_listings};
use reference::generate::carrier::files as example_files;
use reference::generate::listings::cases as listing_cases;
use reference::generate::{codes as all_codes, Generator};

const USAGE: &str = "usage: reference list SCHEMA RECORD
       reference index SCHEMA RECORD
       reference look-up INDEX RECORD CALL
       reference listings SEED N
       reference list-all
       reference examples FOLDER
       reference cases SEED N [CODES]
       reference answers
       reference count SEED N [CODES]";

fn main() -> ExitCode {
    let arguments: Vec<String> = std::env::args().skip(1).collect();
    let arguments: Vec<&str> = arguments.iter().map(String::as_str).collect();
    match run(&arguments) {
        Ok(output) => match io::stdout().lock().write_all(&output) {
            Ok(()) => ExitCode::SUCCESS,
            Err(_) => ExitCode::FAILURE,
        },
        Err(message) => {
            eprintln!("{message}");
            ExitCode::FAILURE
        }
    }
}

/// Runs one command and gives what it prints.
fn run(arguments: &[&str]) -> Result<Vec<u8>, String> {
    match *arguments {
        ["list", schema, record] => {
            let (schema, record) = (read_file(schema)?, read_file(record)?);
            Ok(reference::list(&schema, &record).into_bytes())
        }
        ["index", schema, record] => index(&read_file(schema)?, &read_file(record)?),
        ["look-up", index, record, call] => {
            let (index, record) = (read_file(index)?, read_file(record)?);
            let call = call.parse().map_err(|_| format!("bad call {call}"))?;
            Ok(reference::look_up(&index, &record, call).1.into_bytes())
        }
        ["answers"] => Ok(answer_file(&standard_input()?).into_bytes()),
        ["listings", seed, number] => listings(seed, number),
        ["list-all"] => Ok(list_file(&standard_input()?).into_bytes()),
        ["examples", folder] => examples(folder),
        ["cases", seed, number] => make(seed, number, ""),
        ["cases", seed, number, codes] => make(seed, number, codes),
        ["count", seed, number] => count(seed, number, ""),
        ["count", seed, number, codes] => count(seed, number, codes),
        _ => Err(USAGE.to_string()),
    }
}

fn read_file(path: &str) -> Result<Vec<u8>, String> {
    std::fs::read(path).map_err(|error| format!("{path}: {error}"))
}

fn standard_input() -> Result<Vec<u8>, String> {
    let mut input = Vec::new();
    let read = io::stdin().lock().read_to_end(&mut input);
    read.map_err(|error| format!("standard input: {error}"))?;
    Ok(input)
}

/// The index of a record, which has a row for at most one in 27 bytes.
fn index(schema: &[u8], record: &[u8]) -> Result<Vec<u8>, String> {
    let mut out = vec![0; record.len() + 16];
    let made = reference::make_index(schema, record, &mut out);
    let refused = |refusal: reference::Refusal| format!("refused {}", refusal.number());
    out.truncate(made.map_err(refused)?);
    Ok(out)
}

/// A file of listing cases.
fn listings(seed: &str, number: &str) -> Result<Vec<u8>, String> {
    let seed = seed.parse().map_err(|_| format!("bad seed {seed}"))?;
    let number = number.parse().map_err(|_| format!("bad number {number}"))?;
    Ok(put_listings(&listing_cases(seed, number)))
}

/// Writes every file of the examples to a folder.
fn examples(folder: &str) -> Result<Vec<u8>, String> {
    for (name, bytes) in example_files() {
        let path = Path::new(folder).join(name);
        let written = std::fs::write(&path, bytes);
        written.map_err(|error| format!("{}: {error}", path.display()))?;
    }
    Ok(Vec::new())
}

/// The generator and the number of cases that the arguments ask for.
fn generator(seed: &str, number: &str, codes: &str) -> Result<(Generator, usize), String> {
    let seed = seed.parse().map_err(|_| format!("bad seed {seed}"))?;
    let number = number.parse().map_err(|_| format!("bad number {number}"))?;
    match codes {
        "across" => return Ok((Generator::across(seed), number)),
        "large" => return Ok((Generator::large(seed, &[]), number)),
        _ => {}
    }
    let all = all_codes();
    let known = |code: &str| code.parse().ok().filter(|code| all.contains(code));
    let codes: Option<Vec<u8>> = match codes {
        "" => Some(Vec::new()),
        list => list.split(',').map(known).collect(),
    };
    let codes = codes.ok_or("codes are those of the case file with commas between")?;
    Ok((Generator::new(seed, &codes), number))
}

/// A case file.
fn make(seed: &str, number: &str, codes: &str) -> Result<Vec<u8>, String> {
    let (mut generator, number) = generator(seed, number, codes)?;
    let mut file = Vec::new();
    for _ in 0..number {
        if let Some(case) = generator.case() {
            case.put(&mut file);
        }
    }
    Ok(file)
}

/// A line a code and number: the code, the number, how often it is the answer.
fn count(seed: &str, number: &str, codes: &str) -> Result<Vec<u8>, String> {
    let (mut generator, number) = generator(seed, number, codes)?;
    let mut counts = BTreeMap::new();
    for _ in 0..number {
        if let Some(case) = generator.case() {
            for answer in case.numbers() {
                *counts.entry((case.code(), answer)).or_insert(0u64) += 1;
            }
        }
    }
    let lines = counts.iter();
    let lines = lines.map(|((code, answer), times)| format!("{code} {answer} {times}\n"));
    Ok(lines.collect::<String>().into_bytes())
}
