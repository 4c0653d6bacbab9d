//! Runs the static library against the reference implementation.
//!
//! ```text
//! compare SEED COUNT [CODES]    COUNT random cases
//! compare FILE                  the cases of a case file
//! ```
//!
//! CODES is a list such as `1,2` and selects entries by their code in the case
//! file; without it every entry that the library has comes up. Every
//! other random case is large (see `reference::generate::large`). At the first
//! difference the case is printed and written to a file, from which it can be
//! run again, and the exit status is 1.

#![forbid(unsafe_code)]

mod library;

use std::process::ExitCode;
use std::time::{Duration, Instant};

use reference::cases::{read_file, Case};
use reference::generate::Generator;

const USAGE: &str = "usage: compare SEED COUNT [CODES]
       compare FILE";

/// Where the first case that differs is written.
const FAILED: &str = "compare-failed.case";

/// A case's bytes are printed up to this many.
const PRINTED: usize = 4_000;

fn main() -> ExitCode {
    let arguments: Vec<String> = std::env::args().skip(1).collect();
    let arguments: Vec<&str> = arguments.iter().map(String::as_str).collect();
    match run(&arguments) {
        Ok(summary) => {
            println!("{summary}");
            ExitCode::SUCCESS
        }
        Err(message) => {
            eprintln!("{message}");
            ExitCode::FAILURE
        }
    }
}

fn run(arguments: &[&str]) -> Result<String, String> {
    match *arguments {
        [file] => replay(file),
        [seed, count] => random(seed, count, library::CODES.to_vec()),
        [seed, count, codes] => random(seed, count, parse_codes(codes)?),
        _ => Err(USAGE.to_string()),
    }
}

fn parse_codes(codes: &str) -> Result<Vec<u8>, String> {
    let known = |code: &str| {
        let code = code.parse().ok()?;
        library::CODES.contains(&code).then_some(code)
    };
    let codes: Option<Vec<u8>> = codes.split(',').map(known).collect();
    codes.ok_or(format!("codes are some of {:?}", library::CODES))
}

/// Runs random cases up to the first difference.
fn random(seed: &str, count: &str, codes: Vec<u8>) -> Result<String, String> {
    let bad = |what: &str| format!("{what} is no number\n{USAGE}");
    let first: u64 = seed.parse().map_err(|_| bad(seed))?;
    let count: usize = count.parse().map_err(|_| bad(count))?;
    let mut generator = Generator::compared(first, &codes);
    let mut tally = Tally::new(count);
    for _ in 0..count {
        let case = generator.case().ok_or("no case")?;
        tally.add(&case)?;
    }
    Ok(tally.summary())
}

/// Runs the cases of a file up to the first difference.
fn replay(file: &str) -> Result<String, String> {
    let bytes = std::fs::read(file).map_err(|error| format!("{file}: {error}"))?;
    let cases = read_file(&bytes).ok_or(format!("{file} is no case file"))?;
    let mut tally = Tally::new(cases.len());
    for case in &cases {
        tally.add(case)?;
    }
    Ok(tally.summary())
}

/// How many cases of each code were run, with the progress shown meanwhile.
struct Tally {
    total: usize,
    done: usize,
    codes: [usize; 256],
    shown: Instant,
}

impl Tally {
    fn new(total: usize) -> Self {
        Tally {
            total,
            done: 0,
            codes: [0; 256],
            shown: Instant::now(),
        }
    }

    /// Runs one case and counts it, or describes how the answers differ.
    fn add(&mut self, case: &Case) -> Result<(), String> {
        self.done += 1;
        self.codes[usize::from(case.code())] += 1;
        if self.shown.elapsed() > Duration::from_secs(1) {
            self.shown = Instant::now();
            eprintln!("{} of {} cases", self.done, self.total);
        }
        let (mut expected, mut found) = (String::new(), String::new());
        case.answer(&mut expected);
        library::answer(case, &mut found);
        match expected == found {
            true => Ok(()),
            false => Err(self.difference(case, &expected, &found)),
        }
    }

    fn difference(&self, case: &Case, expected: &str, found: &str) -> String {
        let mut file = Vec::new();
        case.put(&mut file);
        let written = match std::fs::write(FAILED, &file) {
            Ok(()) => format!("written to {FAILED}: run `compare {FAILED}` to see it again"),
            Err(error) => format!("{FAILED}: {error}"),
        };
        let shown = &file[..file.len().min(PRINTED)];
        let hex: String = shown.iter().map(|byte| format!("{byte:02x}")).collect();
        let cut = if shown.len() < file.len() { ".." } else { "" };
        format!(
            "case {} (code {}) differs\nreference:\n{expected}library:\n{found}case: {hex}{cut}\n{written}",
            self.done,
            case.code(),
        )
    }

    fn summary(&self) -> String {
        let codes = self.codes.iter().enumerate();
        let codes = codes.filter(|(_, &times)| times > 0);
        let codes: Vec<String> = codes
            .map(|(code, times)| format!("code {code}: {times}"))
            .collect();
        format!("{} cases, no difference ({})", self.done, codes.join(", "))
    }
}
