//! Prints the figures of docs/SPEED.md: each entry of the static library beside
//! `fast` and the reference implementation, on the same input, in one run.
//!
//! `bench WORD..` prints only the lines that have all the words. With
//! `--answers` among them no line is timed: what the sides answer is compared
//! alone. Where two sides differ the status is 1.

#![forbid(unsafe_code)]

use std::cell::Cell;
use std::process::ExitCode;

use bench::lines::{Arrival, Compared, Run, Times};
use bench::samples::{self, Sample};
use bench::{show, throughput};

fn main() -> ExitCode {
    let mut words: Vec<String> = std::env::args().skip(1).collect();
    let all = words.len();
    words.retain(|word| word != "--answers");
    let run = match words.len() == all {
        true => Run::Time,
        false => Run::Compare,
    };
    let lines = Lines {
        run,
        words,
        compared: Cell::new(0),
    };
    match lines.all() {
        Ok(()) if run == Run::Compare => {
            let compared = lines.compared.get();
            println!("{compared} lines: all sides answer alike");
            ExitCode::SUCCESS
        }
        Ok(()) => ExitCode::SUCCESS,
        Err(difference) => {
            eprintln!("bench: {difference}");
            ExitCode::FAILURE
        }
    }
}

/// The lines asked for, what is done with them, and how many were compared.
struct Lines {
    run: Run,
    words: Vec<String>,
    compared: Cell<usize>,
}

/// A line that two sides answer in two ways ends the run.
type Done = Result<(), String>;

/// A table whose heading is printed before its first line.
struct Table<'a> {
    heading: &'a str,
    begun: Cell<bool>,
}

impl<'a> Table<'a> {
    fn new(heading: &'a str) -> Self {
        let begun = Cell::new(false);
        Table { heading, begun }
    }

    fn print(&self, line: &str) {
        if !self.begun.replace(true) {
            let columns = self.heading.matches('|').count() - 1;
            println!("{}\n|{}", self.heading, "---|".repeat(columns));
        }
        println!("{line}");
    }
}

impl Drop for Table<'_> {
    /// An empty line follows a table.
    fn drop(&mut self) {
        if self.begun.get() {
            println!();
        }
    }
}

const ENTRIES: &str =
    "| entry | input | library | fast | library / fast | reference | library / reference |";
const CHOSEN: &str =
    "| entry | chosen input | library | fast | library / fast | reference | library / reference |";
const WRITES: &str = "| input | one write | two in turn | one / two |";
const GROWTH: &str = "| what grows | size | library | fast | library, times the one before |";
const FRAMES: &str = "| frames | library | fast | library / fast |";

/// The payloads on which one write is held against two in turn.
const IN_TURN: &[&str] = &[
    "small structs",
    "long string, ASCII",
    "64-pair maps, string keys",
    "receipt of 100 bytes",
];

/// A frame of a kind, to the first of the calls that are open, or for INVOKE
/// to the next after it.
fn arrival(receipt: &Sample, kind: u32, open: Vec<u64>, payload: &[u8]) -> Arrival {
    let first = open.first().map_or(9, |first| first + u64::from(kind == 1));
    Arrival {
        schema: receipt.schema.clone(),
        bytes: samples::frame(kind, first, payload),
        open,
    }
}

impl Lines {
    fn all(&self) -> Done {
        self.entries()?;
        self.chosen()?;
        self.in_turn()?;
        self.growth()?;
        self.throughput()
    }

    /// The times of a line, if it is asked for and timed.
    fn times<T>(&self, line: &str, times: impl FnOnce(Run) -> Compared<T>) -> Compared<T> {
        if !self.words.iter().all(|word| line.contains(&word[..])) {
            return Ok(None);
        }
        self.compared.set(self.compared.get() + 1);
        times(self.run).map_err(|difference| format!("{line}: {difference}"))
    }

    /// Prints a line of the first table, if it is asked for.
    fn line(
        &self,
        table: &Table,
        entry: &str,
        input: &str,
        times: impl FnOnce(Run) -> Compared,
    ) -> Done {
        let times = self.times(&format!("{entry}, {input}"), times)?;
        let Some(Times {
            library,
            fast,
            reference,
        }) = times
        else {
            return Ok(());
        };
        let (quick, ratio) = match fast {
            Some(fast) => (show(fast), format!("{:.2}", library / fast)),
            None => ("–".into(), "–".into()),
        };
        let theirs = show(reference);
        let other = library / reference;
        let library = show(library);
        table.print(&format!(
            "| {entry} | {input} | {library} | {quick} | {ratio} | {theirs} | {other:.2} |"
        ));
        Ok(())
    }

    fn entries(&self) -> Done {
        let table = &Table::new(ENTRIES);
        let full = (
            "256 types, 2,048 fields, 256 methods",
            samples::full_table(),
        );
        let methods = ("2 types, 256 methods", samples::table_of_methods(256));
        let scattered = (
            "2 types, 256 methods, identifiers in no order",
            samples::table_of_scattered_methods(256),
        );
        let apart = (
            "2 types, 256 methods, identifiers 45,202 apart",
            samples::table_of_methods_apart(256, 45_202),
        );
        for (input, schema) in &[full, methods, scattered, apart] {
            self.line(table, "table check", input, |run| run.check_table(schema))?;
        }
        let payloads = samples::payloads();
        for sample in &payloads {
            self.line(table, "read", sample.name, |run| run.read(sample))?;
        }
        for beside in &samples::besides() {
            self.line(table, "read beside", beside.1.name, |run| {
                run.read_beside(beside)
            })?;
        }
        for sample in &payloads {
            self.line(table, "write", sample.name, |run| run.write(sample))?;
        }
        let receipt = samples::receipt();
        let input = "frame of a 100-byte receipt";
        self.line(table, "frame read", input, |run| run.frame_read(&receipt))?;
        self.line(table, "frame write", input, |run| run.frame_write(&receipt))?;
        self.receives(table, &receipt)?;
        for record in &samples::records() {
            self.line(table, "salvage", record.name, |run| run.salvage(record))?;
        }
        Ok(())
    }

    /// Inputs chosen so that the flags are alike by which the library looks for
    /// equal methods, keys and correlations.
    fn chosen(&self) -> Done {
        let table = &Table::new(CHOSEN);
        let one_flag = samples::table_of_one_flag(256);
        self.line(table, "table check", "256 methods of one flag", |run| {
            run.check_table(&one_flag)
        })?;
        for keys in [samples::maps_of_one_flag(), samples::maps_of_lengths()] {
            self.line(table, "read", keys.name, |run| run.read(&keys))?;
            self.line(table, "write", keys.name, |run| run.write(&keys))?;
        }
        let receipt = samples::receipt();
        let same = arrival(&receipt, 8, samples::correlations_of_one_flag(127), &[]);
        let input = "CANCEL, correlations of one flag";
        self.line(table, "receive, 127 calls open", input, |run| {
            run.receive(&same)
        })
    }

    fn receives(&self, table: &Table, receipt: &Sample) -> Done {
        let arrival = |kind, open: Vec<u64>, payload: &[u8]| arrival(receipt, kind, open, payload);
        // Correlations that are even, so that the odd ones are free.
        let open = |calls: u64| (0..calls).map(|call| 2 * call).collect::<Vec<u64>>();
        for calls in [0, 16, 100, 127] {
            let entry = format!("receive, {calls} calls open");
            let arrival = arrival(1, open(calls), &receipt.payload);
            self.line(table, &entry, "INVOKE with a 100-byte receipt", |run| {
                run.receive(&arrival)
            })?;
        }
        for calls in [16, 100, 127] {
            let entry = format!("receive, {calls} calls open");
            let arrival = arrival(8, open(calls), &[]);
            self.line(table, &entry, "CANCEL, no payload", |run| {
                run.receive(&arrival)
            })?;
        }
        for (distance, input) in [
            (1 << 32, "CANCEL, correlations alike in their low 32 bits"),
            (1021, "CANCEL, correlations 1,021 apart"),
            (5473, "CANCEL, correlations 5,473 apart"),
        ] {
            let apart = (0..127).map(|call| call * distance).collect();
            let arrival = arrival(8, apart, &[]);
            self.line(table, "receive, 127 calls open", input, |run| {
                run.receive(&arrival)
            })?;
        }
        let arrival = Arrival {
            schema: samples::table_of_methods(256),
            bytes: samples::frame_of([1, 2, 255], 1, 9, &[1, 7]),
            open: open(100),
        };
        let input = "INVOKE of the last of 256 methods, 2 bytes";
        self.line(table, "receive, 100 calls open", input, |run| {
            run.receive(&arrival)
        })
    }

    fn in_turn(&self) -> Done {
        let table = Table::new(WRITES);
        for sample in &samples::payloads() {
            if !IN_TURN.contains(&sample.name) {
                continue;
            }
            for (said, more) in [(true, ""), (false, ", no length in the root's row")] {
                let input = format!("{}{more}", sample.name);
                let times = self.times(&format!("in turn, {input}"), |run| {
                    run.value_frame(sample, said)
                })?;
                if let Some([once, turns]) = times {
                    let ratio = once / turns;
                    let (once, turns) = (show(once), show(turns));
                    table.print(&format!("| {input} | {once} | {turns} | {ratio:.2} |"));
                }
            }
        }
        Ok(())
    }

    /// How the time grows with what is given: each step has several times as
    /// much of it as the one before.
    fn growth(&self) -> Done {
        let table = &Table::new(GROWTH);
        let sizes = [1_024, 2_048, 4_096, 8_192, 16_384];
        let name = "bytes of small structs read";
        self.grow(table, name, &sizes, |run, size| {
            run.read(&samples::small_structs_of(size))
        })?;
        let name = "bytes of small structs written";
        self.grow(table, name, &sizes, |run, size| {
            run.write(&samples::small_structs_of(size))
        })?;
        let name = "pairs of each map in 16,384 bytes read, uint32 keys in no order";
        self.grow(table, name, &[8, 16, 32, 64], |run, pairs| {
            run.read(&samples::maps_of_pairs(pairs))
        })?;
        let rows = [16, 32, 64, 128, 256];
        self.grow(table, "types of 8 fields checked", &rows, |run, types| {
            run.check_table(&samples::table_of_types(types))
        })?;
        self.grow(table, "methods checked", &rows, |run, methods| {
            run.check_table(&samples::table_of_methods(methods))
        })?;
        let open = [1, 16, 32, 64, 128];
        self.grow(table, "calls open at a CANCEL", &open, |run, calls| {
            run.receive(&Arrival {
                schema: samples::receipt().schema,
                bytes: samples::frame(8, 0, &[]),
                open: (0..calls as u64).collect(),
            })
        })
    }

    fn grow(
        &self,
        table: &Table,
        what: &str,
        sizes: &[usize],
        times: impl Fn(Run, usize) -> Compared,
    ) -> Done {
        let mut before = None;
        for &size in sizes {
            let times = self.times(&format!("growth, {what}"), |run| times(run, size))?;
            let Some(Times { library, fast, .. }) = times else {
                continue;
            };
            let quick = fast.map_or("–".into(), show);
            let step = before.map_or("–".into(), |before| format!("{:.2}", library / before));
            let library_time = show(library);
            table.print(&format!(
                "| {what} | {size} | {library_time} | {quick} | {step} |"
            ));
            before = Some(library);
        }
        Ok(())
    }

    fn throughput(&self) -> Done {
        let table = Table::new(FRAMES);
        if let Some(listed) = self.times("throughput, a record listed", throughput::listed)? {
            let (bytes, frames) = (listed.bytes, listed.frames);
            let what = format!("a record of {bytes} bytes, {frames} frames, listed");
            table.print(&throughput_line(&what, frames, listed.times));
        }
        let times = self.times("throughput, frames received", throughput::received)?;
        if let Some(times) = times {
            let what = "a million frames of two bytes received";
            let million = times.map(|nanoseconds| nanoseconds * 1e6);
            table.print(&throughput_line(what, 1_000_000, million));
        }
        Ok(())
    }
}

/// A line of the last table, of so many frames in these nanoseconds.
fn throughput_line(what: &str, frames: usize, [ours, quick]: [f64; 2]) -> String {
    let per_second = |nanoseconds: f64| {
        let seconds = nanoseconds / 1e9;
        let rate = frames as f64 / seconds / 1e6;
        format!("{seconds:.4} s, {rate:.2} million a second")
    };
    let ratio = ours / quick;
    let (ours, quick) = (per_second(ours), per_second(quick));
    format!("| {what} | {ours} | {quick} | {ratio:.2} |")
}
