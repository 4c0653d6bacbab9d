//! What the programs of this crate measure, and how calls are timed.

#![forbid(unsafe_code)]

pub mod answers;
pub mod lines;
pub mod measure;
pub mod nests;
pub mod samples;
pub mod throughput;

/// The sheet has room for the rows of any payload.
pub const CELLS: usize = 4 * 16_384;

/// Nanoseconds, or microseconds or milliseconds where there are many.
pub fn show(nanoseconds: f64) -> String {
    if nanoseconds < 1e3 {
        format!("{nanoseconds:.1} ns")
    } else if nanoseconds < 1e6 {
        format!("{:.1} µs", nanoseconds / 1e3)
    } else {
        format!("{:.1} ms", nanoseconds / 1e6)
    }
}
