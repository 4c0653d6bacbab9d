//! Large cases: full tables, payloads of 1,024 bytes and more, records of 65,536
//! bytes, indexes of thousands of rows.
//!
//! They stand apart from the sorts of the other cases, so that each use says
//! how many of them it has: in `host/compare` one case in [`ONE_LARGE_IN`] is large,
//! and `tools/make-cases` stores one part of large cases alone, four of each
//! code, since such a case has some twenty thousand bytes.

mod full;
mod last_rows;
mod payloads;
mod records;
mod sheets;
mod sorts;
mod values;

pub use full::filled;
pub use payloads::long_length;
pub(super) use sorts::CODES;
pub use values::long_value;

/// In the random comparison one case in so many is large.
pub const ONE_LARGE_IN: usize = 2;
