//! A plain implementation of the arf rules: the schema table, the reader and
//! writer of values, frames, the call table, the listing and the index of a
//! record, and the salvage of records with holes.
//!
//! Every entry answers with a value or a [`Refusal`]: a numbered reason and a
//! place. A refusal leaves the lent sheet and the lent output untouched.
//!
//! [`cases`] answers case files and [`generate`] makes them, so that any other
//! implementation of the same rules can be compared with this one.

#![forbid(unsafe_code)]

pub mod beside;
pub mod bitmap;
pub mod calls;
pub mod cases;
pub mod extension;
pub mod forward;
pub mod frame;
pub mod generate;
pub mod index;
pub mod keys;
pub mod listing;
pub mod reader;
pub mod receive;
pub mod refusal;
pub mod release;
pub mod salvage;
pub mod scalar;
pub mod schema;
pub mod tallies;
pub mod utf8;
pub mod value_frame;
pub mod varuint;
pub mod writer;

pub use beside::read_beside;
pub use calls::{Call, CallTable};
pub use extension::extends;
pub use forward::{forward, Tail};
pub use frame::{read_frame, write_frame, Frame, FrameAnswer, Header};
pub use index::{look_up, make_index};
pub use listing::list;
pub use reader::{read, Reading};
pub use receive::{Outcome, Received};
pub use refusal::{Reason, Refusal};
pub use release::Released;
pub use salvage::{salvage, Salvaged};
pub use scalar::{scalar, Scalar};
pub use schema::{check_table, Schema};
pub use tallies::Tally;
pub use value_frame::write_value_frame;
pub use writer::write;

/// The most stream elements that a call counts each way.
pub const MAX_ELEMENTS: u16 = 65_535;

/// The most bytes a payload may have.
pub const MAX_PAYLOAD: usize = 16_384;

/// The deepest a value may stand; the root stands at depth 1.
pub const MAX_DEPTH: u32 = 16;

/// The most pairs a map may have.
pub const MAX_PAIRS: usize = 64;

/// No reading has more key comparisons due: those of 128 maps of 64 pairs.
pub const MAX_COMPARISONS: usize = 258_048;
