//! The proved arf entries for Rust programs.
//!
//! Each function lends its slices to the static library of `crates/exports_c`,
//! whose Rattle source is proved, and hands its answer on as a Rust value. No
//! function panics or fails for any input, on a thread that has [`STACK`] bytes
//! of stack, or [`INDEX_STACK`] for [`make_index`]: what the rules do not allow
//! comes back as a [`Refusal`] with the number and the place that they give it.
//!
//! ```
//! // A schema file with uint8, string, a struct with one of each, the second optional,
//! // and no method. It would be read from a file.
//! let words = [6u32, 0, 0, 12, 0, 0, 16, 0, 2, 0, 0, 1, 1, 36, 52, 52, 1];
//! let file: Vec<u8> = words.iter().flat_map(|word| word.to_le_bytes()).collect();
//! let schema = arf::Schema::new(&file)?;
//!
//! // A payload of type 2, and memory in which its value is shown.
//! let (payload, mut sheet) = (b"\x03\x07\x02ok", [0; 64]);
//! let value = schema.read(2, payload, &mut sheet)?;
//! assert_eq!(value.field(0).and_then(|field| field.as_u64()), Some(7));
//! assert_eq!(value.field(1).and_then(|field| field.text()), Some("ok"));
//!
//! // A byte is missing.
//! let refused = schema.read(2, &payload[..4], &mut sheet).unwrap_err();
//! assert_eq!(refused.to_string(), "20 at 2: an item, count or tail exceeds what remains");
//! # Ok::<(), arf::Refusal>(())
//! ```
//!
//! # The whole of it
//!
//! | for | there is |
//! |---|---|
//! | a schema file | [`Schema`], checked once, with its types, fields and methods |
//! | a payload | [`Schema::read`], which gives a [`Value`] with its [fields](Value::field) and [rows](Value::rows); [`write()`] and [`forward`] back |
//! | a value of one's own | [`Draft`], which makes the rows and bytes that [`write()`] and [`write_value_frame`] take |
//! | a frame | [`read_frame`], [`write_frame`], [`write_value_frame`] |
//! | a connection | [`Calls`], which judges frame after frame, says what to do next and counts what becomes of the calls of each method |
//! | a record | [`entries`], one after the other; [`salvage`] for a torn one; [`make_index`] and [`look_up`] for all entries of one call |
//! | a refusal | [`Refusal`] with its place, and [`Reason`] with its words |
//!
//! The functions take a schema file's bytes and check them at each call, as the
//! proved entries do; the types above are a thin layer over them. Nothing of
//! this crate is proved, only what it calls.
//!
//! The crate uses `core` alone, has no dependency, and is for x86-64 Linux.
//! `build.rs` links the archive that `tools/build-library` makes, or the one in
//! the folder that the environment variable `ARF_LIB_DIR` names by an absolute
//! path.

#![no_std]
#![deny(unsafe_op_in_unsafe_fn)]
#![deny(missing_docs)]

#[cfg(test)]
extern crate std;

mod calls;
mod connection;
mod draft;
mod ffi;
mod frame;
mod index;
mod kind;
mod limits;
mod payload;
mod reason;
mod record;
mod refusal;
mod rows;
mod scalar;
mod schema;
mod tally;

pub use calls::{Call, CallTable, Outcome, Received, Released};
pub use connection::{Calls, Frame, Step};
pub use draft::Draft;
pub use frame::{read_frame, write_frame, write_value_frame, FrameRead, Header};
pub use index::{look_up, look_up_text, make_index, IndexRow, IndexRows, LookUp};
pub use kind::{FrameKind, Kind, NoKind, NoSide, Side};
pub use limits::{
    INDEX_STACK, MAX_COMPARISONS, MAX_DEPTH, MAX_ELEMENTS, MAX_FIELDS, MAX_FRAME, MAX_INDEX,
    MAX_METHODS, MAX_PAIRS, MAX_PAYLOAD, MAX_RECORD, MAX_SCHEMA, MAX_SHEET, MAX_STRUCT_FIELDS,
    MAX_TYPES, NO_VALUE, SLOTS, SPAN_CELLS, STACK,
};
pub use payload::{forward, read, read_beside, write, Reading};
pub use reason::{NoReason, Reason};
pub use record::{entries, entry_at, salvage, Entries, Entry, Salvaged};
pub use refusal::Refusal;
pub use rows::{Children, Node, Role, Rows, Value};
pub use scalar::{scalar, Row, Scalar};
pub use schema::{check_table, extends, Field, Method, Schema, Type};
pub use tally::Tally;
