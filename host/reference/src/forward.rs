//! The forwarding write: what a relay read goes on with everything that it did
//! not know.

use crate::refusal::{Reason, Refusal};
use crate::scalar::span;
use crate::schema::Schema;
use crate::writer::{payload_length, Judged};

/// Where the tail of a payload lies in the bytes of its sheet.
#[derive(Clone, Copy, Debug, Default, PartialEq, Eq)]
pub struct Tail {
    pub place: u32,
    pub length: u32,
}

/// Writes the value that a sheet shows over its bytes, with the unknown bits of
/// its root, and then the tail. Gives the length.
pub fn forward(
    schema: &[u8],
    type_number: u32,
    sheet: &[u32],
    bytes: &[u8],
    tail: Tail,
    out: &mut [u8],
) -> Result<usize, Refusal> {
    let schema = Schema::check(schema)?;
    let value = Judged::new(&schema, type_number, sheet, bytes)?;
    let tail = span(bytes, tail.place, tail.length).ok_or(Reason::SpanOutside.at(0))?;
    let unknown = value.unknown_bits();
    if tail.len() < unknown || unknown == 0 && !tail.is_empty() {
        return Err(Reason::SheetMisfit.at(0));
    }
    let length = payload_length(value.length.saturating_add(tail.len() as u64))?;
    let out = out.get_mut(..length).ok_or(Reason::OutputTooSmall.at(0))?;
    let (known, rest) = out.split_at_mut(value.length as usize);
    value.emit(known);
    let bitmap = value.root_bitmap();
    known[..bitmap.len()].copy_from_slice(bitmap);
    rest.copy_from_slice(tail);
    Ok(length)
}
