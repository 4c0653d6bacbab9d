//! One write for a whole frame: the header and, straight behind it, the value
//! that a sheet shows.

use crate::frame::{frame_length, write_start, Header, Kind};
use crate::refusal::{Reason, Refusal};
use crate::schema::{Schema, NO_TYPE};
use crate::writer::{payload_length, Judged};

/// Writes the frame of a header and of the value that a sheet shows over its
/// bytes, and gives its length. With [`NO_TYPE`] and a sheet without rows the
/// payload is empty; the bytes are not looked at then.
pub fn write_value_frame(
    header: &Header,
    schema: &[u8],
    type_number: u32,
    sheet: &[u32],
    bytes: &[u8],
    out: &mut [u8],
) -> Result<usize, Refusal> {
    let schema = Schema::check(schema)?;
    let kind = Kind::from_number(header.kind).ok_or(Reason::Kind.at(0))?;
    let value = match type_number {
        NO_TYPE if sheet.len() < 4 => None,
        NO_TYPE => return Err(Reason::SheetMisfit.at(0)),
        _ => Some(Judged::new(&schema, type_number, sheet, bytes)?),
    };
    let size = payload_length(value.as_ref().map_or(0, |value| value.length))?;
    let length = frame_length(size);
    let out = out.get_mut(..length).ok_or(Reason::OutputTooSmall.at(0))?;
    let payload = write_start(kind, header, size, out);
    if let Some(value) = value {
        value.emit(payload);
    }
    Ok(length)
}
