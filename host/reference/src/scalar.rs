//! One scalar row over its bytes, handed out as a value.

use crate::refusal::{Reason, Refusal};
use crate::schema::{Schema, Type};
use crate::utf8;

/// The value of a scalar, string or bytes row.
#[derive(Clone, Copy, Debug)]
pub enum Scalar {
    Truth(bool),
    Signed(i64),
    Unsigned(u64),
    /// A float with its bits beside it; the bits decide equality.
    Float32 {
        value: f32,
        bits: u32,
    },
    Float64 {
        value: f64,
        bits: u64,
    },
    /// Place and length of a string or bytes.
    Span {
        place: u32,
        length: u32,
    },
}

impl PartialEq for Scalar {
    fn eq(&self, other: &Self) -> bool {
        use Scalar::*;
        match (*self, *other) {
            (Truth(a), Truth(b)) => a == b,
            (Signed(a), Signed(b)) => a == b,
            (Unsigned(a), Unsigned(b)) => a == b,
            (Float32 { bits: a, .. }, Float32 { bits: b, .. }) => a == b,
            (Float64 { bits: a, .. }, Float64 { bits: b, .. }) => a == b,
            (
                Span { place, length },
                Span {
                    place: other_place,
                    length: other_length,
                },
            ) => (place, length) == (other_place, other_length),
            _ => false,
        }
    }
}

impl Eq for Scalar {}

/// Hands out one row of type, place, length and count.
pub fn scalar(schema: &[u8], row: [u32; 4], bytes: &[u8]) -> Result<Scalar, Refusal> {
    let schema = Schema::check(schema)?;
    let [type_number, place, length, count] = row;
    let leaf = schema
        .find_type(type_number)
        .filter(|&leaf| fits(leaf, length, count))
        .ok_or(Reason::SheetMisfit.at(0))?;
    let content = span(bytes, place, length).ok_or(Reason::SpanOutside.at(0))?;
    if let Some(reason) = content_fault(leaf, content) {
        return Err(reason.at(place as usize));
    }
    Ok(value(leaf, place, content))
}

/// Whether a row alone fits a scalar, string or bytes: its width, and count 0.
#[inline]
pub(crate) fn fits(leaf: Type, length: u32, count: u32) -> bool {
    let width_fits = match leaf {
        Type::String | Type::Bytes => true,
        scalar => scalar.width() == Some(length as usize),
    };
    width_fits && count == 0
}

/// The bytes a row points to, if they are all there.
#[inline]
pub(crate) fn span(bytes: &[u8], place: u32, length: u32) -> Option<&[u8]> {
    bytes.get(place as usize..)?.get(..length as usize)
}

/// The fault of a content that has the right length.
#[inline]
pub(crate) fn content_fault(leaf: Type, content: &[u8]) -> Option<Reason> {
    match leaf {
        Type::Bool if content != [0] && content != [1] => Some(Reason::NotABool),
        Type::String if !utf8::is_valid(content) => Some(Reason::NotUtf8),
        _ => None,
    }
}

/// The value of a content that has no fault.
fn value(leaf: Type, place: u32, content: &[u8]) -> Scalar {
    let bits = crate::bitmap::load(content);
    match leaf {
        Type::Bool => Scalar::Truth(bits == 1),
        Type::Signed(width) => {
            let unused = 64 - 8 * width;
            Scalar::Signed((bits << unused) as i64 >> unused)
        }
        Type::Unsigned(_) => Scalar::Unsigned(bits),
        Type::Float32 => Scalar::Float32 {
            value: f32::from_bits(bits as u32),
            bits: bits as u32,
        },
        Type::Float64 => Scalar::Float64 {
            value: f64::from_bits(bits),
            bits,
        },
        _ => Scalar::Span {
            place,
            length: content.len() as u32,
        },
    }
}
