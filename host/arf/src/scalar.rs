//! One row of a sheet as a value.

use crate::refusal::answer;
use crate::{ffi, Refusal};
use core::fmt;

/// A row of a sheet.
#[derive(Clone, Copy, Debug, PartialEq, Eq)]
pub struct Row {
    /// The number of its type.
    pub type_number: u32,
    /// Where its bytes start; for a struct, where its bitmap does.
    pub place: u32,
    /// How many bytes it has.
    pub length: u32,
    /// How many elements, pairs or present known fields it has.
    pub count: u32,
}

/// The value of a scalar, string or bytes row.
#[derive(Clone, Copy, Debug)]
pub enum Scalar {
    /// A bool.
    Truth(bool),
    /// A number of a signed type.
    Signed(i64),
    /// A number of an unsigned type.
    Unsigned(u64),
    /// A float with its bits beside it; the bits decide equality.
    Float32 {
        /// The float; any NaN is the same one.
        value: f32,
        /// The bits as they were written.
        bits: u32,
    },
    /// A float of eight bytes, likewise.
    Float64 {
        /// The float; any NaN is the same one.
        value: f64,
        /// The bits as they were written.
        bits: u64,
    },
    /// A string or bytes.
    Span {
        /// Where the content starts.
        place: usize,
        /// How many bytes it has.
        length: usize,
    },
}

impl Scalar {
    /// The case and its two numbers, as the library stores them. A NaN's own
    /// bits are stored as 0, and no other float has them beside other bits.
    fn from_cells([case, a, b]: [u64; 3]) -> Scalar {
        match case {
            1 => Scalar::Truth(a == 1),
            2 => Scalar::Signed(a as i64),
            3 => Scalar::Unsigned(a),
            4 => Scalar::Float32 {
                value: match b {
                    0 if a != 0 => f32::NAN,
                    own => f32::from_bits(own as u32),
                },
                bits: a as u32,
            },
            5 => Scalar::Float64 {
                value: match b {
                    0 if a != 0 => f64::NAN,
                    own => f64::from_bits(own),
                },
                bits: a,
            },
            _ => Scalar::Span {
                place: a as usize,
                length: b as usize,
            },
        }
    }
}

impl Scalar {
    /// The truth value of a bool.
    pub fn as_bool(&self) -> Option<bool> {
        match *self {
            Scalar::Truth(value) => Some(value),
            _ => None,
        }
    }

    /// A whole number, where it fits.
    pub fn as_i64(&self) -> Option<i64> {
        match *self {
            Scalar::Signed(value) => Some(value),
            Scalar::Unsigned(value) => value.try_into().ok(),
            _ => None,
        }
    }

    /// A whole number, where it fits.
    pub fn as_u64(&self) -> Option<u64> {
        match *self {
            Scalar::Signed(value) => value.try_into().ok(),
            Scalar::Unsigned(value) => Some(value),
            _ => None,
        }
    }

    /// A float of either width.
    pub fn as_f64(&self) -> Option<f64> {
        match *self {
            Scalar::Float32 { value, .. } => Some(value.into()),
            Scalar::Float64 { value, .. } => Some(value),
            _ => None,
        }
    }
}

impl PartialEq for Scalar {
    fn eq(&self, other: &Self) -> bool {
        use Scalar::*;
        match (*self, *other) {
            (Truth(a), Truth(b)) => a == b,
            (Signed(a), Signed(b)) => a == b,
            (Unsigned(a), Unsigned(b)) => a == b,
            (Float32 { bits: a, .. }, Float32 { bits: b, .. }) => a == b,
            (Float64 { bits: a, .. }, Float64 { bits: b, .. }) => a == b,
            (
                Span {
                    place: a,
                    length: n,
                },
                Span {
                    place: b,
                    length: m,
                },
            ) => (a, n) == (b, m),
            _ => false,
        }
    }
}

impl Eq for Scalar {}

impl fmt::Display for Scalar {
    fn fmt(&self, f: &mut fmt::Formatter<'_>) -> fmt::Result {
        match self {
            Scalar::Truth(value) => value.fmt(f),
            Scalar::Signed(value) => value.fmt(f),
            Scalar::Unsigned(value) => value.fmt(f),
            Scalar::Float32 { value, .. } => value.fmt(f),
            Scalar::Float64 { value, .. } => value.fmt(f),
            Scalar::Span { place, length } => write!(f, "{length} bytes at {place}"),
        }
    }
}

/// Hands out one row over its bytes as a value.
///
/// ```
/// // A table with one type, int8.
/// let words = [2u32, 0, 0, 12, 12, 12, 1];
/// let schema: Vec<u8> = words.iter().flat_map(|word| word.to_le_bytes()).collect();
/// let row = arf::Row { type_number: 0, place: 0, length: 1, count: 0 };
/// assert_eq!(arf::scalar(&schema, row, &[0x80]), Ok(arf::Scalar::Signed(-128)));
/// assert_eq!(arf::scalar(&schema, row, &[]).unwrap_err().number, 51);
/// ```
pub fn scalar(schema: &[u8], row: Row, bytes: &[u8]) -> Result<Scalar, Refusal> {
    let row = [row.type_number, row.place, row.length, row.count];
    let mut cells = [0; 4];
    let number = ffi::scalar(schema, row, bytes, &mut cells);
    let [place, value @ ..] = cells;
    answer(number, place, Scalar::from_cells(value))
}
