//! Why something was refused, in numbers and in words.

use crate::Reason;
use core::fmt;

/// Why something was refused: the number of the reason, and the place.
///
/// ```
/// let refused = arf::check_table(&[]).unwrap_err();
/// assert_eq!((refused.number, refused.place), (40, 0));
/// assert_eq!(refused.reason(), Some(arf::Reason::SchemaShape));
/// assert_eq!(refused.to_string(), "40 at 0: the shape of the schema file is wrong");
/// ```
#[derive(Clone, Copy, Debug, PartialEq, Eq, Hash)]
pub struct Refusal {
    /// The number of the reason.
    pub number: u32,
    /// Where the fault is: a byte of a payload, a row of a schema file's
    /// section or a row of a sheet, counted from 0; 0 for all else.
    pub place: usize,
}

impl Refusal {
    /// The reason. Every refusal that the library gives has one.
    pub fn reason(&self) -> Option<Reason> {
        Reason::from_number(self.number)
    }

    /// What the number means.
    pub fn meaning(&self) -> &'static str {
        match (self.number, self.reason()) {
            (_, Some(reason)) => reason.meaning(),
            (1, None) => "more bytes are needed",
            (_, None) => "no number of this format",
        }
    }

    /// What to do about it.
    pub fn advice(&self) -> &'static str {
        self.reason().map_or("", Reason::advice)
    }
}

impl fmt::Display for Refusal {
    fn fmt(&self, f: &mut fmt::Formatter<'_>) -> fmt::Result {
        write!(f, "{} at {}: {}", self.number, self.place, self.meaning())
    }
}

impl core::error::Error for Refusal {}

/// A value for the number 0, and a refusal for any other.
pub(crate) fn answer<T>(number: u32, place: u64, value: T) -> Result<T, Refusal> {
    match number {
        0 => Ok(value),
        _ => Err(Refusal {
            number,
            place: place as usize,
        }),
    }
}
