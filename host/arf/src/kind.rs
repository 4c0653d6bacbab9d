//! The kinds of types and of frames, and the two sides.

use core::fmt;

/// A number that stands for no kind.
#[derive(Clone, Copy, Debug, PartialEq, Eq, Hash)]
pub struct NoKind(pub u32);

impl fmt::Display for NoKind {
    fn fmt(&self, f: &mut fmt::Formatter<'_>) -> fmt::Result {
        write!(f, "{} is no kind", self.0)
    }
}

impl core::error::Error for NoKind {}

macro_rules! kinds {
    ($(#[$outer:meta])* $kind:ident { $($(#[$doc:meta])* $name:ident = $number:literal, $word:literal;)* }) => {
        $(#[$outer])*
        #[derive(Clone, Copy, Debug, PartialEq, Eq, Hash, PartialOrd, Ord)]
        #[repr(u32)]
        #[non_exhaustive]
        pub enum $kind {
            $($(#[$doc])* $name = $number,)*
        }

        impl $kind {
            /// The number of the format.
            pub const fn number(self) -> u32 {
                self as u32
            }

            /// The kind that has a number of the format, if any has.
            pub const fn from_number(number: u32) -> Option<$kind> {
                match number {
                    $($number => Some($kind::$name),)*
                    _ => None,
                }
            }
        }

        impl fmt::Display for $kind {
            fn fmt(&self, f: &mut fmt::Formatter<'_>) -> fmt::Result {
                f.write_str(match self {
                    $($kind::$name => $word,)*
                })
            }
        }

        impl From<$kind> for u32 {
            fn from(kind: $kind) -> u32 {
                kind.number()
            }
        }

        impl TryFrom<u32> for $kind {
            type Error = NoKind;

            fn try_from(number: u32) -> Result<$kind, NoKind> {
                $kind::from_number(number).ok_or(NoKind(number))
            }
        }
    };
}

kinds! {
    /// The kind of a type.
    ///
    /// ```
    /// use arf::Kind;
    ///
    /// assert_eq!(Kind::try_from(12), Ok(Kind::String));
    /// assert_eq!(Kind::Uint8.number(), 6);
    /// assert_eq!(Kind::Struct.to_string(), "struct");
    /// assert_eq!(Kind::try_from(17).unwrap_err().to_string(), "17 is no kind");
    /// ```
    Kind {
        /// A truth value, one byte.
        Bool = 1, "bool";
        /// A signed number of one byte.
        Int8 = 2, "int8";
        /// A signed number of two bytes.
        Int16 = 3, "int16";
        /// A signed number of four bytes.
        Int32 = 4, "int32";
        /// A signed number of eight bytes.
        Int64 = 5, "int64";
        /// A number of one byte.
        Uint8 = 6, "uint8";
        /// A number of two bytes.
        Uint16 = 7, "uint16";
        /// A number of four bytes.
        Uint32 = 8, "uint32";
        /// A number of eight bytes.
        Uint64 = 9, "uint64";
        /// An IEEE 754 number of four bytes.
        Float32 = 10, "float32";
        /// An IEEE 754 number of eight bytes.
        Float64 = 11, "float64";
        /// UTF-8 text.
        String = 12, "string";
        /// Bytes of any meaning.
        Bytes = 13, "bytes";
        /// Elements of one type.
        Array = 14, "array";
        /// Pairs of a key and a value, no two with the same key.
        Map = 15, "map";
        /// Fields, of which the optional ones may be absent.
        Struct = 16, "struct";
    }
}

impl Kind {
    /// The number of bytes of a value of this kind, where it is always the same.
    pub const fn width(self) -> Option<usize> {
        match self {
            Kind::Bool | Kind::Int8 | Kind::Uint8 => Some(1),
            Kind::Int16 | Kind::Uint16 => Some(2),
            Kind::Int32 | Kind::Uint32 | Kind::Float32 => Some(4),
            Kind::Int64 | Kind::Uint64 | Kind::Float64 => Some(8),
            _ => None,
        }
    }

    /// Whether a value of this kind has values in it.
    pub const fn is_composite(self) -> bool {
        matches!(self, Kind::Array | Kind::Map | Kind::Struct)
    }
}

kinds! {
    /// The kind of a frame.
    ///
    /// ```
    /// use arf::{FrameKind, Side};
    ///
    /// assert_eq!(FrameKind::try_from(6), Ok(FrameKind::Response));
    /// assert_eq!(FrameKind::Response.side(), Side::Server);
    /// assert_eq!(FrameKind::InClose.to_string(), "IN_CLOSE");
    /// ```
    FrameKind {
        /// Opens a call.
        Invoke = 1, "INVOKE";
        /// An element of the input stream.
        InStream = 2, "IN_STREAM";
        /// The end of the input stream.
        InClose = 3, "IN_CLOSE";
        /// An element of the output stream.
        OutStream = 4, "OUT_STREAM";
        /// The end of the output stream.
        OutClose = 5, "OUT_CLOSE";
        /// The answer, once for every call.
        Response = 6, "RESPONSE";
        /// Ends the call as failed.
        Error = 7, "ERROR";
        /// Cancels the call.
        Cancel = 8, "CANCEL";
    }
}

impl FrameKind {
    /// The side that sends frames of this kind.
    pub const fn side(self) -> Side {
        match self {
            FrameKind::Invoke | FrameKind::InStream | FrameKind::InClose | FrameKind::Cancel => {
                Side::Client
            }
            _ => Side::Server,
        }
    }
}

/// Who sent a frame.
///
/// ```
/// use arf::Side;
///
/// assert_eq!(Side::try_from(b'C'), Ok(Side::Client));
/// assert_eq!(u8::from(Side::Server), b'S');
/// assert_eq!(Side::try_from(b'x').unwrap_err().to_string(), "120 is no side");
/// ```
#[derive(Clone, Copy, Debug, PartialEq, Eq, Hash)]
pub enum Side {
    /// The byte C: who opens calls.
    Client,
    /// The byte S: who answers them.
    Server,
}

impl From<Side> for u8 {
    fn from(side: Side) -> u8 {
        match side {
            Side::Client => b'C',
            Side::Server => b'S',
        }
    }
}

impl TryFrom<u8> for Side {
    type Error = NoSide;

    fn try_from(byte: u8) -> Result<Side, NoSide> {
        match byte {
            b'C' => Ok(Side::Client),
            b'S' => Ok(Side::Server),
            _ => Err(NoSide(byte)),
        }
    }
}

impl fmt::Display for Side {
    fn fmt(&self, f: &mut fmt::Formatter<'_>) -> fmt::Result {
        f.write_str(match self {
            Side::Client => "client",
            Side::Server => "server",
        })
    }
}

/// A byte that stands for no side.
#[derive(Clone, Copy, Debug, PartialEq, Eq, Hash)]
pub struct NoSide(pub u8);

impl fmt::Display for NoSide {
    fn fmt(&self, f: &mut fmt::Formatter<'_>) -> fmt::Result {
        write!(f, "{} is no side", self.0)
    }
}

impl core::error::Error for NoSide {}
