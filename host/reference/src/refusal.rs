//! The numbers that come back for a refusal.

/// Why something was refused. Each case has its published number.
#[derive(Clone, Copy, Debug, PartialEq, Eq, PartialOrd, Ord, Hash)]
#[repr(u8)]
pub enum Reason {
    /// The frame does not begin with AF 01.
    Magic = 2,
    /// The frame's version is not 1.
    Version = 3,
    /// The frame's kind is not 1 to 8.
    Kind = 4,
    /// The frame's flags are not 0.
    Flags = 5,
    /// The frame's length is a malformed VarUInt.
    FrameLength = 6,
    /// The payload is above 16,384 bytes.
    PayloadTooLong = 7,
    /// This side may not send this kind, or there is no such side.
    WrongSide = 8,
    /// No method has the identifiers of an INVOKE.
    MethodUnknown = 9,
    /// The call of an INVOKE is already open.
    CallAlreadyOpen = 10,
    /// The call of another frame is not open.
    CallNotOpen = 11,
    /// The identifiers differ from those of the call.
    IdentifiersDiffer = 12,
    /// All 128 slots of the call table are taken.
    TooManyCalls = 13,
    /// The order of frames does not allow this frame now.
    NotAllowedNow = 14,
    /// The call table breaks one of its own rules.
    CallTableNotGood = 15,
    /// A frame of the server for a cancelled call is dropped, its payload unread.
    Dropped = 16,
    /// A stream of the call has had as many elements as are counted.
    ElementLimit = 17,
    /// A tally that would rise is at its limit.
    TallyFull = 18,
    /// There is not one tally row for each method.
    TallyRows = 19,
    /// An item, count or tail exceeds the bytes that remain.
    ExceedsRemaining = 20,
    /// A VarUInt has a tenth byte above 1, or two or more bytes and the last 0.
    MalformedVarUint = 21,
    /// A bool is neither 0 nor 1.
    NotABool = 22,
    /// A string is not UTF-8.
    NotUtf8 = 23,
    /// A map repeats a key.
    DuplicateKey = 24,
    /// The bit of a required field is not set.
    RequiredFieldAbsent = 25,
    /// An inner struct sets a bit beyond its known fields.
    UnknownInnerBit = 26,
    /// Bytes follow the value although no unknown bit is set.
    SurplusBytes = 27,
    /// A value stands at depth 17.
    TooDeep = 28,
    /// There is a payload where none belongs.
    UnexpectedPayload = 29,
    /// The sheet has too few rows.
    SheetTooSmall = 30,
    /// A map has more than 64 pairs.
    TooManyPairs = 31,
    /// The shape of the schema file is wrong.
    SchemaShape = 40,
    /// The schema file has too many types, fields or methods.
    TooManyRows = 41,
    /// A type row is at fault.
    TypeRow = 42,
    /// A field entry is at fault.
    FieldEntry = 43,
    /// A method entry is at fault.
    MethodEntry = 44,
    /// The record, or the listing's schema file, is above 65,536 bytes.
    RecordTooLong = 45,
    /// The type asked for is no struct.
    NotAStruct = 46,
    /// The writer's table does not extend ours, wider bitmaps aside.
    NoExtension = 47,
    /// The sheet does not fit the type or itself.
    SheetMisfit = 50,
    /// A span lies outside the bytes.
    SpanOutside = 51,
    /// The output is too small.
    OutputTooSmall = 52,
    /// The list of the spans left out is too small.
    ListTooSmall = 53,
    /// The index has a wrong shape, or its rows do not rise.
    IndexShape = 65,
    /// The index is of a record of another length.
    OtherRecord = 66,
}

impl Reason {
    /// The published number of this reason.
    pub const fn number(self) -> u32 {
        self as u32
    }

    /// Whether this is one of the payload refusals, 20 to 29 and 31, which end
    /// a call.
    pub const fn ends_call(self) -> bool {
        matches!(self.number(), 20..=29 | 31)
    }

    /// Whether a frame refused for this reason is used up: 8 to 14, 16, and the
    /// payload refusals.
    pub const fn uses_frame(self) -> bool {
        matches!(self.number(), 8..=14 | 16) || self.ends_call()
    }

    /// This reason at a place.
    pub const fn at(self, place: usize) -> Refusal {
        Refusal {
            reason: self,
            place: place as u32,
        }
    }
}

/// A reason and the place it is found at.
#[derive(Clone, Copy, Debug, PartialEq, Eq)]
pub struct Refusal {
    pub reason: Reason,
    pub place: u32,
}

impl Refusal {
    /// The published number of the reason.
    pub const fn number(self) -> u32 {
        self.reason.number()
    }
}
