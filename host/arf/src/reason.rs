//! Why something was refused, as a type with words.

use core::fmt;

macro_rules! reasons {
    ($($name:ident = $number:literal, $meaning:literal, $advice:literal;)*) => {
        /// Why something was refused. The numbers are those of the format, and
        /// the words those of `arf explain`.
        ///
        /// ```
        /// use arf::Reason;
        ///
        /// let reason = Reason::try_from(26).unwrap();
        /// assert_eq!(reason, Reason::UnknownBit);
        /// assert_eq!(u32::from(reason), 26);
        /// assert_eq!(reason.to_string(), "an inner struct sets an unknown bit");
        /// assert!(reason.advice().starts_with("The carrier has added a field"));
        /// assert_eq!(Reason::try_from(99).unwrap_err().to_string(), "99 is no refusal");
        /// ```
        #[derive(Clone, Copy, Debug, PartialEq, Eq, Hash, PartialOrd, Ord)]
        #[repr(u32)]
        #[non_exhaustive]
        pub enum Reason {
            $(#[doc = concat!(stringify!($number), ": ", $meaning, ".")] $name = $number,)*
        }

        impl Reason {
            /// All reasons, by rising numbers.
            pub const ALL: &'static [Reason] = &[$(Reason::$name,)*];

            /// What it means, in a few words without a full stop.
            pub const fn meaning(self) -> &'static str {
                match self {
                    $(Reason::$name => $meaning,)*
                }
            }

            /// What to do about it, in a sentence or two.
            pub const fn advice(self) -> &'static str {
                match self {
                    $(Reason::$name => $advice,)*
                }
            }
        }
    };
}

reasons! {
    Magic = 2, "the frame does not begin with AF 01",
        "These bytes are no frame. Where a record stops here, it is damaged: salvage it, and list the copy. On a connection, end it.";
    Version = 3, "the frame's version is not 1",
        "The sender speaks another version of the format, or the bytes are damaged. Ask the carrier which version it sends.";
    Kind = 4, "the frame's kind is not 1 to 8",
        "The sender uses a kind that the format has not, or the bytes are damaged. When you write a frame, give it a kind from 1 to 8.";
    Flags = 5, "the frame's flags are not 0",
        "The sender sets a flag that the format has not, or the bytes are damaged. Ask the carrier what the flag means.";
    Length = 6, "the frame's length is malformed",
        "A length has more bytes than it needs, or more than a length may have. Ask the carrier to write lengths in their shortest form.";
    PayloadTooLong = 7, "the payload is above 16,384 bytes",
        "The value is too large for a frame. Ask the sender to split its batch; as the sender, write it as several values.";
    WrongSide = 8, "this side may not send this kind of frame, or there is no such side",
        "A client sent what a server sends, or a server what a client sends; or the entry's side is neither C nor S. Look at who wrote the entry.";
    UnknownMethod = 9, "no method has these identifiers",
        "Our schema file has no such method. Ask the carrier for its present schema file, and compare the two with arf extends.";
    CallOpen = 10, "the call is already open",
        "The call's number was taken for a new call before the old one had ended. The client has to take another number, or release a call that it cancelled.";
    CallNotOpen = 11, "the call is not open",
        "The call has ended, or was never opened, or its opening was refused. Look at the earlier lines of this call.";
    OtherMethod = 12, "the identifiers differ from the call's",
        "The frame names another method than its call was opened with. The sender has mixed up two calls: tell the carrier both lines.";
    TooManyCalls = 13, "128 calls are open",
        "No more calls fit the table. Wait until a call has ended, or release one that was cancelled.";
    NotNow = 14, "the frame or the release is not allowed now",
        "The frame comes too early, too late or once too often, or its method has no such stream; or a call to release was not cancelled. Look at the call's earlier lines.";
    CallTable = 15, "the call table is not good",
        "Something else than the library has written to the call table, or it was lent too few cells. Start the connection anew with a fresh table.";
    Dropped = 16, "a frame of the server to a cancelled call, which is dropped",
        "We cancelled the call, and this answer was already on its way. Nothing to do; what it says was not read.";
    TooManyElements = 17, "the call's stream has had 65,535 elements",
        "No more elements fit this call. End it, and open another one for the rest.";
    TallyFull = 18, "a tally at 4,294,967,295 would rise",
        "The tally row of the method is full. Take the calls that have ended out of it, keep their figures, and call again: nothing has changed.";
    TallyRows = 19, "the number of tally rows is not that of the methods",
        "Lend one tally row for each method of the schema file.";
    Cut = 20, "an item, count or tail exceeds what remains",
        "The payload ends before its value does, or a length in it is wrong. Tell the carrier the frame and the place in its payload.";
    VarUInt = 21, "a VarUInt is malformed",
        "A length or a count has more bytes than it needs, or more than it may have. Ask the carrier to write them in their shortest form.";
    Bool = 22, "a bool is neither 0 nor 1",
        "The sender wrote another byte where a truth value belongs. Tell the carrier the frame and the place in its payload.";
    Utf8 = 23, "a string is not UTF-8",
        "The sender wrote a text in another encoding. Tell the carrier the frame and the place where the text starts.";
    RepeatedKey = 24, "a map repeats a key",
        "The sender wrote a key twice, so that its value is in doubt. Tell the carrier the frame and the place of the later key.";
    AbsentField = 25, "a required field is absent",
        "The sender left out a field that our schema file requires. Ask the carrier for its present schema file, and compare the two with arf extends.";
    UnknownBit = 26, "an inner struct sets an unknown bit",
        "The carrier has added a field to a struct inside the value, and our schema file cannot tell where it ends. Get the carrier's schema file, and read with both.";
    Surplus = 27, "bytes follow the value",
        "The payload is longer than its value by our schema file. Ask the carrier for its present schema file, and compare the two with arf extends.";
    TooDeep = 28, "a value stands at depth 17",
        "Values may lie in each other 16 deep. Ask the sender for a flatter value.";
    UnduePayload = 29, "there is a payload where none belongs",
        "A close, a CANCEL or the answer of a method without output has to be empty. The call has ended; tell the carrier the frame.";
    SheetTooShort = 30, "the sheet has too few rows",
        "The value is right, and has more rows than were lent. A program calls again with a longer sheet; a listing lends 4,096 rows, and stops here.";
    MapTooLong = 31, "a map of more than 64 pairs",
        "Ask the sender to split the map. A map of more pairs takes too long to read.";
    SchemaShape = 40, "the shape of the schema file is wrong",
        "The file is no schema file, or was cut or changed on its way. Get it anew.";
    TooManyRows = 41, "the schema file has too many rows",
        "A schema file has at most 256 types, 2,048 fields and 256 methods. Ask whoever made it for a smaller one.";
    TypeRow = 42, "a type row is at fault",
        "The place is the number of the type row, counted from 0. Tell whoever made the schema file.";
    Field = 43, "a field is at fault",
        "The place is the number of the field, counted from 0 over the whole file. Tell whoever made the schema file.";
    Method = 44, "a method is at fault",
        "The place is the number of the method, counted from 0. Tell whoever made the schema file.";
    FileTooLong = 45, "the record or the schema file is above 65,536 bytes",
        "Cut a record between two entries, and take its parts one by one. A schema file of this length is none: get it anew.";
    NoStruct = 46, "the type asked for is no struct",
        "A value is read and written as a struct of the schema file. Ask for the number of a type row of kind 16.";
    NoExtension = 47, "the writer's table does not extend ours",
        "The carrier's schema file has lost or changed something that ours has. Ask the carrier for the file that goes with what it sends.";
    Sheet = 50, "the sheet or its tail does not fit",
        "The rows do not show one value of the type asked for. The place is the row, counted from 0; for a tail, and for a value without rows, it is 0.";
    Outside = 51, "a span or the tail lies outside the bytes",
        "A row's place and length go beyond the bytes that were lent with the sheet. Lend the bytes that the sheet was read from.";
    OutputTooShort = 52, "the output is too small",
        "Lend a longer output, and call again: nothing was written. No payload has more than 16,384 bytes, and no frame more than 16,412.";
    ListTooShort = 53, "the list of spans is too small",
        "Lend a longer list, and call again: nothing was written. 4,682 cells are enough for any record.";
    Index = 65, "the shape or the order of the index is wrong",
        "The file is no index, or was cut or changed. Make it anew from the record.";
    OtherRecord = 66, "the index is for a record of another length",
        "The record has grown or was cut since its index was made, or the index is another record's. Make it anew.";
}

impl Reason {
    /// The number of the format.
    pub const fn number(self) -> u32 {
        self as u32
    }

    /// The reason that has a number of the format, if any has.
    pub fn from_number(number: u32) -> Option<Reason> {
        let known = |reason: &&Reason| reason.number() == number;
        Reason::ALL.iter().find(known).copied()
    }
}

impl fmt::Display for Reason {
    fn fmt(&self, f: &mut fmt::Formatter<'_>) -> fmt::Result {
        f.write_str(self.meaning())
    }
}

impl core::error::Error for Reason {}

impl From<Reason> for u32 {
    fn from(reason: Reason) -> u32 {
        reason.number()
    }
}

/// A number that no refusal has: 0 is an acceptance, 1 asks for more bytes, and
/// the rest means nothing.
#[derive(Clone, Copy, Debug, PartialEq, Eq, Hash)]
pub struct NoReason(pub u32);

impl fmt::Display for NoReason {
    fn fmt(&self, f: &mut fmt::Formatter<'_>) -> fmt::Result {
        write!(f, "{} is no refusal", self.0)
    }
}

impl core::error::Error for NoReason {}

impl TryFrom<u32> for Reason {
    type Error = NoReason;

    fn try_from(number: u32) -> Result<Reason, NoReason> {
        Reason::from_number(number).ok_or(NoReason(number))
    }
}
