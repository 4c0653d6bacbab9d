//! Schema tables: the verdict on one, whether one extends another, and what a
//! good one has.

use crate::refusal::answer;
use crate::{ffi, read, read_beside, FrameKind, Header, Kind, Reading, Refusal, Value, NO_VALUE};

/// Whether the bytes are a good schema table.
///
/// ```
/// let empty = [0, 0, 0, 0, 0, 0, 0, 0, 0, 0, 0, 0, 1, 0, 0, 0];
/// assert_eq!(arf::check_table(&empty), Ok(()));
/// assert_eq!(arf::check_table(&[]), Err(arf::Refusal { number: 40, place: 0 }));
/// ```
pub fn check_table(schema: &[u8]) -> Result<(), Refusal> {
    let mut cells = [0];
    let number = ffi::check_table(schema, &mut cells);
    answer(number, cells[0], ())
}

/// Whether the new table extends the old one. A table that is not good gives
/// its refusal, the old table first.
///
/// ```
/// let empty = [0, 0, 0, 0, 0, 0, 0, 0, 0, 0, 0, 0, 1, 0, 0, 0];
/// assert_eq!(arf::extends(&empty, &empty), Ok(true));
/// assert_eq!(arf::extends(&empty, &[]).unwrap_err().number, 40);
/// ```
pub fn extends(old: &[u8], new: &[u8]) -> Result<bool, Refusal> {
    let mut cells = [0; 2];
    let number = ffi::extends(old, new, &mut cells);
    answer(number, cells[0], cells[1] == 1)
}

/// A good schema file: checked once, and asked for its types, fields and
/// methods.
///
/// ```
/// use arf::{Kind, Schema};
///
/// // uint8, a struct with one such field, and a method that takes and gives it.
/// let words = [
///     6u32, 0, 0, 16, 0, 1, 0, 0, 1, 2, 3, 12, 1, 1, u32::MAX, u32::MAX, 24, 32, 64, 1,
/// ];
/// let bytes: Vec<u8> = words.iter().flat_map(|word| word.to_le_bytes()).collect();
/// let schema = Schema::new(&bytes)?;
/// let kinds: Vec<_> = schema.types().map(|ty| ty.kind).collect();
/// assert_eq!(kinds, [Kind::Uint8, Kind::Struct]);
/// let field = schema.fields(1).next().unwrap();
/// assert_eq!((field.ordinal, field.type_number, field.optional), (0, 0, false));
/// let method = schema.method(1, 2, 3).unwrap();
/// assert_eq!((method.input, method.output_stream), (Some(1), None));
///
/// assert_eq!(Schema::new(&bytes[1..]).unwrap_err().number, 40);
/// # Ok::<(), arf::Refusal>(())
/// ```
#[derive(Clone, Copy, Debug, PartialEq, Eq)]
pub struct Schema<'a> {
    bytes: &'a [u8],
    fields_at: usize,
    methods_at: usize,
    trailer_at: usize,
}

/// A type of a schema file.
#[derive(Clone, Copy, Debug, PartialEq, Eq)]
pub struct Type {
    /// Its number, by which rows name it.
    pub number: u32,
    /// Its kind.
    pub kind: Kind,
    a: u32,
    b: u32,
}

impl Type {
    /// The type of an array's elements.
    pub fn element(&self) -> Option<u32> {
        (self.kind == Kind::Array).then_some(self.a)
    }

    /// The type of a map's keys.
    pub fn key(&self) -> Option<u32> {
        (self.kind == Kind::Map).then_some(self.a)
    }

    /// The type of a map's values.
    pub fn value(&self) -> Option<u32> {
        (self.kind == Kind::Map).then_some(self.b)
    }

    /// How many fields a struct has.
    pub fn field_count(&self) -> Option<usize> {
        (self.kind == Kind::Struct).then_some(self.b as usize)
    }
}

/// A field of a struct.
#[derive(Clone, Copy, Debug, PartialEq, Eq)]
pub struct Field {
    /// Which field of its struct it is, counted from 0.
    pub ordinal: usize,
    /// The number of its type.
    pub type_number: u32,
    /// Whether it may be absent.
    pub optional: bool,
}

/// A method of a schema file.
#[derive(Clone, Copy, Debug, PartialEq, Eq)]
pub struct Method {
    /// The number of its entry, by which a call's record names it.
    pub number: u32,
    /// The first of its identifiers.
    pub package: u32,
    /// The second.
    pub service: u32,
    /// The third.
    pub method: u32,
    /// The struct type of what INVOKE carries.
    pub input: Option<u32>,
    /// The struct type of what RESPONSE carries.
    pub output: Option<u32>,
    /// The struct type of the input stream's elements.
    pub input_stream: Option<u32>,
    /// The struct type of the output stream's elements.
    pub output_stream: Option<u32>,
}

impl Method {
    /// The header of a frame of this method.
    ///
    /// ```
    /// # let none = u32::MAX;
    /// # let words = [1, 2, 3, 0, none, none, none, none, 0, 0, 32, 1];
    /// # let bytes: Vec<u8> = words.iter().flat_map(|word| word.to_le_bytes()).collect();
    /// # let schema = arf::Schema::new(&bytes)?;
    /// let method = schema.method(1, 2, 3).unwrap();
    /// let header = method.header(arf::FrameKind::Cancel, 9);
    /// assert_eq!((header.kind, header.service, header.correlation), (8, 2, 9));
    /// # Ok::<(), arf::Refusal>(())
    /// ```
    pub fn header(&self, kind: FrameKind, correlation: u64) -> Header {
        Header {
            kind: kind.number(),
            package: self.package,
            service: self.service,
            method: self.method,
            correlation,
        }
    }
}

impl<'a> Schema<'a> {
    /// The schema of a file that is good, or why it is not.
    pub fn new(bytes: &'a [u8]) -> Result<Schema<'a>, Refusal> {
        check_table(bytes)?;
        let mut schema = Schema {
            bytes,
            fields_at: 0,
            methods_at: 0,
            trailer_at: bytes.len() - 16,
        };
        schema.fields_at = schema.word(schema.trailer_at) as usize;
        schema.methods_at = schema.word(schema.trailer_at + 4) as usize;
        Ok(schema)
    }

    /// The file.
    pub fn bytes(&self) -> &'a [u8] {
        self.bytes
    }

    /// A number of the file; 0 outside it, where a good file points nowhere.
    fn word(&self, at: usize) -> u32 {
        let bytes = self.bytes.get(at..).and_then(|rest| rest.first_chunk());
        bytes.map_or(0, |&bytes| u32::from_le_bytes(bytes))
    }

    /// The types, in order.
    pub fn types(&self) -> impl ExactSizeIterator<Item = Type> + 'a {
        let schema = *self;
        (0..self.fields_at as u32 / 12).map(move |number| schema.row(number))
    }

    /// The type with a number.
    pub fn type_at(&self, number: u32) -> Option<Type> {
        ((number as usize) < self.fields_at / 12).then(|| self.row(number))
    }

    fn row(&self, number: u32) -> Type {
        let at = 12 * number as usize;
        Type {
            number,
            kind: Kind::from_number(self.word(at)).unwrap_or(Kind::Bytes),
            a: self.word(at + 4),
            b: self.word(at + 8),
        }
    }

    /// The fields of a struct type, in order; none for any other type.
    pub fn fields(&self, type_number: u32) -> impl ExactSizeIterator<Item = Field> + 'a {
        let schema = *self;
        let row = self.type_at(type_number);
        let count = row.and_then(|ty| ty.field_count()).unwrap_or(0);
        let first = self.fields_at + 8 * row.map_or(0, |ty| ty.a as usize);
        (0..count).map(move |ordinal| Field {
            ordinal,
            type_number: schema.word(first + 8 * ordinal),
            optional: schema.word(first + 8 * ordinal + 4) == 1,
        })
    }

    /// The methods, in order.
    pub fn methods(&self) -> impl ExactSizeIterator<Item = Method> + 'a {
        let schema = *self;
        let count = (self.trailer_at - self.methods_at) / 32;
        (0..count).map(move |number| schema.method_entry(number))
    }

    fn method_entry(&self, number: usize) -> Method {
        let word = |i: usize| self.word(self.methods_at + 32 * number + 4 * i);
        let ty = |i: usize| Some(word(i)).filter(|&ty| ty != NO_VALUE);
        Method {
            number: number as u32,
            package: word(0),
            service: word(1),
            method: word(2),
            input: ty(4),
            output: ty(5),
            input_stream: ty(6),
            output_stream: ty(7),
        }
    }

    /// The method with these identifiers.
    pub fn method(&self, package: u32, service: u32, method: u32) -> Option<Method> {
        let wanted = (package, service, method);
        self.methods()
            .find(|entry| (entry.package, entry.service, entry.method) == wanted)
    }

    /// Whether this schema extends an old one.
    pub fn extends(&self, old: &Schema<'_>) -> bool {
        extends(old.bytes, self.bytes) == Ok(true)
    }

    /// Reads a payload of a struct type as [`read`](crate::read) does, and
    /// shows it as a [`Value`]. [`MAX_SHEET`](crate::MAX_SHEET) cells are
    /// enough for any payload, and four for each of its bytes.
    pub fn read<'v>(
        self,
        type_number: u32,
        payload: &'v [u8],
        sheet: &'v mut [u32],
    ) -> Result<Value<'v>, Refusal>
    where
        'a: 'v,
    {
        let reading = read(self.bytes, type_number, payload, sheet)?;
        Ok(Value::new(self, payload, sheet, reading))
    }

    /// Reads a payload by the writer's schema and shows it by this one, as
    /// [`read_beside`](crate::read_beside) does.
    pub fn read_beside<'v>(
        self,
        theirs: &Schema<'_>,
        type_number: u32,
        payload: &'v [u8],
        sheet: &'v mut [u32],
    ) -> Result<Value<'v>, Refusal>
    where
        'a: 'v,
    {
        let reading = read_beside(self.bytes, theirs.bytes, type_number, payload, sheet)?;
        Ok(Value::new(self, payload, sheet, reading))
    }

    /// The value of a sheet that a reading was shown on, as of a frame that a
    /// [call table](crate::CallTable::receive) accepted.
    pub fn shown<'v>(self, payload: &'v [u8], sheet: &'v [u32], reading: Reading) -> Value<'v>
    where
        'a: 'v,
    {
        Value::new(self, payload, sheet, reading)
    }
}
