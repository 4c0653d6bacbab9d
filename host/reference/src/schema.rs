//! The schema table: its check and its accessors.

use crate::refusal::{Reason, Refusal};

/// The most type rows, fields and methods of a table.
pub const MAX_TYPES: usize = 256;
pub const MAX_FIELDS: usize = 2_048;
pub const MAX_METHODS: usize = 256;

/// What stands in a method entry where the form has an N.
pub const NO_TYPE: u32 = u32::MAX;

/// A type row in its meaning.
#[derive(Clone, Copy, Debug, PartialEq, Eq)]
pub enum Type {
    Bool,
    /// A signed integer of 1, 2, 4 or 8 bytes.
    Signed(u32),
    /// An unsigned integer of 1, 2, 4 or 8 bytes.
    Unsigned(u32),
    Float32,
    Float64,
    String,
    Bytes,
    Array {
        element: u32,
    },
    Map {
        key: u32,
        value: u32,
    },
    Struct {
        first: u32,
        count: u32,
    },
}

impl Type {
    /// The width of a scalar; none for strings, bytes and composites.
    #[inline]
    pub const fn width(self) -> Option<usize> {
        match self {
            Type::Bool => Some(1),
            Type::Signed(width) | Type::Unsigned(width) => Some(width as usize),
            Type::Float32 => Some(4),
            Type::Float64 => Some(8),
            _ => None,
        }
    }

    /// The meaning of a row of a checked table, where only kind 16 is left
    /// after the first fifteen.
    #[inline]
    const fn from_row([kind, a, b]: [u32; 3]) -> Type {
        match kind {
            1 => Type::Bool,
            2..=5 => Type::Signed(1 << (kind - 2)),
            6..=9 => Type::Unsigned(1 << (kind - 6)),
            10 => Type::Float32,
            11 => Type::Float64,
            12 => Type::String,
            13 => Type::Bytes,
            14 => Type::Array { element: a },
            15 => Type::Map { key: a, value: b },
            _ => Type::Struct { first: a, count: b },
        }
    }
}

/// A field entry of a checked table.
#[derive(Clone, Copy, Debug, PartialEq, Eq)]
pub struct Field {
    pub type_number: u32,
    pub optional: bool,
}

/// A method entry of a checked table.
#[derive(Clone, Copy, Debug, PartialEq, Eq)]
pub struct Method {
    /// Package, service and method.
    pub identifiers: [u32; 3],
    pub form: usize,
    /// Types of input, output, input stream and output stream.
    pub types: [u32; 4],
}

impl Method {
    fn from_row(row: &[u8; 32]) -> Method {
        let [package, service, method, form, types @ ..]: [u32; 8] = words(row);
        Method {
            identifiers: [package, service, method],
            form: form as usize,
            types,
        }
    }
}

/// The sections of a schema file. Only [`Schema::check`] hands one out, so
/// every number in it can be relied on.
#[derive(Clone, Copy, Debug)]
pub struct Schema<'a> {
    types: &'a [[u8; 12]],
    fields: &'a [[u8; 8]],
    methods: &'a [[u8; 32]],
}

/// Whether the bytes are a good table.
pub fn check_table(schema: &[u8]) -> Result<(), Refusal> {
    Schema::check(schema).map(|_| ())
}

/// Reads little-endian numbers.
#[inline]
fn words<const N: usize>(bytes: &[u8]) -> [u32; N] {
    let (chunks, _) = bytes.as_chunks::<4>();
    std::array::from_fn(|index| {
        chunks
            .get(index)
            .map_or(0, |&word| u32::from_le_bytes(word))
    })
}

/// Splits a section into its rows, if it has no odd bytes.
fn rows<const N: usize>(section: &[u8]) -> Option<&[[u8; N]]> {
    let (rows, odd) = section.as_chunks::<N>();
    odd.is_empty().then_some(rows)
}

impl<'a> Schema<'a> {
    /// Checks a table: shape, counts, then type rows, fields and methods.
    pub fn check(bytes: &'a [u8]) -> Result<Self, Refusal> {
        let schema = Self::sections(bytes).ok_or(Reason::SchemaShape.at(0))?;
        schema.check_counts()?;
        schema.check_types()?;
        schema.check_fields()?;
        schema.check_methods()?;
        Ok(schema)
    }

    /// The three sections by the places in the trailer, or none if they do not
    /// touch and fill the file.
    fn sections(bytes: &'a [u8]) -> Option<Self> {
        let (body, trailer) = bytes.split_last_chunk::<16>()?;
        let [fields_at, methods_at, trailer_at, layout] = words(trailer);
        if layout != 1 || trailer_at as usize != body.len() {
            return None;
        }
        let (fields_at, methods_at) = (fields_at as usize, methods_at as usize);
        Some(Schema {
            types: rows(body.get(..fields_at)?)?,
            fields: rows(body.get(fields_at..methods_at)?)?,
            methods: rows(body.get(methods_at..)?)?,
        })
    }

    fn check_counts(&self) -> Result<(), Refusal> {
        let fits = self.types.len() <= MAX_TYPES
            && self.fields.len() <= MAX_FIELDS
            && self.methods.len() <= MAX_METHODS;
        fits.then_some(()).ok_or(Reason::TooManyRows.at(0))
    }

    fn check_types(&self) -> Result<(), Refusal> {
        match self.types.iter().position(|row| !self.good_type(row)) {
            Some(row) => Err(Reason::TypeRow.at(row)),
            None => Ok(()),
        }
    }

    fn check_fields(&self) -> Result<(), Refusal> {
        match self.fields.iter().position(|row| !self.good_field(row)) {
            Some(row) => Err(Reason::FieldEntry.at(row)),
            None => Ok(()),
        }
    }

    fn check_methods(&self) -> Result<(), Refusal> {
        for (index, row) in self.methods.iter().enumerate() {
            let same = |earlier: &[u8; 32]| earlier[..12] == row[..12];
            if !self.good_method(row) || self.methods[..index].iter().any(same) {
                return Err(Reason::MethodEntry.at(index));
            }
        }
        Ok(())
    }

    /// Judges one type row: its kind, the rows it points to, its unused cells.
    fn good_type(&self, row: &[u8; 12]) -> bool {
        let [kind, a, b] = words(row);
        match kind {
            1..=13 => a == 0 && b == 0,
            14 => self.has_type(a) && b == 0,
            15 => self.has_type(b) && matches!(self.kind(a), Some(1..=9 | 12 | 13)),
            16 => {
                let end = u64::from(a) + u64::from(b);
                (1..=64).contains(&b) && end <= self.fields.len() as u64
            }
            _ => false,
        }
    }

    fn good_field(&self, row: &[u8; 8]) -> bool {
        let [type_number, optional] = words(row);
        self.has_type(type_number) && optional <= 1
    }

    /// Judges the form and the four types of one method entry.
    fn good_method(&self, row: &[u8; 32]) -> bool {
        let [_, _, _, form, types @ ..]: [u32; 8] = words(row);
        let good_side = |(side, &number): (usize, &u32)| match form >> (3 - side) & 1 {
            1 => self.kind(number) == Some(16),
            _ => number == NO_TYPE,
        };
        form <= 15 && types.iter().enumerate().all(good_side)
    }

    fn has_type(&self, number: u32) -> bool {
        (number as usize) < self.types.len()
    }

    /// The kind cell of a type row.
    fn kind(&self, number: u32) -> Option<u32> {
        let row = self.types.get(number as usize)?;
        let [kind] = words(row);
        Some(kind)
    }

    /// The type of a number from the table itself, which always names a row.
    #[inline]
    pub fn type_row(&self, number: u32) -> Type {
        Type::from_row(words(&self.types[number as usize]))
    }

    /// The type of a number from outside, if there is such a row.
    pub fn find_type(&self, number: u32) -> Option<Type> {
        self.has_type(number).then(|| self.type_row(number))
    }

    /// Refuses a number from outside that does not name a struct.
    pub fn check_struct(&self, number: u32) -> Result<(), Refusal> {
        match self.find_type(number) {
            Some(Type::Struct { .. }) => Ok(()),
            _ => Err(Reason::NotAStruct.at(0)),
        }
    }

    /// `count` fields from `first` on.
    #[inline]
    pub fn fields(&self, first: u32, count: u32) -> impl Iterator<Item = Field> + 'a {
        self.fields[first as usize..][..count as usize]
            .iter()
            .map(|row| {
                let [type_number, optional] = words(row);
                Field {
                    type_number,
                    optional: optional == 1,
                }
            })
    }

    /// A number with one bit set for each required field.
    #[inline]
    pub fn required(&self, first: u32, count: u32) -> u64 {
        let add = |bits, (index, field): (usize, Field)| bits | u64::from(!field.optional) << index;
        self.fields(first, count).enumerate().fold(0, add)
    }

    /// All type rows.
    pub fn type_rows(&self) -> impl ExactSizeIterator<Item = Type> + 'a {
        self.types.iter().map(|row| Type::from_row(words(row)))
    }

    /// All method entries.
    pub fn methods(&self) -> impl ExactSizeIterator<Item = Method> + 'a {
        self.methods.iter().map(Method::from_row)
    }

    /// A method entry, if there is one of that number.
    pub fn method(&self, number: u32) -> Option<Method> {
        self.methods.get(number as usize).map(Method::from_row)
    }
}
