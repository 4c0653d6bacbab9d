//! A value that was read: its rows, one after the other, with their kinds and
//! where each stands in its parent.

use crate::{scalar, Kind, Reading, Refusal, Row, Scalar, Schema, MAX_DEPTH};
use core::ops::Range;

/// A value that was read: its schema, its payload and the rows of its sheet.
///
/// Its fields are asked for by their ordinals, and an array or a map for its
/// [children](Node::children).
///
/// ```
/// use arf::Schema;
///
/// // uint8, an array of it, and a struct with one of each, the first optional.
/// let words = [
///     6u32, 0, 0, 14, 0, 0, 16, 0, 2, 0, 1, 1, 0, 36, 52, 52, 1,
/// ];
/// let bytes: Vec<u8> = words.iter().flat_map(|word| word.to_le_bytes()).collect();
/// let schema = Schema::new(&bytes)?;
///
/// let mut sheet = [0; 64];
/// let value = schema.read(2, &[0x02, 3, 10, 20, 30], &mut sheet)?;
/// assert!(value.field(0).is_none());
/// let array = value.field(1).expect("a required field is present");
/// let numbers: Vec<_> = array.children().map(|node| node.as_u64()).collect();
/// assert_eq!(numbers, [Some(10), Some(20), Some(30)]);
/// # Ok::<(), arf::Refusal>(())
/// ```
///
/// Or all rows are gone through, one after the other:
///
/// ```
/// use arf::{Kind, Role, Schema};
///
/// // uint8, string, and a struct with one of each, the second optional.
/// let words = [
///     6u32, 0, 0, 12, 0, 0, 16, 0, 2, 0, 0, 1, 1, 36, 52, 52, 1,
/// ];
/// let bytes: Vec<u8> = words.iter().flat_map(|word| word.to_le_bytes()).collect();
/// let schema = Schema::new(&bytes)?;
///
/// let mut sheet = [0; 12];
/// let value = schema.read(2, b"\x03\x07\x02ok", &mut sheet)?;
/// let nodes: Vec<_> = value.rows().collect();
/// assert_eq!(nodes.len(), 3);
/// assert_eq!((nodes[0].kind, nodes[0].role), (Kind::Struct, Role::Root));
/// assert_eq!((nodes[1].role, nodes[1].scalar()?.as_u64()), (Role::Field(0), Some(7)));
/// assert_eq!((nodes[2].role, nodes[2].text()), (Role::Field(1), Some("ok")));
/// assert_eq!(nodes[2].span(), 3..5);
/// assert!(value.tail().is_empty());
/// # Ok::<(), arf::Refusal>(())
/// ```
#[derive(Clone, Copy, Debug)]
pub struct Value<'v> {
    schema: Schema<'v>,
    payload: &'v [u8],
    sheet: &'v [u32],
    reading: Reading,
}

impl<'v> Value<'v> {
    pub(crate) fn new<'a: 'v>(
        schema: Schema<'a>,
        payload: &'v [u8],
        sheet: &'v [u32],
        reading: Reading,
    ) -> Value<'v> {
        let cells = sheet.len().min(reading.rows.saturating_mul(4));
        Value {
            schema,
            payload,
            sheet: &sheet[..cells],
            reading,
        }
    }

    /// The schema that shows it.
    pub fn schema(&self) -> Schema<'v> {
        self.schema
    }

    /// The numbers of the reading.
    pub fn reading(&self) -> Reading {
        self.reading
    }

    /// The cells of the rows, as [`write`](crate::write) and
    /// [`forward`](crate::forward) take them.
    pub fn cells(&self) -> &'v [u32] {
        self.sheet
    }

    /// The bytes of fields that the schema does not know, at the payload's end.
    pub fn tail(&self) -> &'v [u8] {
        let start = self.reading.tail_place;
        let end = start.saturating_add(self.reading.tail_length);
        self.payload.get(start..end).unwrap_or(&[])
    }

    /// The rows, parents before their children.
    pub fn rows(&self) -> Rows<'v> {
        Rows {
            value: *self,
            at: 0,
            levels: [Level::NONE; MAX_DEPTH],
            depth: 0,
            above: 0,
        }
    }

    /// The payload's own struct; none for the empty sheet of a frame without a
    /// value.
    pub fn root(&self) -> Option<Node<'v>> {
        self.rows().next()
    }

    /// A field of the payload's own struct, by its ordinal, where it is present.
    pub fn field(&self, ordinal: usize) -> Option<Node<'v>> {
        self.root()?.field(ordinal)
    }
}

/// Where a value stands in its parent.
#[derive(Clone, Copy, Debug, PartialEq, Eq, Hash)]
pub enum Role {
    /// It is the payload's own struct.
    Root,
    /// A field of a struct, with its ordinal.
    Field(usize),
    /// An element of an array, with its number.
    Element(usize),
    /// The key of a pair of a map, with the pair's number.
    Key(usize),
    /// The value of a pair of a map, with the pair's number.
    Value(usize),
}

/// One row of a value.
#[derive(Clone, Copy, Debug)]
pub struct Node<'v> {
    /// The row itself.
    pub row: Row,
    /// The kind of its type.
    pub kind: Kind,
    /// Where it stands in its parent.
    pub role: Role,
    /// How deep it stands; the root is at 1.
    pub depth: usize,
    value: Value<'v>,
    /// Which row of the sheet it is.
    at: usize,
}

impl<'v> Node<'v> {
    /// Where its bytes are in the payload: the content of a scalar, a string or
    /// bytes, all elements of an array or a map, a struct with its bitmap.
    pub fn span(&self) -> Range<usize> {
        let start = self.row.place as usize;
        start..start.saturating_add(self.row.length as usize)
    }

    /// Its bytes.
    pub fn bytes(&self) -> &'v [u8] {
        self.value.payload.get(self.span()).unwrap_or(&[])
    }

    /// The ordinals of a struct's fields that are present; none for another
    /// kind.
    pub fn present(&self) -> impl Iterator<Item = usize> {
        let bits = match self.kind {
            Kind::Struct => self.value.bits(self.row),
            _ => 0,
        };
        (0..64).filter(move |i| bits >> i & 1 == 1)
    }

    /// The values right in this one: a struct's fields, an array's elements, a
    /// map's keys and values by turns.
    pub fn children(&self) -> Children<'v> {
        let mut rows = self.value.rows();
        rows.at = self.at + 1;
        rows.above = self.depth - 1;
        if self.kind.is_composite() {
            rows.levels[0] = self.value.level(self.row, self.kind);
            rows.depth = 1;
        }
        Children { rows }
    }

    /// A field of a struct, by its ordinal, where it is present.
    pub fn field(&self, ordinal: usize) -> Option<Node<'v>> {
        self.children()
            .find(|child| child.role == Role::Field(ordinal))
    }

    /// The value of a scalar, or the span of a string or bytes, by the proved
    /// entry; 50 for a composite. The entry checks the schema file each time.
    pub fn scalar(&self) -> Result<Scalar, Refusal> {
        scalar(self.value.schema.bytes(), self.row, self.value.payload)
    }

    /// The truth value of a bool.
    pub fn as_bool(&self) -> Option<bool> {
        self.scalar().ok()?.as_bool()
    }

    /// A whole number, where it fits.
    pub fn as_i64(&self) -> Option<i64> {
        self.scalar().ok()?.as_i64()
    }

    /// A whole number, where it fits.
    pub fn as_u64(&self) -> Option<u64> {
        self.scalar().ok()?.as_u64()
    }

    /// A float of either width.
    pub fn as_f64(&self) -> Option<f64> {
        self.scalar().ok()?.as_f64()
    }

    /// The text of a string.
    pub fn text(&self) -> Option<&'v str> {
        match self.kind {
            Kind::String => core::str::from_utf8(self.bytes()).ok(),
            _ => None,
        }
    }
}

/// A composite whose children are being handed out.
#[derive(Clone, Copy, Debug)]
struct Level {
    kind: Kind,
    /// How many children are left.
    left: u64,
    /// How many were handed out.
    index: usize,
    /// The bits of a struct's present fields that are left.
    bits: u64,
}

impl Level {
    const NONE: Level = Level {
        kind: Kind::Array,
        left: 0,
        index: 0,
        bits: 0,
    };

    /// The next child's place in its parent.
    fn step(&mut self) -> Role {
        let index = self.index;
        self.left -= 1;
        self.index += 1;
        match self.kind {
            Kind::Map if index % 2 == 0 => Role::Key(index / 2),
            Kind::Map => Role::Value(index / 2),
            Kind::Struct => {
                let ordinal = self.bits.trailing_zeros() as usize;
                self.bits &= self.bits.wrapping_sub(1);
                Role::Field(ordinal)
            }
            _ => Role::Element(index),
        }
    }
}

/// The rows of a [`Value`], parents before their children.
#[derive(Clone, Debug)]
pub struct Rows<'v> {
    value: Value<'v>,
    at: usize,
    levels: [Level; MAX_DEPTH],
    depth: usize,
    /// How many levels stand above the first one here.
    above: usize,
}

impl Value<'_> {
    /// The children of a row that is a composite.
    fn level(&self, row: Row, kind: Kind) -> Level {
        let count = u64::from(row.count);
        let (left, bits) = match kind {
            Kind::Map => (2 * count, 0),
            Kind::Struct => (count, self.bits(row)),
            _ => (count, 0),
        };
        Level {
            kind,
            left,
            index: 0,
            bits,
        }
    }

    /// The bits of a struct's known fields that are present.
    fn bits(&self, row: Row) -> u64 {
        let fields = self.schema.fields(row.type_number).len().min(64);
        let start = row.place as usize;
        let end = start.saturating_add(fields.div_ceil(8));
        let bytes = self.payload.get(start..end).unwrap_or(&[]);
        let byte = |(i, &byte): (usize, &u8)| u64::from(byte) << (8 * i);
        let bits = bytes.iter().enumerate().map(byte).sum::<u64>();
        bits & (u64::MAX >> (64 - fields.max(1)))
    }
}

impl<'v> Iterator for Rows<'v> {
    type Item = Node<'v>;

    fn next(&mut self) -> Option<Node<'v>> {
        let cells = self.value.sheet.get(4 * self.at..)?.first_chunk::<4>()?;
        while self.depth > 0 && self.levels[self.depth - 1].left == 0 {
            self.depth -= 1;
        }
        let role = match self.depth {
            0 if self.at == 0 => Role::Root,
            0 => return None,
            depth => self.levels[depth - 1].step(),
        };
        let &[type_number, place, length, count] = cells;
        let row = Row {
            type_number,
            place,
            length,
            count,
        };
        let kind = self.value.schema.type_at(type_number)?.kind;
        let depth = self.depth + 1;
        if kind.is_composite() {
            *self.levels.get_mut(self.depth)? = self.value.level(row, kind);
            self.depth += 1;
        }
        let at = self.at;
        self.at += 1;
        Some(Node {
            row,
            kind,
            role,
            depth: self.above + depth,
            value: self.value,
            at,
        })
    }
}

impl core::iter::FusedIterator for Rows<'_> {}

/// The values right in another one; see [`Node::children`].
#[derive(Clone, Debug)]
pub struct Children<'v> {
    rows: Rows<'v>,
}

impl<'v> Iterator for Children<'v> {
    type Item = Node<'v>;

    fn next(&mut self) -> Option<Node<'v>> {
        let depth = self.rows.above + 2;
        self.rows.find(|node| node.depth == depth)
    }
}

impl core::iter::FusedIterator for Children<'_> {}
