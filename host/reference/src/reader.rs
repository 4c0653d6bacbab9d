//! The payload reader: it judges the whole payload first and fills the sheet
//! only once everything is right.

use crate::bitmap;
use crate::keys::Keys;
use crate::refusal::{Reason, Refusal};
use crate::schema::{Schema, Type};
use crate::utf8;
use crate::varuint::{self, Decoded};
use crate::{MAX_DEPTH, MAX_PAIRS, MAX_PAYLOAD};

/// What an accepted payload shows beside its rows.
#[derive(Clone, Copy, Debug, Default, PartialEq, Eq)]
pub struct Reading {
    /// The number of rows written to the sheet.
    pub rows: usize,
    /// Where the tail starts; the payload's end if there is none.
    pub tail_place: usize,
    /// How many bytes the tail has.
    pub tail_length: usize,
    /// The key comparisons that were due: each later key of a map against each
    /// earlier one, over all maps read.
    pub comparisons: usize,
}

/// Reads a payload of a struct type and shows it on the sheet.
pub fn read(
    schema: &[u8],
    type_number: u32,
    payload: &[u8],
    sheet: &mut [u32],
) -> Result<Reading, Refusal> {
    let schema = Schema::check(schema)?;
    read_checked(&schema, type_number, payload, sheet)
}

/// The same with a table that is already checked.
pub fn read_checked(
    schema: &Schema,
    type_number: u32,
    payload: &[u8],
    sheet: &mut [u32],
) -> Result<Reading, Refusal> {
    schema.check_struct(type_number)?;
    let reading = judge(schema, type_number, payload)?;
    let (rows, _) = sheet.as_chunks_mut::<4>();
    if reading.rows > rows.len() {
        return Err(Reason::SheetTooSmall.at(0));
    }
    Filler::new(schema, payload, rows).value(type_number);
    Ok(reading)
}

/// Judges a payload of a struct type: its length and everything in it.
pub(crate) fn judge(schema: &Schema, type_number: u32, payload: &[u8]) -> Result<Reading, Refusal> {
    if payload.len() > MAX_PAYLOAD {
        return Err(Reason::PayloadTooLong.at(0));
    }
    Judge::new(schema, payload).payload(type_number)
}

/// Walks a payload and finds its first fault, or counts its rows.
struct Judge<'a> {
    schema: &'a Schema<'a>,
    payload: &'a [u8],
    position: usize,
    rows: usize,
    unknown_bits: usize,
    keys: Keys<'a>,
    comparisons: usize,
}

impl<'a> Judge<'a> {
    fn new(schema: &'a Schema<'a>, payload: &'a [u8]) -> Self {
        Judge {
            schema,
            payload,
            position: 0,
            rows: 0,
            unknown_bits: 0,
            keys: Keys::default(),
            comparisons: 0,
        }
    }

    /// The root value, and then its tail or the payload's end.
    fn payload(mut self, type_number: u32) -> Result<Reading, Refusal> {
        self.value(type_number, 1)?;
        let tail_place = self.position;
        let tail_length = self.remaining();
        if self.unknown_bits > tail_length {
            return Err(Reason::ExceedsRemaining.at(tail_place));
        }
        if self.unknown_bits == 0 && tail_length > 0 {
            return Err(Reason::SurplusBytes.at(tail_place));
        }
        Ok(Reading {
            rows: self.rows,
            tail_place,
            tail_length,
            comparisons: self.comparisons,
        })
    }

    #[inline]
    fn remaining(&self) -> usize {
        self.payload.len() - self.position
    }

    fn value(&mut self, type_number: u32, depth: u32) -> Result<(), Refusal> {
        match self.enter(type_number, depth)? {
            Type::Array { element } => self.array(element, depth),
            Type::Map { key, value } => self.map(key, value, depth),
            Type::Struct { first, count } => self.structure(first, count, depth),
            leaf => self.leaf(leaf).map(|_| ()),
        }
    }

    /// Judges the depth of a value and counts its row.
    #[inline]
    fn enter(&mut self, type_number: u32, depth: u32) -> Result<Type, Refusal> {
        if depth > MAX_DEPTH {
            return Err(Reason::TooDeep.at(self.position));
        }
        self.rows += 1;
        Ok(self.schema.type_row(type_number))
    }

    /// A scalar, string or bytes; gives its content.
    #[inline]
    fn leaf(&mut self, leaf: Type) -> Result<&'a [u8], Refusal> {
        let place = self.position;
        let Some(width) = leaf.width() else {
            return self.text(leaf);
        };
        let content = self.take(width).ok_or(Reason::ExceedsRemaining.at(place))?;
        if leaf == Type::Bool && content[0] > 1 {
            return Err(Reason::NotABool.at(place));
        }
        Ok(content)
    }

    /// A string or bytes: a length and that many bytes.
    #[inline]
    fn text(&mut self, leaf: Type) -> Result<&'a [u8], Refusal> {
        let length = self.size(1)?;
        let place = self.position;
        let content = &self.payload[place..place + length];
        if leaf == Type::String && !utf8::is_valid(content) {
            return Err(Reason::NotUtf8.at(place));
        }
        self.position += length;
        Ok(content)
    }

    /// The next bytes, if there are as many.
    #[inline]
    fn take(&mut self, length: usize) -> Option<&'a [u8]> {
        let content = self.payload[self.position..].get(..length)?;
        self.position += length;
        Some(content)
    }

    /// A length or count whose items take at least `least` bytes each. It is
    /// refused at its VarUInt when what remains cannot hold them.
    #[inline]
    fn size(&mut self, least: u64) -> Result<usize, Refusal> {
        let place = self.position;
        match varuint::decode(&self.payload[place..]) {
            Decoded::Whole { value, length } => {
                self.position += length;
                if value > self.remaining() as u64 / least {
                    return Err(Reason::ExceedsRemaining.at(place));
                }
                Ok(value as usize)
            }
            Decoded::Cut => Err(Reason::ExceedsRemaining.at(place)),
            Decoded::Malformed => Err(Reason::MalformedVarUint.at(place)),
        }
    }

    fn array(&mut self, element: u32, depth: u32) -> Result<(), Refusal> {
        let count = self.size(1)?;
        for _ in 0..count {
            self.value(element, depth + 1)?;
        }
        Ok(())
    }

    /// A map; too many pairs are refused before any key, and a repeated key
    /// before its value is looked at.
    fn map(&mut self, key: u32, value: u32, depth: u32) -> Result<(), Refusal> {
        let count_place = self.position;
        let count = self.size(2)?;
        if count > MAX_PAIRS {
            return Err(Reason::TooManyPairs.at(count_place));
        }
        let start = self.keys.begin();
        for earlier in 0..count {
            let place = self.position;
            let leaf = self.enter(key, depth + 1)?;
            let content = self.leaf(leaf)?;
            if !self.keys.insert(start, content) {
                return Err(Reason::DuplicateKey.at(place));
            }
            self.comparisons += earlier;
            self.value(value, depth + 1)?;
        }
        self.keys.end(start);
        Ok(())
    }

    /// A struct: its bitmap is judged wholly before its fields.
    fn structure(&mut self, first: u32, count: u32, depth: u32) -> Result<(), Refusal> {
        let place = self.position;
        let bytes = self.take(bitmap::width(count));
        let bits = bitmap::load(bytes.ok_or(Reason::ExceedsRemaining.at(place))?);
        if self.schema.required(first, count) & !bits != 0 {
            return Err(Reason::RequiredFieldAbsent.at(place));
        }
        let unknown = bits & !bitmap::known(count);
        if depth == 1 {
            self.unknown_bits = unknown.count_ones() as usize;
        } else if unknown != 0 {
            return Err(Reason::UnknownInnerBit.at(place));
        }
        for (index, field) in self.schema.fields(first, count).enumerate() {
            if bits >> index & 1 == 1 {
                self.value(field.type_number, depth + 1)?;
            }
        }
        Ok(())
    }
}

/// Walks a payload that was judged right and writes one row a value.
struct Filler<'a, 's> {
    schema: &'a Schema<'a>,
    payload: &'a [u8],
    position: usize,
    rows: &'s mut [[u32; 4]],
    next: usize,
}

impl<'a, 's> Filler<'a, 's> {
    fn new(schema: &'a Schema<'a>, payload: &'a [u8], rows: &'s mut [[u32; 4]]) -> Self {
        Filler {
            schema,
            payload,
            position: 0,
            rows,
            next: 0,
        }
    }

    /// Writes the rows of a value. A composite's own row goes first and is
    /// written last, when its length is known.
    fn value(&mut self, type_number: u32) {
        let row = self.next;
        self.next += 1;
        let (place, count) = match self.schema.type_row(type_number) {
            Type::Array { element } => self.array(element),
            Type::Map { key, value } => self.map(key, value),
            Type::Struct { first, count } => self.structure(first, count),
            leaf => (self.leaf(leaf), 0),
        };
        let length = self.position - place;
        self.rows[row] = [type_number, place as u32, length as u32, count as u32];
    }

    /// Passes over a scalar, string or bytes and gives its content's place.
    #[inline]
    fn leaf(&mut self, leaf: Type) -> usize {
        let length = leaf.width().unwrap_or_else(|| self.size());
        let place = self.position;
        self.position += length;
        place
    }

    /// Passes over a length or count.
    #[inline]
    fn size(&mut self) -> usize {
        match varuint::decode(&self.payload[self.position..]) {
            Decoded::Whole { value, length } => {
                self.position += length;
                value as usize
            }
            Decoded::Cut | Decoded::Malformed => 0,
        }
    }

    fn array(&mut self, element: u32) -> (usize, usize) {
        let count = self.size();
        let place = self.position;
        for _ in 0..count {
            self.value(element);
        }
        (place, count)
    }

    fn map(&mut self, key: u32, value: u32) -> (usize, usize) {
        let count = self.size();
        let place = self.position;
        for _ in 0..count {
            self.value(key);
            self.value(value);
        }
        (place, count)
    }

    fn structure(&mut self, first: u32, count: u32) -> (usize, usize) {
        let place = self.position;
        self.position += bitmap::width(count);
        let bits = bitmap::load(&self.payload[place..self.position]) & bitmap::known(count);
        for (index, field) in self.schema.fields(first, count).enumerate() {
            if bits >> index & 1 == 1 {
                self.value(field.type_number);
            }
        }
        (place, bits.count_ones() as usize)
    }
}
