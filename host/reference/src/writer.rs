//! The payload writer: it judges and measures the whole sheet first and writes
//! only once everything is right.

use crate::bitmap;
use crate::keys::Keys;
use crate::refusal::{Reason, Refusal};
use crate::scalar::{content_fault, fits, span};
use crate::schema::{Schema, Type};
use crate::varuint;
use crate::{MAX_DEPTH, MAX_PAIRS, MAX_PAYLOAD};

/// Writes the value that a sheet shows over its bytes and gives the length.
pub fn write(
    schema: &[u8],
    type_number: u32,
    sheet: &[u32],
    bytes: &[u8],
    out: &mut [u8],
) -> Result<usize, Refusal> {
    let schema = Schema::check(schema)?;
    let sheet = Judged::new(&schema, type_number, sheet, bytes)?;
    let length = payload_length(sheet.length)?;
    let out = out.get_mut(..length).ok_or(Reason::OutputTooSmall.at(0))?;
    sheet.emit(out);
    Ok(length)
}

/// The length of an output, if a payload may be as long.
#[inline]
pub(crate) fn payload_length(length: u64) -> Result<usize, Refusal> {
    match length <= MAX_PAYLOAD as u64 {
        true => Ok(length as usize),
        false => Err(Reason::PayloadTooLong.at(0)),
    }
}

/// A sheet that shows a value of the type asked for, and the bytes that the
/// value takes.
pub(crate) struct Judged<'a> {
    schema: &'a Schema<'a>,
    rows: &'a [[u32; 4]],
    bytes: &'a [u8],
    pub length: u64,
}

impl<'a> Judged<'a> {
    /// Judges the type, each row, and that none is left over.
    pub fn new(
        schema: &'a Schema<'a>,
        type_number: u32,
        sheet: &'a [u32],
        bytes: &'a [u8],
    ) -> Result<Self, Refusal> {
        schema.check_struct(type_number)?;
        let (rows, _) = sheet.as_chunks::<4>();
        let length = Judge::new(schema, rows, bytes).sheet(type_number)?;
        Ok(Judged {
            schema,
            rows,
            bytes,
            length,
        })
    }

    /// The fields that the root's type has.
    fn root_fields(&self) -> u32 {
        match self.schema.type_row(self.rows[0][0]) {
            Type::Struct { count, .. } => count,
            _ => 0,
        }
    }

    /// The presence bytes of the root as they stand in the bytes.
    pub fn root_bitmap(&self) -> &'a [u8] {
        let width = bitmap::width(self.root_fields());
        &self.bytes[self.rows[0][1] as usize..][..width]
    }

    /// How many bits the root sets beyond its known fields.
    pub fn unknown_bits(&self) -> usize {
        let bits = bitmap::load(self.root_bitmap());
        let unknown = bits & !bitmap::known(self.root_fields());
        unknown.count_ones() as usize
    }

    /// Writes the value to the start of an output with room enough.
    pub fn emit(&self, out: &mut [u8]) {
        emit(self.schema, self.rows, self.bytes, out);
    }
}

/// Walks the rows a type asks for and finds the first fault, or measures the
/// output. Counts are believed, but for a map's limit; each child needs a row,
/// so the walk ends with the rows at the latest.
struct Judge<'a> {
    schema: &'a Schema<'a>,
    rows: &'a [[u32; 4]],
    bytes: &'a [u8],
    next: usize,
    length: u64,
    keys: Keys<'a>,
}

impl<'a> Judge<'a> {
    fn new(schema: &'a Schema<'a>, rows: &'a [[u32; 4]], bytes: &'a [u8]) -> Self {
        Judge {
            schema,
            rows,
            bytes,
            next: 0,
            length: 0,
            keys: Keys::default(),
        }
    }

    /// The root value, and then no row more.
    fn sheet(mut self, type_number: u32) -> Result<u64, Refusal> {
        self.value(type_number, 1)?;
        if self.next < self.rows.len() {
            return Err(Reason::SheetMisfit.at(self.next));
        }
        Ok(self.length)
    }

    fn value(&mut self, due: u32, depth: u32) -> Result<(), Refusal> {
        let (row, found) = self.enter(due, depth)?;
        let count = found[3];
        match self.schema.type_row(due) {
            Type::Array { element } => self.array(element, count, depth),
            Type::Map { .. } if count > MAX_PAIRS as u32 => Err(Reason::TooManyPairs.at(row)),
            Type::Map { key, value } => self.map(key, value, count, depth),
            Type::Struct { first, count } => self.structure(row, found, (first, count), depth),
            leaf => self.leaf(row, found, leaf).map(|_| ()),
        }
    }

    /// Judges the depth of the next row, that it is there, and its type.
    #[inline]
    fn enter(&mut self, due: u32, depth: u32) -> Result<(usize, [u32; 4]), Refusal> {
        let row = self.next;
        if depth > MAX_DEPTH {
            return Err(Reason::TooDeep.at(row));
        }
        match self.rows.get(row) {
            Some(found) if found[0] == due => {
                self.next += 1;
                Ok((row, *found))
            }
            _ => Err(Reason::SheetMisfit.at(row)),
        }
    }

    /// A scalar, string or bytes; gives its content.
    #[inline]
    fn leaf(&mut self, row: usize, found: [u32; 4], leaf: Type) -> Result<&'a [u8], Refusal> {
        let [_, place, length, count] = found;
        if !fits(leaf, length, count) {
            return Err(Reason::SheetMisfit.at(row));
        }
        let content = span(self.bytes, place, length).ok_or(Reason::SpanOutside.at(row))?;
        if let Some(reason) = content_fault(leaf, content) {
            return Err(reason.at(row));
        }
        if leaf.width().is_none() {
            self.add(varuint::length(u64::from(length)));
        }
        self.add(content.len());
        Ok(content)
    }

    #[inline]
    fn add(&mut self, length: usize) {
        self.length = self.length.saturating_add(length as u64);
    }

    fn array(&mut self, element: u32, count: u32, depth: u32) -> Result<(), Refusal> {
        self.add(varuint::length(u64::from(count)));
        for _ in 0..count {
            self.value(element, depth + 1)?;
        }
        Ok(())
    }

    /// A map; a repeated key is refused before the row of its value.
    fn map(&mut self, key: u32, value: u32, count: u32, depth: u32) -> Result<(), Refusal> {
        self.add(varuint::length(u64::from(count)));
        let start = self.keys.begin();
        for _ in 0..count {
            let (row, found) = self.enter(key, depth + 1)?;
            let content = self.leaf(row, found, self.schema.type_row(key))?;
            if !self.keys.insert(start, content) {
                return Err(Reason::DuplicateKey.at(row));
            }
            self.value(value, depth + 1)?;
        }
        self.keys.end(start);
        Ok(())
    }

    /// A struct: the presence bytes at its place are judged before its fields.
    fn structure(
        &mut self,
        row: usize,
        found: [u32; 4],
        (first, count): (u32, u32),
        depth: u32,
    ) -> Result<(), Refusal> {
        let width = bitmap::width(count);
        let presence = span(self.bytes, found[1], width as u32);
        let bits = bitmap::load(presence.ok_or(Reason::SpanOutside.at(row))?);
        if self.schema.required(first, count) & !bits != 0 {
            return Err(Reason::RequiredFieldAbsent.at(row));
        }
        let known = bits & bitmap::known(count);
        let unknown_inside = depth > 1 && bits != known;
        if found[3] != known.count_ones() || unknown_inside {
            return Err(Reason::SheetMisfit.at(row));
        }
        self.add(width);
        for (index, field) in self.schema.fields(first, count).enumerate() {
            if known >> index & 1 == 1 {
                self.value(field.type_number, depth + 1)?;
            }
        }
        Ok(())
    }
}

/// Writes rows that were judged right. They stand in wire order, so each row
/// alone says which bytes come next.
fn emit(schema: &Schema, rows: &[[u32; 4]], bytes: &[u8], out: &mut [u8]) {
    let mut at = 0;
    for &[type_number, place, length, count] in rows {
        match schema.type_row(type_number) {
            Type::Array { .. } | Type::Map { .. } => {
                at += varuint::encode(u64::from(count), &mut out[at..]);
            }
            Type::Struct { count, .. } => {
                let width = bitmap::width(count);
                let presence = &bytes[place as usize..][..width];
                let bits = bitmap::load(presence) & bitmap::known(count);
                out[at..at + width].copy_from_slice(&bits.to_le_bytes()[..width]);
                at += width;
            }
            leaf => {
                if leaf.width().is_none() {
                    at += varuint::encode(u64::from(length), &mut out[at..]);
                }
                let content = &bytes[place as usize..][..length as usize];
                out[at..at + content.len()].copy_from_slice(content);
                at += content.len();
            }
        }
    }
}
