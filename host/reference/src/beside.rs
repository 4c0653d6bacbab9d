//! Reading with the writer's table beside ours: the payload is read wholly by
//! theirs and shown by ours, added fields left out at every depth.

use crate::bitmap;
use crate::extension::{keeps_all, Bitmaps};
use crate::reader::{judge, Reading};
use crate::refusal::{Reason, Refusal};
use crate::schema::{Schema, Type};
use crate::varuint::{self, Decoded};

/// Reads a payload of a struct type that our table has, by the table of its
/// writer, and shows on the sheet what our table knows.
pub fn read_beside(
    ours: &[u8],
    theirs: &[u8],
    type_number: u32,
    payload: &[u8],
    sheet: &mut [u32],
) -> Result<Reading, Refusal> {
    let ours = Schema::check(ours)?;
    let theirs = Schema::check(theirs)?;
    if !keeps_all(&ours, &theirs, Bitmaps::MayGrow) {
        return Err(Reason::NoExtension.at(0));
    }
    ours.check_struct(type_number)?;
    let reading = judge(&theirs, type_number, payload)?;
    let shown = Showing::new(&ours, &theirs, payload).rows_of(type_number);
    let (rows, _) = sheet.as_chunks_mut::<4>();
    let rows = rows.get_mut(..shown.len());
    rows.ok_or(Reason::SheetTooSmall.at(0))?
        .copy_from_slice(&shown);
    Ok(Reading {
        rows: shown.len(),
        ..reading
    })
}

/// Walks a payload that was judged right by their table. Every value adds its
/// rows; those of an added field are dropped again once it is passed.
struct Showing<'a> {
    ours: &'a Schema<'a>,
    theirs: &'a Schema<'a>,
    payload: &'a [u8],
    position: usize,
    rows: Vec<[u32; 4]>,
}

impl<'a> Showing<'a> {
    fn new(ours: &'a Schema<'a>, theirs: &'a Schema<'a>, payload: &'a [u8]) -> Self {
        Showing {
            ours,
            theirs,
            payload,
            position: 0,
            rows: Vec::new(),
        }
    }

    fn rows_of(mut self, type_number: u32) -> Vec<[u32; 4]> {
        self.value(type_number);
        self.rows
    }

    /// Adds the rows of a value, its own row first.
    fn value(&mut self, type_number: u32) {
        let row = self.rows.len();
        self.rows.push([type_number, 0, 0, 0]);
        let (place, count) = match self.theirs.type_row(type_number) {
            Type::Array { element } => self.items(&[element]),
            Type::Map { key, value } => self.items(&[key, value]),
            Type::Struct { first, count } => self.structure(type_number, first, count),
            leaf => (self.leaf(leaf), 0),
        };
        let length = self.position - place;
        self.rows[row][1..].copy_from_slice(&[place as u32, length as u32, count]);
    }

    /// A length or count.
    fn size(&mut self) -> usize {
        match varuint::decode(&self.payload[self.position..]) {
            Decoded::Whole { value, length } => {
                self.position += length;
                value as usize
            }
            Decoded::Cut | Decoded::Malformed => 0,
        }
    }

    /// A scalar, string or bytes; gives its content's place.
    fn leaf(&mut self, leaf: Type) -> usize {
        let length = leaf.width().unwrap_or_else(|| self.size());
        let place = self.position;
        self.position += length;
        place
    }

    /// An array or map, whose items are values of these types by turns.
    fn items(&mut self, types: &[u32]) -> (usize, u32) {
        let count = self.size();
        let place = self.position;
        for _ in 0..count {
            types.iter().for_each(|&number| self.value(number));
        }
        (place, count as u32)
    }

    /// A struct, with the bitmap that their table gives it; only the fields
    /// that ours knows count.
    fn structure(&mut self, type_number: u32, first: u32, count: u32) -> (usize, u32) {
        let place = self.position;
        self.position += bitmap::width(count);
        let bits = bitmap::load(&self.payload[place..self.position]);
        let known = self.known_fields(type_number);
        for (index, field) in self.theirs.fields(first, count).enumerate() {
            if bits >> index & 1 == 1 {
                let rows = self.rows.len();
                self.value(field.type_number);
                if index as u32 >= known {
                    self.rows.truncate(rows);
                }
            }
        }
        (place, (bits & bitmap::known(known)).count_ones())
    }

    /// How many fields of a struct ours knows: none of one that only theirs
    /// has, which stands in added fields alone.
    fn known_fields(&self, type_number: u32) -> u32 {
        match self.ours.find_type(type_number) {
            Some(Type::Struct { count, .. }) => count,
            _ => 0,
        }
    }
}
