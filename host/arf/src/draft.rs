//! A value in the making.

/// The rows and bytes of a value in the making, as [`write`](crate::write()) and
/// [`write_value_frame`](crate::write_value_frame) take them: a value is put
/// after its parent, and after all that stands before it in its parent.
///
/// ```
/// use arf::{Draft, FrameKind, Schema};
///
/// // uint64, string, a struct with one of each, the second optional, an array of such
/// // structs, a struct with one array, and a method that gives it.
/// let none = u32::MAX;
/// let words = [
///     9u32, 0, 0, 12, 0, 0, 16, 0, 2, 14, 2, 0, 16, 2, 1, // the types
///     0, 0, 1, 1, 3, 0, // the fields
///     1, 2, 3, 4, none, 4, none, none, // the method
///     60, 84, 116, 1,
/// ];
/// let file: Vec<u8> = words.iter().flat_map(|word| word.to_le_bytes()).collect();
/// let schema = Schema::new(&file)?;
///
/// let (mut sheet, mut bytes) = ([0; 64], [0; 256]);
/// let mut draft = Draft::new(&mut sheet, &mut bytes);
/// draft.structure(4, [0]).array(3, 2);
/// draft.structure(2, [0]).value(0, 7u64.to_le_bytes());
/// draft.structure(2, [0, 1]).value(0, 8u64.to_le_bytes()).value(1, "late");
///
/// let header = schema.method(1, 2, 3).unwrap().header(FrameKind::Response, 9);
/// let (sheet, bytes) = (draft.sheet(), draft.bytes());
/// let mut frame = [0; 64];
/// let length = arf::write_value_frame(&header, schema.bytes(), 4, sheet, bytes, &mut frame)?;
///
/// let mut sheet = [0; 64];
/// let value = schema.read(4, &frame[26..length], &mut sheet)?;
/// let list = value.field(0).unwrap();
/// let numbers: Vec<_> = list.children().map(|node| node.field(0)?.as_u64()).collect();
/// assert_eq!(numbers, [Some(7), Some(8)]);
/// let last = list.children().nth(1).unwrap();
/// assert_eq!(last.field(1).and_then(|node| node.text()), Some("late"));
/// # Ok::<(), arf::Refusal>(())
/// ```
///
/// Nothing is judged here: the writer does that, and names the row. Where the
/// sheet has no room for a row, the writer misses it (50); where the bytes have
/// none for a content, its span lies outside them (51). A row takes four cells;
/// a scalar, a string or bytes take as many bytes as they have, and a struct
/// takes eight.
#[derive(Debug)]
pub struct Draft<'b> {
    sheet: &'b mut [u32],
    bytes: &'b mut [u8],
    cells: usize,
    used: usize,
}

impl<'b> Draft<'b> {
    /// Nothing yet, in this memory.
    pub fn new(sheet: &'b mut [u32], bytes: &'b mut [u8]) -> Draft<'b> {
        Draft {
            sheet,
            bytes,
            cells: 0,
            used: 0,
        }
    }

    /// Puts a struct, of which the fields with these ordinals are present. They
    /// have to follow by rising ordinals.
    pub fn structure(
        &mut self,
        type_number: u32,
        present: impl IntoIterator<Item = usize>,
    ) -> &mut Self {
        let (mut bits, mut count) = (0u64, 0u32);
        for ordinal in present {
            let shift = u32::try_from(ordinal).ok();
            bits |= shift.and_then(|shift| 1u64.checked_shl(shift)).unwrap_or(0);
            count = count.saturating_add(1);
        }
        self.row(type_number, &bits.to_le_bytes(), count)
    }

    /// Puts an array of so many elements, which have to follow.
    pub fn array(&mut self, type_number: u32, elements: u32) -> &mut Self {
        self.row(type_number, &[], elements)
    }

    /// Puts a map of so many pairs. They have to follow, key and value by turns.
    pub fn map(&mut self, type_number: u32, pairs: u32) -> &mut Self {
        self.row(type_number, &[], pairs)
    }

    /// Puts a scalar by its little-endian bytes, as of `u32::to_le_bytes`, with
    /// one byte 0 or 1 for a bool; or a string or bytes by their content.
    pub fn value(&mut self, type_number: u32, content: impl AsRef<[u8]>) -> &mut Self {
        self.row(type_number, content.as_ref(), 0)
    }

    fn row(&mut self, type_number: u32, content: &[u8], count: u32) -> &mut Self {
        let (place, end) = (self.used, self.used.saturating_add(content.len()));
        match self.bytes.get_mut(place..end) {
            Some(room) => {
                room.copy_from_slice(content);
                self.used = end;
            }
            // No later content is put before the one that is missing.
            None => self.used = self.bytes.len(),
        }
        let cell = |number: usize| u32::try_from(number).unwrap_or(u32::MAX);
        let row = [type_number, cell(place), cell(content.len()), count];
        if let Some(cells) = self.sheet.get_mut(self.cells..self.cells + row.len()) {
            cells.copy_from_slice(&row);
            self.cells += row.len();
        }
        self
    }

    /// The rows that were put.
    pub fn sheet(&self) -> &[u32] {
        &self.sheet[..self.cells]
    }

    /// Their bytes.
    pub fn bytes(&self) -> &[u8] {
        &self.bytes[..self.used]
    }
}
