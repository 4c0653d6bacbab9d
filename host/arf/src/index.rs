//! An index beside a record: where the entries of each call stand.

use crate::refusal::answer;
use crate::{ffi, Reason, Refusal};
use core::slice::ChunksExact;

/// Makes the index of a record at the front of the output, and gives its length.
/// It has a row for each entry that the listing of the record prints: the
/// record is run from an empty call table, with a sheet of 4,096 rows, up to the
/// entry that stops the listing. A refusal leaves the output as it was, and what
/// stands after the index stays as it was too.
///
/// The refusals, in their order: the table's, 45 for a record above
/// [`MAX_RECORD`] bytes, 52 for an output that is too small. [`MAX_INDEX`] bytes
/// hold any index. The call needs a stack of [`INDEX_STACK`] bytes, more than
/// any other.
///
/// An index is rows of 16 bytes, little-endian: the correlation, the place of
/// the entry's side byte and the number of its answer. They rise by correlation
/// and then place. A trailer of four 32-bit numbers follows: 0, the number of
/// rows, the record's length, 1.
///
/// ```
/// // A table with no method, so that an INVOKE is 9; it has a line all the same.
/// let schema = [0, 0, 0, 0, 0, 0, 0, 0, 0, 0, 0, 0, 1, 0, 0, 0];
/// let mut record = [b'C'; 27];
/// let header = arf::Header { kind: 1, correlation: 5, ..Default::default() };
/// arf::write_frame(&header, &[], &mut record[1..]).unwrap();
///
/// let mut index = [0; 32];
/// assert_eq!(arf::make_index(&schema, &record, &mut index), Ok(32));
/// assert_eq!(index[..16], [5, 0, 0, 0, 0, 0, 0, 0, 0, 0, 0, 0, 9, 0, 0, 0]);
/// assert_eq!(index[16..], [0, 0, 0, 0, 1, 0, 0, 0, 27, 0, 0, 0, 1, 0, 0, 0]);
/// assert_eq!(arf::make_index(&schema, &record, &mut index[..31]).unwrap_err().number, 52);
/// ```
///
/// [`MAX_RECORD`]: crate::MAX_RECORD
/// [`MAX_INDEX`]: crate::MAX_INDEX
/// [`INDEX_STACK`]: crate::INDEX_STACK
pub fn make_index(schema: &[u8], record: &[u8], out: &mut [u8]) -> Result<usize, Refusal> {
    let mut cells = [0; 2];
    let number = ffi::make_index(schema, record, out, &mut cells);
    answer(number, cells[0], cells[1] as usize)
}

/// A row of an index: an entry of the call that was asked for.
#[derive(Clone, Copy, Debug, PartialEq, Eq)]
pub struct IndexRow {
    /// Where the entry's side byte stands in the record, as [`entry_at`] takes
    /// it.
    ///
    /// [`entry_at`]: crate::entry_at
    pub place: usize,
    /// The number of the answer to its frame.
    pub answer: u32,
}

/// The rows of one call in an index, in the record's order; see [`look_up`].
#[derive(Clone, Debug)]
pub struct IndexRows<'i> {
    rows: ChunksExact<'i, u8>,
}

/// The bytes of a row.
const ROW: usize = 16;

/// A row's correlation, place and answer.
fn numbers(row: &[u8]) -> (u64, u32, u32) {
    let word = |i: usize| {
        let bytes = row.get(4 * i..).and_then(|rest| rest.first_chunk());
        bytes.map_or(0, |&bytes| u32::from_le_bytes(bytes))
    };
    let correlation = u64::from(word(0)) | u64::from(word(1)) << 32;
    (correlation, word(2), word(3))
}

impl<'i> IndexRows<'i> {
    /// The rows of one call in an index that is right, where they stand
    /// together.
    fn of_call(index: &'i [u8], correlation: u64) -> IndexRows<'i> {
        let rows = &index[..index.len().saturating_sub(ROW)];
        let below = |row: &&[u8]| numbers(row).0 < correlation;
        let not_above = |row: &&[u8]| numbers(row).0 <= correlation;
        let start = rows.chunks_exact(ROW).take_while(below).count();
        let end = rows.chunks_exact(ROW).take_while(not_above).count();
        IndexRows {
            rows: rows[ROW * start..ROW * end].chunks_exact(ROW),
        }
    }
}

impl Iterator for IndexRows<'_> {
    type Item = IndexRow;

    fn next(&mut self) -> Option<IndexRow> {
        let (_, place, answer) = numbers(self.rows.next()?);
        Some(IndexRow {
            place: place as usize,
            answer,
        })
    }

    fn size_hint(&self) -> (usize, Option<usize>) {
        self.rows.size_hint()
    }
}

impl ExactSizeIterator for IndexRows<'_> {}

impl core::iter::FusedIterator for IndexRows<'_> {}

/// The rows of one call in the index of a record. Of the record only the length
/// is looked at.
///
/// The refusals: 65 for bytes that are no index, 66 for a record of another
/// length than the index tells. The proved entry gives that verdict; the rows of
/// an index that is right are taken as they stand.
///
/// ```
/// let schema = [0, 0, 0, 0, 0, 0, 0, 0, 0, 0, 0, 0, 1, 0, 0, 0];
/// let mut record = [b'C'; 54];
/// for (correlation, entry) in [5, 6].into_iter().zip(record.chunks_mut(27)) {
///     let header = arf::Header { kind: 1, correlation, ..Default::default() };
///     arf::write_frame(&header, &[], &mut entry[1..]).unwrap();
/// }
/// let mut index = vec![0; arf::MAX_INDEX];
/// let length = arf::make_index(&schema, &record, &mut index).unwrap();
/// index.truncate(length);
///
/// let rows: Vec<arf::IndexRow> = arf::look_up(&index, &record, 6).unwrap().collect();
/// assert_eq!(rows, [arf::IndexRow { place: 27, answer: 9 }]);
/// let entry = arf::entry_at(&record, rows[0].place).unwrap();
/// assert_eq!(entry.header.correlation, 6);
///
/// assert_eq!(arf::look_up(&index, &record, 7).unwrap().len(), 0);
/// assert_eq!(arf::look_up(&index, &record[1..], 6).unwrap_err().number, 66);
/// assert_eq!(arf::look_up(&index[1..], &record, 6).unwrap_err().number, 65);
/// ```
pub fn look_up<'i>(
    index: &'i [u8],
    record: &[u8],
    correlation: u64,
) -> Result<IndexRows<'i>, Refusal> {
    // There is room for the text of 65 and 66. Where a longer one has none, the
    // index is right.
    let found = look_up_text(index, record, correlation, &mut [0; REFUSED]);
    match found.outcome {
        Err(refusal) if refusal.reason() != Some(Reason::OutputTooShort) => Err(refusal),
        _ => Ok(IndexRows::of_call(index, correlation)),
    }
}

/// The bytes of the text of a refusal: a heading, and `stopped` with a number of
/// two digits.
const REFUSED: usize = 24;

/// The answer to a look-up of a text.
#[derive(Clone, Copy, Debug, PartialEq, Eq)]
pub struct LookUp {
    /// Whether there is such an index, and room for the text.
    pub outcome: Result<(), Refusal>,
    /// The bytes of the text; it stands there for 65 and 66 too, and says so.
    pub length: usize,
}

/// Writes what [`look_up`] finds as text to the front of the output: a heading,
/// a line with place and answer for each entry, and a line that says how it
/// stopped. Where there is no room for it (52), the output stays as it was; 24
/// bytes, and 22 for each row of the index, are room for any text.
///
/// ```
/// // An index of no rows, for an empty record.
/// let index = [0, 0, 0, 0, 0, 0, 0, 0, 0, 0, 0, 0, 1, 0, 0, 0];
/// let mut text = [0; 23];
/// let found = arf::look_up_text(&index, &[], 6, &mut text);
/// assert_eq!((found.outcome, found.length), (Ok(()), 23));
/// assert_eq!(text[..], *b"place answer\nstopped 0\n");
/// ```
pub fn look_up_text(index: &[u8], record: &[u8], correlation: u64, out: &mut [u8]) -> LookUp {
    let mut cells = [0];
    let number = ffi::look_up(index, record, correlation, out, &mut cells);
    LookUp {
        outcome: answer(number, 0, ()),
        length: cells[0] as usize,
    }
}
