//! Payloads read as rows of a sheet, and written from them.

use crate::refusal::answer;
use crate::{ffi, Refusal};

/// What an accepted payload shows beside the rows of its sheet.
#[derive(Clone, Copy, Debug, Default, PartialEq, Eq)]
pub struct Reading {
    /// The number of rows written to the sheet.
    pub rows: usize,
    /// Where the tail starts; the payload's end if there is none.
    pub tail_place: usize,
    /// How many bytes the tail has.
    pub tail_length: usize,
    /// How many key comparisons the maps of the payload asked for: each later
    /// key against each earlier key of its map.
    pub comparisons: usize,
}

impl Reading {
    pub(crate) fn from_cells([rows, tail_place, tail_length, comparisons]: [u64; 4]) -> Reading {
        Reading {
            rows: rows as usize,
            tail_place: tail_place as usize,
            tail_length: tail_length as usize,
            comparisons: comparisons as usize,
        }
    }
}

/// Reads a payload of a struct type and shows it as rows of four cells on the
/// sheet. A refusal leaves the sheet as it was.
///
/// ```
/// let words = [6u32, 0, 0, 16, 0, 1, 0, 0, 24, 32, 32, 1];
/// let schema: Vec<u8> = words.iter().flat_map(|word| word.to_le_bytes()).collect();
/// let mut sheet = [0; 8];
/// // A required field is absent.
/// let refused = arf::read(&schema, 1, &[0x00], &mut sheet).unwrap_err();
/// assert_eq!((refused.number, refused.place), (25, 0));
/// assert_eq!(sheet, [0; 8]);
/// ```
///
/// The reading says how many comparisons the keys of its maps asked for, and a
/// map of more than [`MAX_PAIRS`](crate::MAX_PAIRS) pairs is refused at its count.
///
/// ```
/// // uint8, a map from it to itself, and a struct with one such map.
/// let words = [6u32, 0, 0, 15, 0, 0, 16, 0, 1, 1, 0, 36, 44, 44, 1];
/// let schema: Vec<u8> = words.iter().flat_map(|word| word.to_le_bytes()).collect();
/// let mut sheet = [0; 32];
/// // The second key is compared with the first, and the third with both.
/// let payload = [0x01, 3, 10, 0, 20, 0, 30, 0];
/// let reading = arf::read(&schema, 2, &payload, &mut sheet).unwrap();
/// assert_eq!((reading.rows, reading.comparisons), (8, 3));
///
/// let mut payload = vec![0x01, 65];
/// payload.extend((0..65).flat_map(|key| [key, 0]));
/// let refused = arf::read(&schema, 2, &payload, &mut sheet).unwrap_err();
/// assert_eq!((refused.number, refused.place), (31, 1));
/// ```
pub fn read(
    schema: &[u8],
    type_number: u32,
    payload: &[u8],
    sheet: &mut [u32],
) -> Result<Reading, Refusal> {
    let mut cells = [0; 5];
    let number = ffi::read(schema, type_number, payload, sheet, &mut cells);
    let [place, reading @ ..] = cells;
    answer(number, place, Reading::from_cells(reading))
}

/// Reads a payload by the writer's table, and shows it by ours: the fields that
/// theirs has added are left out at every depth. Places and lengths are as
/// written, and a struct's count is that of the fields that ours has. A refusal
/// leaves the sheet as it was.
///
/// Theirs has to extend ours as [`extends`](crate::extends) asks, but its bitmaps may have
/// grown. The tables' own refusals come first, 40 to 44 for ours and then for
/// theirs ([`check_table`](crate::check_table) tells which it is), then 47, 46 for a type that is no
/// struct of ours, 7, the payload's refusals by theirs, and at last 30 by the
/// rows that are shown. Cells after those rows stay as they were.
///
/// The tail is what theirs does not know either. It is no tail for [`forward`],
/// which takes only what [`read`] by the same table tells.
///
/// ```
/// // uint8, and a struct with one such field; theirs adds an optional one.
/// let ours = [6u32, 0, 0, 16, 0, 1, 0, 0, 24, 32, 32, 1];
/// let theirs = [6u32, 0, 0, 16, 0, 2, 0, 0, 0, 1, 24, 40, 40, 1];
/// let bytes = |words: &[u32]| words.iter().flat_map(|word| word.to_le_bytes()).collect();
/// let (ours, theirs): (Vec<u8>, Vec<u8>) = (bytes(&ours), bytes(&theirs));
///
/// let (payload, mut sheet) = ([0x03, 0x07, 0x08], [0; 8]);
/// let reading = arf::read_beside(&ours, &theirs, 1, &payload, &mut sheet).unwrap();
/// assert_eq!((reading.rows, reading.tail_length), (2, 0));
/// assert_eq!(sheet, [1, 0, 3, 1, 0, 1, 1, 0]);
///
/// // By our table alone the added field is a tail.
/// let reading = arf::read(&ours, 1, &payload, &mut sheet).unwrap();
/// assert_eq!((reading.tail_place, reading.tail_length), (2, 1));
///
/// let refused = arf::read_beside(&theirs, &ours, 1, &payload, &mut sheet).unwrap_err();
/// assert_eq!((refused.number, refused.place), (47, 0));
/// ```
pub fn read_beside(
    ours: &[u8],
    theirs: &[u8],
    type_number: u32,
    payload: &[u8],
    sheet: &mut [u32],
) -> Result<Reading, Refusal> {
    let mut cells = [0; 5];
    let number = ffi::read_beside(ours, theirs, type_number, payload, sheet, &mut cells);
    let [place, reading @ ..] = cells;
    answer(number, place, Reading::from_cells(reading))
}

/// Writes the value that a sheet shows over its bytes, and gives its length. A
/// refusal leaves the output as it was.
///
/// Of each row the type and the count are used; of a scalar, a string or bytes
/// also the place and the length of its content in the bytes; of a struct also
/// the place, where its bitmap stands in the bytes. The other cells are ignored.
/// So the rows of a value that was read are written over its payload, and a
/// [`Draft`](crate::Draft) makes rows and bytes for a value of one's own.
///
/// ```
/// let words = [6u32, 0, 0, 16, 0, 1, 0, 0, 24, 32, 32, 1];
/// let schema: Vec<u8> = words.iter().flat_map(|word| word.to_le_bytes()).collect();
/// let sheet = [1, 0, 2, 1, 0, 1, 1, 0];
/// let mut out = [0; 2];
/// assert_eq!(arf::write(&schema, 1, &sheet, &[0x01, 0x07], &mut out), Ok(2));
/// assert_eq!(out, [0x01, 0x07]);
/// // The second row is missing.
/// let refused = arf::write(&schema, 1, &sheet[..4], &[0x01, 0x07], &mut out).unwrap_err();
/// assert_eq!((refused.number, refused.place), (50, 1));
/// ```
pub fn write(
    schema: &[u8],
    type_number: u32,
    sheet: &[u32],
    bytes: &[u8],
    out: &mut [u8],
) -> Result<usize, Refusal> {
    let mut cells = [0; 2];
    let number = ffi::write(schema, type_number, sheet, bytes, out, &mut cells);
    answer(number, cells[0], cells[1] as usize)
}

/// Writes like [`write()`], and passes on what the table does not know: the
/// unknown bits of the root are kept, and the tail of the bytes stands after the
/// known fields. A refusal leaves the output as it was, and what stands after
/// the bytes written stays as it was too.
///
/// The refusals of [`write()`] come first, up to a row that is left over. Then, at
/// place 0: 51 for a tail outside the bytes, 50 for one that is shorter than the
/// unknown bits or present without any, 7 and 52 for the whole. Only the tail
/// that [`read`] by the same table tells belongs here, not that of
/// [`read_beside`].
///
/// A relay reads a payload by its own table and forwards just the rows shown,
/// with the tail that the reading tells. Whatever it can read comes out as the
/// same bytes, so that a reader by a newer table misses nothing.
///
/// ```
/// fn relay(schema: &[u8], type_number: u32, payload: &[u8]) -> Result<Vec<u8>, arf::Refusal> {
///     // Each value has a byte at least, so there are never more rows.
///     let mut sheet = vec![0; 4 * payload.len()];
///     let reading = arf::read(schema, type_number, payload, &mut sheet)?;
///     let rows = &sheet[..4 * reading.rows];
///     let (place, length) = (reading.tail_place, reading.tail_length);
///     let mut out = vec![0; payload.len()];
///     arf::forward(schema, type_number, rows, payload, place, length, &mut out)?;
///     Ok(out)
/// }
///
/// // uint8, and a struct with one such field; the new table adds an optional one.
/// let old = [6u32, 0, 0, 16, 0, 1, 0, 0, 24, 32, 32, 1];
/// let new = [6u32, 0, 0, 16, 0, 2, 0, 0, 0, 1, 24, 40, 40, 1];
/// let file = |words: &[u32]| -> Vec<u8> { words.iter().flat_map(|w| w.to_le_bytes()).collect() };
/// let (old, new) = (file(&old), file(&new));
/// assert_eq!(arf::extends(&old, &new), Ok(true));
///
/// // Both fields of the new table.
/// let payload = [0x03, 0x07, 0x09];
/// let relayed = relay(&old, 1, &payload).unwrap();
/// assert_eq!(relayed, payload);
/// let (mut before, mut after) = ([0; 12], [0; 12]);
/// let reading = arf::read(&new, 1, &payload, &mut before).unwrap();
/// assert_eq!((reading.rows, reading.tail_length), (3, 0));
/// assert_eq!(arf::read(&new, 1, &relayed, &mut after), Ok(reading));
/// assert_eq!(after, before);
///
/// // The plain writer leaves out what the old table does not know.
/// let mut sheet = [0; 8];
/// arf::read(&old, 1, &payload, &mut sheet).unwrap();
/// let mut out = [0; 3];
/// assert_eq!(arf::write(&old, 1, &sheet, &payload, &mut out), Ok(2));
/// assert_eq!(out, [0x01, 0x07, 0x00]);
///
/// // A tail outside the bytes, and one that is shorter than the unknown bits.
/// let mut tail = |place, length| {
///     arf::forward(&old, 1, &sheet, &payload, place, length, &mut out).unwrap_err().number
/// };
/// assert_eq!((tail(3, 1), tail(3, 0)), (51, 50));
/// ```
pub fn forward(
    schema: &[u8],
    type_number: u32,
    sheet: &[u32],
    bytes: &[u8],
    tail_place: usize,
    tail_length: usize,
    out: &mut [u8],
) -> Result<usize, Refusal> {
    let tail = [tail_place, tail_length];
    let mut cells = [0; 2];
    let number = ffi::forward(schema, type_number, sheet, bytes, tail, out, &mut cells);
    answer(number, cells[0], cells[1] as usize)
}
