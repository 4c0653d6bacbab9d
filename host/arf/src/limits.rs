//! How large what is lent may be, and what a call needs.

/// The most bytes of a payload; a longer one is refused with 7.
pub const MAX_PAYLOAD: usize = 16_384;

/// The most bytes of a frame: a header of 25 bytes, the payload's length, which
/// takes three bytes at most, and the payload.
pub const MAX_FRAME: usize = 25 + 3 + MAX_PAYLOAD;

/// The most types, fields and methods of a schema table; more are refused with
/// 41.
pub const MAX_TYPES: usize = 256;
/// See [`MAX_TYPES`].
pub const MAX_FIELDS: usize = 2_048;
/// See [`MAX_TYPES`].
pub const MAX_METHODS: usize = 256;

/// The most fields of one struct.
pub const MAX_STRUCT_FIELDS: usize = 64;

/// The most bytes of a good schema file: its rows, and a trailer of 16 bytes.
///
/// ```
/// let rows = 12 * arf::MAX_TYPES + 8 * arf::MAX_FIELDS + 32 * arf::MAX_METHODS;
/// assert_eq!(arf::MAX_SCHEMA, rows + 16);
/// ```
pub const MAX_SCHEMA: usize = 27_664;

/// The cells that are enough to show any payload: each of its values takes a
/// byte at least, and a row has four cells.
pub const MAX_SHEET: usize = 4 * MAX_PAYLOAD;

/// The type number that stands for no value: [`write_value_frame`] writes an
/// empty payload for it. No table has a type of this number.
///
/// [`write_value_frame`]: crate::write_value_frame
pub const NO_VALUE: u32 = u32::MAX;

/// The greatest depth of a value, where the root stands at 1; a deeper one is
/// refused with 28.
pub const MAX_DEPTH: usize = 16;

/// The most pairs of a map. A map of more is refused with 31, by the readers at
/// its count and by the writer at its row.
///
/// ```
/// // uint8, a map from it to itself, and a struct with one such map.
/// let words = [6u32, 0, 0, 15, 0, 0, 16, 0, 1, 1, 0, 36, 44, 44, 1];
/// let schema: Vec<u8> = words.iter().flat_map(|word| word.to_le_bytes()).collect();
/// let pairs = arf::MAX_PAIRS as u32 + 1;
/// let sheet = [2, 0, 1, 1, 1, 1, 0, pairs];
/// let refused = arf::write(&schema, 2, &sheet, &[0x01], &mut [0; 200]).unwrap_err();
/// assert_eq!((refused.number, refused.place), (31, 1));
/// assert_eq!(refused.to_string(), "31 at 1: a map of more than 64 pairs");
/// ```
pub const MAX_PAIRS: usize = 64;

/// No reading has more comparisons. A pair has two bytes at least, so that a
/// payload has room for 128 maps of 64 pairs at most, with 2,016 comparisons
/// each.
///
/// ```
/// let maps = arf::MAX_PAYLOAD / (2 * arf::MAX_PAIRS);
/// let each = arf::MAX_PAIRS * (arf::MAX_PAIRS - 1) / 2;
/// assert_eq!(arf::MAX_COMPARISONS, maps * each);
/// ```
pub const MAX_COMPARISONS: usize = 258_048;

/// The most bytes of a record; the salvage and the index of a longer one are
/// refused with 45.
pub const MAX_RECORD: usize = 65_536;

/// The cells that are enough to list the spans of any record: between two spans
/// lies an entry, which has 27 bytes at least.
///
/// ```
/// let spans = (arf::MAX_RECORD + 27) / 28;
/// assert_eq!(arf::SPAN_CELLS, 2 * spans);
/// ```
pub const SPAN_CELLS: usize = 4_682;

/// The bytes that are enough for the index of any record: 16 for each entry,
/// which has 27 bytes at least, and 16 more.
///
/// ```
/// assert_eq!(arf::MAX_INDEX, 16 * (arf::MAX_RECORD / 27) + 16);
/// ```
pub const MAX_INDEX: usize = 38_848;

/// The number of slots of a call table; an INVOKE that finds none free is
/// refused with 13.
pub const SLOTS: usize = 128;

/// The most elements that are counted for each stream of a call; one more is
/// refused with 17.
pub const MAX_ELEMENTS: u16 = 65_535;

/// The stack in bytes that a thread needs for [`make_index`], which holds a sheet
/// of 4,096 rows and the rows of the index: 256 KiB, which leaves the caller some
/// of it, since `tools/stack` measures 157 KiB at most.
///
/// [`make_index`]: crate::make_index
pub const INDEX_STACK: usize = 256 * 1024;

/// The stack in bytes that a thread needs for any call but [`make_index`]: 64
/// KiB, which leaves the caller some of it, since `tools/stack` measures 49 KiB
/// at most. With less stack than a call needs, the system ends the process.
///
/// [`make_index`]: crate::make_index
///
/// The main thread and those of `std::thread` have more unless they are given
/// less. The deepest values need the most.
///
/// ```
/// // uint8, a map from it to such maps, and a struct with one of them.
/// let words = [6u32, 0, 0, 15, 0, 1, 16, 0, 1, 1, 0, 36, 44, 44, 1];
/// let schema: Vec<u8> = words.iter().flat_map(|word| word.to_le_bytes()).collect();
/// // 14 maps of one pair in each other, and in the last an empty one at depth 16.
/// let payload = [&[0x01][..], &[1, 7].repeat(14), &[0]].concat();
/// let mut sheet = vec![0; 4 * 30];
/// let thread = std::thread::Builder::new().stack_size(arf::STACK);
/// let reading = thread.spawn(move || arf::read(&schema, 2, &payload, &mut sheet));
/// assert_eq!(reading.unwrap().join().unwrap().unwrap().rows, 30);
/// ```
pub const STACK: usize = 64 * 1024;
