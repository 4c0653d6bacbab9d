//! The functions of the static library, with a safe call of each.
//!
//! A Rattle slice crosses as a pointer and a length. `crates/exports_c` asks
//! nothing more of its callers, so a call is right for any Rust slices: their
//! pointers are aligned and never null, also where they are empty; their
//! lengths are those of memory that is there; what is lent as `&mut` is nobody
//! else's during the call, and the library keeps no pointer.
//!
//! The declarations repeat the parameters of the Rattle source in order, to
//! which `tools/check-header` holds them; the tests below and `compare` look at
//! the answers.

use crate::Tally;

extern "C" {
    fn arf_check_table(
        schema: *const u8,
        schema_n: usize,
        answer: *mut u64,
        answer_n: usize,
    ) -> u32;

    fn arf_extends(
        old: *const u8,
        old_n: usize,
        new: *const u8,
        new_n: usize,
        answer: *mut u64,
        answer_n: usize,
    ) -> u32;

    fn arf_read(
        schema: *const u8,
        schema_n: usize,
        ty: u32,
        payload: *const u8,
        payload_n: usize,
        sheet: *mut u32,
        sheet_n: usize,
        answer: *mut u64,
        answer_n: usize,
    ) -> u32;

    fn arf_read_beside(
        ours: *const u8,
        ours_n: usize,
        theirs: *const u8,
        theirs_n: usize,
        ty: u32,
        payload: *const u8,
        payload_n: usize,
        sheet: *mut u32,
        sheet_n: usize,
        answer: *mut u64,
        answer_n: usize,
    ) -> u32;

    fn arf_write(
        schema: *const u8,
        schema_n: usize,
        ty: u32,
        sheet: *const u32,
        sheet_n: usize,
        bytes: *const u8,
        bytes_n: usize,
        out: *mut u8,
        out_n: usize,
        answer: *mut u64,
        answer_n: usize,
    ) -> u32;

    fn arf_forward(
        schema: *const u8,
        schema_n: usize,
        ty: u32,
        sheet: *const u32,
        sheet_n: usize,
        bytes: *const u8,
        bytes_n: usize,
        tail_place: usize,
        tail_length: usize,
        out: *mut u8,
        out_n: usize,
        answer: *mut u64,
        answer_n: usize,
    ) -> u32;

    fn arf_scalar(
        schema: *const u8,
        schema_n: usize,
        ty: u32,
        place: u32,
        length: u32,
        count: u32,
        bytes: *const u8,
        bytes_n: usize,
        answer: *mut u64,
        answer_n: usize,
    ) -> u32;

    fn arf_receive(
        table: *mut u64,
        table_n: usize,
        schema: *const u8,
        schema_n: usize,
        side: u8,
        bytes: *const u8,
        bytes_n: usize,
        sheet: *mut u32,
        sheet_n: usize,
        tallies: *mut u32,
        tallies_n: usize,
        answer: *mut u64,
        answer_n: usize,
    ) -> u32;

    fn arf_release(
        table: *mut u64,
        table_n: usize,
        schema: *const u8,
        schema_n: usize,
        correlation: u64,
        tallies: *mut u32,
        tallies_n: usize,
        answer: *mut u64,
        answer_n: usize,
    ) -> u32;

    fn arf_make_index(
        schema: *const u8,
        schema_n: usize,
        record: *const u8,
        record_n: usize,
        out: *mut u8,
        out_n: usize,
        answer: *mut u64,
        answer_n: usize,
    ) -> u32;

    fn arf_look_up(
        index: *const u8,
        index_n: usize,
        record: *const u8,
        record_n: usize,
        correlation: u64,
        out: *mut u8,
        out_n: usize,
        answer: *mut u64,
        answer_n: usize,
    ) -> u32;

    fn arf_read_frame(bytes: *const u8, bytes_n: usize, answer: *mut u64, answer_n: usize) -> u32;

    fn arf_write_frame(
        kind: u32,
        package: u32,
        service: u32,
        method: u32,
        correlation: u64,
        payload: *const u8,
        payload_n: usize,
        out: *mut u8,
        out_n: usize,
        answer: *mut u64,
        answer_n: usize,
    ) -> u32;

    fn arf_write_value_frame(
        kind: u32,
        package: u32,
        service: u32,
        method: u32,
        correlation: u64,
        schema: *const u8,
        schema_n: usize,
        ty: u32,
        sheet: *const u32,
        sheet_n: usize,
        bytes: *const u8,
        bytes_n: usize,
        out: *mut u8,
        out_n: usize,
        answer: *mut u64,
        answer_n: usize,
    ) -> u32;

    fn arf_salvage(
        record: *const u8,
        record_n: usize,
        copy: *mut u8,
        copy_n: usize,
        spans: *mut u32,
        spans_n: usize,
        answer: *mut u64,
        answer_n: usize,
    ) -> u32;
}

/// Stores the place.
pub fn check_table(schema: &[u8], answer: &mut [u64]) -> u32 {
    // SAFETY: each pointer and length are those of a Rust slice.
    unsafe {
        arf_check_table(
            schema.as_ptr(),
            schema.len(),
            answer.as_mut_ptr(),
            answer.len(),
        )
    }
}

/// Stores the place, and 1 for yes or 0.
pub fn extends(old: &[u8], new: &[u8], answer: &mut [u64]) -> u32 {
    // SAFETY: each pointer and length are those of a Rust slice.
    unsafe {
        arf_extends(
            old.as_ptr(),
            old.len(),
            new.as_ptr(),
            new.len(),
            answer.as_mut_ptr(),
            answer.len(),
        )
    }
}

/// Stores the place, the rows, the tail's place and length, and the comparisons.
pub fn read(schema: &[u8], ty: u32, payload: &[u8], sheet: &mut [u32], answer: &mut [u64]) -> u32 {
    // SAFETY: each pointer and length are those of a Rust slice; the two that
    // are written do not overlap, since both are `&mut`.
    unsafe {
        arf_read(
            schema.as_ptr(),
            schema.len(),
            ty,
            payload.as_ptr(),
            payload.len(),
            sheet.as_mut_ptr(),
            sheet.len(),
            answer.as_mut_ptr(),
            answer.len(),
        )
    }
}

/// Stores what `read` stores.
pub fn read_beside(
    ours: &[u8],
    theirs: &[u8],
    ty: u32,
    payload: &[u8],
    sheet: &mut [u32],
    answer: &mut [u64],
) -> u32 {
    // SAFETY: each pointer and length are those of a Rust slice; the two that
    // are written do not overlap, since both are `&mut`.
    unsafe {
        arf_read_beside(
            ours.as_ptr(),
            ours.len(),
            theirs.as_ptr(),
            theirs.len(),
            ty,
            payload.as_ptr(),
            payload.len(),
            sheet.as_mut_ptr(),
            sheet.len(),
            answer.as_mut_ptr(),
            answer.len(),
        )
    }
}

/// Stores the place and the length written.
pub fn write(
    schema: &[u8],
    ty: u32,
    sheet: &[u32],
    bytes: &[u8],
    out: &mut [u8],
    answer: &mut [u64],
) -> u32 {
    // SAFETY: each pointer and length are those of a Rust slice; the two that
    // are written do not overlap, since both are `&mut`.
    unsafe {
        arf_write(
            schema.as_ptr(),
            schema.len(),
            ty,
            sheet.as_ptr(),
            sheet.len(),
            bytes.as_ptr(),
            bytes.len(),
            out.as_mut_ptr(),
            out.len(),
            answer.as_mut_ptr(),
            answer.len(),
        )
    }
}

/// Stores the place and the length written. The tail is a place and a length.
pub fn forward(
    schema: &[u8],
    ty: u32,
    sheet: &[u32],
    bytes: &[u8],
    tail: [usize; 2],
    out: &mut [u8],
    answer: &mut [u64],
) -> u32 {
    let [tail_place, tail_length] = tail;
    // SAFETY: each pointer and length are those of a Rust slice; the two that
    // are written do not overlap, since both are `&mut`.
    unsafe {
        arf_forward(
            schema.as_ptr(),
            schema.len(),
            ty,
            sheet.as_ptr(),
            sheet.len(),
            bytes.as_ptr(),
            bytes.len(),
            tail_place,
            tail_length,
            out.as_mut_ptr(),
            out.len(),
            answer.as_mut_ptr(),
            answer.len(),
        )
    }
}

/// Stores the place, the case and its two numbers. The row is type, place,
/// length and count.
pub fn scalar(schema: &[u8], row: [u32; 4], bytes: &[u8], answer: &mut [u64]) -> u32 {
    let [ty, place, length, count] = row;
    // SAFETY: each pointer and length are those of a Rust slice.
    unsafe {
        arf_scalar(
            schema.as_ptr(),
            schema.len(),
            ty,
            place,
            length,
            count,
            bytes.as_ptr(),
            bytes.len(),
            answer.as_mut_ptr(),
            answer.len(),
        )
    }
}

/// The cells of an answer, each loaded by itself: a load of two at once would
/// wait for the stores of both, which is most of the time of a short call.
pub fn one_by_one<const N: usize>(cells: &[u64; N]) -> [u64; N] {
    // SAFETY: each place is a cell of the array.
    core::array::from_fn(|i| unsafe { core::ptr::read_volatile(&cells[i]) })
}

/// Stores kind, package, service, method, correlation, and the payload's place
/// and length.
pub fn read_frame(bytes: &[u8], answer: &mut [u64]) -> u32 {
    // SAFETY: each pointer and length are those of a Rust slice.
    unsafe {
        arf_read_frame(
            bytes.as_ptr(),
            bytes.len(),
            answer.as_mut_ptr(),
            answer.len(),
        )
    }
}

/// Stores the frame's length. The identifiers are package, service and method.
pub fn write_frame(
    kind: u32,
    identifiers: [u32; 3],
    correlation: u64,
    payload: &[u8],
    out: &mut [u8],
    answer: &mut [u64],
) -> u32 {
    let [package, service, method] = identifiers;
    // SAFETY: each pointer and length are those of a Rust slice; the two that
    // are written do not overlap, since both are `&mut`.
    unsafe {
        arf_write_frame(
            kind,
            package,
            service,
            method,
            correlation,
            payload.as_ptr(),
            payload.len(),
            out.as_mut_ptr(),
            out.len(),
            answer.as_mut_ptr(),
            answer.len(),
        )
    }
}

/// Stores the place and the frame's length. The header is kind, package,
/// service and method; the value is its type, its sheet and the sheet's bytes.
pub fn write_value_frame(
    header: [u32; 4],
    correlation: u64,
    schema: &[u8],
    value: (u32, &[u32], &[u8]),
    out: &mut [u8],
    answer: &mut [u64],
) -> u32 {
    let [kind, package, service, method] = header;
    let (ty, sheet, bytes) = value;
    // SAFETY: each pointer and length are those of a Rust slice; the two that
    // are written do not overlap, since both are `&mut`.
    unsafe {
        arf_write_value_frame(
            kind,
            package,
            service,
            method,
            correlation,
            schema.as_ptr(),
            schema.len(),
            ty,
            sheet.as_ptr(),
            sheet.len(),
            bytes.as_ptr(),
            bytes.len(),
            out.as_mut_ptr(),
            out.len(),
            answer.as_mut_ptr(),
            answer.len(),
        )
    }
}

/// The cells of tally rows, five a row in the order of its figures.
pub fn tally_cells(tallies: &mut [Tally]) -> &mut [u32] {
    const FIGURES: usize = 5;
    const { assert!(size_of::<Tally>() == FIGURES * size_of::<u32>()) };
    const { assert!(align_of::<Tally>() == align_of::<u32>()) };
    let cells = FIGURES * tallies.len();
    // SAFETY: a row is laid out as in C and has five numbers of 32 bits and no
    // other byte, so the rows are as many cells, and any cells are rows; they
    // are lent on as long as the rows are.
    unsafe { core::slice::from_raw_parts_mut(tallies.as_mut_ptr().cast(), cells) }
}

/// Stores the place, the bytes used, the rows, the tail's place and length, the
/// calls open and the comparisons. The table has three cells a record, for the
/// correlation, the method number, and the marks with the elements.
pub fn receive(
    table: &mut [u64],
    schema: &[u8],
    side: u8,
    bytes: &[u8],
    sheet: &mut [u32],
    tallies: &mut [u32],
    answer: &mut [u64],
) -> u32 {
    // SAFETY: each pointer and length are those of a Rust slice; the four that
    // are written do not overlap, since all are `&mut`.
    unsafe {
        arf_receive(
            table.as_mut_ptr(),
            table.len(),
            schema.as_ptr(),
            schema.len(),
            side,
            bytes.as_ptr(),
            bytes.len(),
            sheet.as_mut_ptr(),
            sheet.len(),
            tallies.as_mut_ptr(),
            tallies.len(),
            answer.as_mut_ptr(),
            answer.len(),
        )
    }
}

/// Stores the entries kept, the bytes copied and the spans listed.
pub fn salvage(record: &[u8], copy: &mut [u8], spans: &mut [u32], answer: &mut [u64]) -> u32 {
    // SAFETY: each pointer and length are those of a Rust slice; the three that
    // are written do not overlap, since all are `&mut`.
    unsafe {
        arf_salvage(
            record.as_ptr(),
            record.len(),
            copy.as_mut_ptr(),
            copy.len(),
            spans.as_mut_ptr(),
            spans.len(),
            answer.as_mut_ptr(),
            answer.len(),
        )
    }
}

/// Stores the place and the length of the index.
pub fn make_index(schema: &[u8], record: &[u8], out: &mut [u8], answer: &mut [u64]) -> u32 {
    // SAFETY: each pointer and length are those of a Rust slice; the two that
    // are written do not overlap, since both are `&mut`.
    unsafe {
        arf_make_index(
            schema.as_ptr(),
            schema.len(),
            record.as_ptr(),
            record.len(),
            out.as_mut_ptr(),
            out.len(),
            answer.as_mut_ptr(),
            answer.len(),
        )
    }
}

/// Stores the length of the text.
pub fn look_up(
    index: &[u8],
    record: &[u8],
    correlation: u64,
    out: &mut [u8],
    answer: &mut [u64],
) -> u32 {
    // SAFETY: each pointer and length are those of a Rust slice; the two that
    // are written do not overlap, since both are `&mut`.
    unsafe {
        arf_look_up(
            index.as_ptr(),
            index.len(),
            record.as_ptr(),
            record.len(),
            correlation,
            out.as_mut_ptr(),
            out.len(),
            answer.as_mut_ptr(),
            answer.len(),
        )
    }
}

/// Stores the place and the calls open.
pub fn release(
    table: &mut [u64],
    schema: &[u8],
    correlation: u64,
    tallies: &mut [u32],
    answer: &mut [u64],
) -> u32 {
    // SAFETY: each pointer and length are those of a Rust slice; the three that
    // are written do not overlap, since all are `&mut`.
    unsafe {
        arf_release(
            table.as_mut_ptr(),
            table.len(),
            schema.as_ptr(),
            schema.len(),
            correlation,
            tallies.as_mut_ptr(),
            tallies.len(),
            answer.as_mut_ptr(),
            answer.len(),
        )
    }
}

#[cfg(test)]
mod tests {
    use super::*;
    use std::vec;
    use std::vec::Vec;

    const FILL: u64 = 0xA5A5_A5A5_A5A5_A5A5;

    /// Runs a call with every number of cells from none to more than it
    /// stores, and holds each run to the longest one: the first cells hold the
    /// answer, as far as there are cells, and no other cell is touched.
    fn with_any_room(stores: usize, mut call: impl FnMut(&mut [u64]) -> u32) {
        let mut whole = [FILL; 9];
        let number = call(&mut whole);
        assert!(whole[..stores].iter().all(|&cell| cell != FILL));
        assert!(whole[stores..].iter().all(|&cell| cell == FILL));
        for room in 0..whole.len() {
            let mut cells = [FILL; 9];
            assert_eq!(call(&mut cells[..room]), number);
            let stored = stores.min(room);
            assert_eq!(cells[..stored], whole[..stored]);
            assert!(cells[stored..].iter().all(|&cell| cell == FILL));
        }
    }

    #[test]
    fn answers_fill_the_cells_that_there_are() {
        with_any_room(1, |cells| check_table(&[], cells));
        with_any_room(2, |cells| extends(&[], &[], cells));
        with_any_room(5, |cells| read(&[], 0, &[], &mut [], cells));
        with_any_room(5, |cells| read_beside(&[], &[], 0, &[], &mut [], cells));
        with_any_room(2, |cells| write(&[], 0, &[], &[], &mut [], cells));
        with_any_room(2, |cells| forward(&[], 0, &[], &[], [0; 2], &mut [], cells));
        with_any_room(4, |cells| scalar(&[], [0; 4], &[], cells));
        with_any_room(7, |cells| read_frame(&[], cells));
        with_any_room(7, |cells| {
            receive(&mut [], &[], b'C', &[], &mut [], &mut [], cells)
        });
        with_any_room(2, |cells| release(&mut [], &[], 0, &mut [], cells));
        with_any_room(1, |cells| write_frame(9, [0; 3], 0, &[], &mut [], cells));
        with_any_room(2, |cells| {
            write_value_frame([0; 4], 0, &[], (0, &[], &[]), &mut [], cells)
        });
        with_any_room(3, |cells| salvage(&[], &mut [], &mut [], cells));
        with_any_room(2, |cells| make_index(&[], &[], &mut [], cells));
        with_any_room(1, |cells| look_up(&[], &[], 0, &mut [], cells));
    }

    #[test]
    fn every_parameter_crosses_in_its_place() {
        let (mut out, mut cells) = ([0; 40], [0; 7]);
        let correlation = 0x0807_0605_0403_0201;
        let number = write_frame(4, [5, 6, 7], correlation, &[9, 8], &mut out, &mut cells);
        assert_eq!((number, cells[0]), (0, 28));
        assert_eq!(read_frame(&out[..28], &mut cells), 0);
        assert_eq!(cells, [4, 5, 6, 7, correlation, 26, 2]);
        assert_eq!(out[26..28], [9, 8]);
        assert!(out[28..].iter().all(|&byte| byte == 0));
    }

    #[test]
    fn a_value_crosses_into_its_frame() {
        let (schema, mut out, mut cells) = (map_schema(), [0; 40], [FILL; 2]);
        let correlation = 0x0807_0605_0403_0201;
        // One pair of 7 and 8.
        let sheet = [2, 0, 4, 1, 1, 0, 0, 1, 0, 1, 1, 0, 0, 2, 1, 0];
        let value = (2, &sheet[..], &[1, 7, 8][..]);
        let header = [4, 5, 6, 7];
        let number = write_value_frame(header, correlation, &schema, value, &mut out, &mut cells);
        assert_eq!((number, cells), (0, [0, 30]));
        let mut read = [0; 7];
        assert_eq!(read_frame(&out, &mut read), 0);
        assert_eq!(read, [4, 5, 6, 7, correlation, 26, 4]);
        assert_eq!(out[26..30], [1, 1, 7, 8]);
        assert!(out[30..].iter().all(|&byte| byte == 0));

        // The last row is missing.
        let value = (2, &sheet[..12], &[1, 7, 8][..]);
        let (before, mut cells) = (out, [FILL; 2]);
        let number = write_value_frame(header, correlation, &schema, value, &mut out, &mut cells);
        assert_eq!((number, cells), (50, [3, 0]));
        assert_eq!(out, before);
    }

    /// uint8, and a struct with one such field.
    fn struct_schema() -> Vec<u8> {
        let words = [6u32, 0, 0, 16, 0, 1, 0, 0, 24, 32, 32, 1];
        words.iter().flat_map(|word| word.to_le_bytes()).collect()
    }

    #[test]
    fn tails_are_judged_once_the_rows_are_right() {
        let (schema, sheet) = (struct_schema(), [1, 0, 2, 1, 0, 1, 1, 0]);
        let (mut out, mut cells) = ([0xA5; 6], [FILL; 2]);
        let mut call = |sheet: &[u32], bits, tail| {
            let bytes = [bits, 7, 8, 9];
            let number = forward(&schema, 1, sheet, &bytes, tail, &mut out[1..4], &mut cells);
            (number, cells, out)
        };
        let untouched = [0xA5; 6];
        // A row is left over, whatever the tail; then the tail outside the
        // bytes, also where place and length wrap, and an empty one there.
        let surplus = [&sheet[..], &sheet[4..]].concat();
        assert_eq!(call(&surplus, 1, [9, 9]), (50, [2, 0], untouched));
        assert_eq!(call(&sheet, 1, [3, 2]), (51, [0, 0], untouched));
        assert_eq!(call(&sheet, 3, [usize::MAX, 2]), (51, [0, 0], untouched));
        assert_eq!(call(&sheet, 1, [5, 0]), (51, [0, 0], untouched));
        // Two unknown bits and one byte; a byte and no unknown bit.
        assert_eq!(call(&sheet, 7, [3, 1]), (50, [0, 0], untouched));
        assert_eq!(call(&sheet, 1, [3, 1]), (50, [0, 0], untouched));
        // The whole does not fit, and then it does.
        assert_eq!(call(&sheet, 3, [1, 2]), (52, [0, 0], untouched));
        let written = [0xA5, 3, 7, 9, 0xA5, 0xA5];
        assert_eq!(call(&sheet, 3, [3, 1]), (0, [0, 3], written));
    }

    #[test]
    fn a_whole_above_the_limit_comes_before_the_room() {
        let (schema, sheet) = (struct_schema(), [1, 0, 2, 1, 0, 1, 1, 0]);
        let mut bytes = vec![0; crate::MAX_PAYLOAD + 1];
        bytes[..2].copy_from_slice(&[3, 7]);
        let mut out = vec![0; bytes.len()];
        for (extra, number) in [(0, 0), (1, 7)] {
            let tail = [2, crate::MAX_PAYLOAD - 2 + extra];
            let answer = |out: &mut [u8]| forward(&schema, 1, &sheet, &bytes, tail, out, &mut []);
            assert_eq!(answer(&mut out), number);
            assert_eq!(answer(&mut []), if number == 0 { 52 } else { 7 });
        }
    }

    #[test]
    fn a_salvage_fills_both_buffers_and_refuses_either() {
        let mut entry = [b'S'; 27];
        assert_eq!(write_frame(3, [0; 3], 0, &[], &mut entry[1..], &mut []), 0);
        let record = [&[0][..], &entry, &[0, 0]].concat();
        let (mut copy, mut spans, mut cells) = ([7; 28], [7; 5], [FILL; 3]);
        let number = salvage(&record, &mut copy, &mut spans, &mut cells);
        assert_eq!((number, cells), (0, [1, 27, 2]));
        assert_eq!((&copy[..27], copy[27]), (&entry[..], 7));
        assert_eq!(spans, [0, 1, 28, 2, 7]);
        for (room, list, number) in [(26, 3, 52), (27, 3, 53)] {
            let (mut copy, mut spans) = (vec![7; room], vec![7; list]);
            assert_eq!(salvage(&record, &mut copy, &mut spans, &mut cells), number);
            assert_eq!((copy, spans), (vec![7; room], vec![7; list]));
            assert_eq!(cells, [0; 3]);
        }
    }

    /// uint8, a map from it to itself, a struct with one such map, and a method
    /// that takes it.
    fn map_schema() -> Vec<u8> {
        let types = [6, 0, 0, 15, 0, 0, 16, 0, 1];
        let method = [1, 2, 3, 12, 2, 2, u32::MAX, u32::MAX];
        let words = [&types[..], &[1, 0], &method, &[36, 44, 76, 1]].concat();
        words.iter().flat_map(|word| word.to_le_bytes()).collect()
    }

    #[test]
    fn comparisons_are_stored_last_and_none_at_a_refusal() {
        let (schema, mut sheet) = (map_schema(), [0; 32]);
        let right = [1, 3, 10, 0, 20, 0, 30, 0];
        let mut cells = [FILL; 5];
        assert_eq!(read(&schema, 2, &right, &mut sheet, &mut cells), 0);
        assert_eq!(cells, [0, 8, 8, 0, 3]);
        let surplus = [&right[..], &[0]].concat();
        assert_eq!(read(&schema, 2, &surplus, &mut sheet, &mut cells), 27);
        assert_eq!(cells, [8, 0, 0, 0, 0]);

        let (mut table, mut frame, mut cells) = ([0; 3 * 128], [0; 35], [FILL; 7]);
        let mut receive = |correlation, payload: &[u8]| {
            write_frame(1, [1, 2, 3], correlation, payload, &mut frame, &mut []);
            let (sheet, tallies) = (&mut sheet[..], &mut [0; 5]);
            receive(
                &mut table, &schema, b'C', &frame, sheet, tallies, &mut cells,
            );
            cells
        };
        assert_eq!(receive(1, &right), [0, 34, 8, 8, 0, 1, 3]);
        assert_eq!(receive(2, &surplus), [8, 35, 0, 0, 0, 1, 0]);
    }

    #[test]
    fn the_cancelled_mark_stands_in_the_lent_cells() {
        let schema = map_schema();
        let (mut table, mut frame, mut cells) = ([0; 3 * 128], [0; 34], [FILL; 2]);
        // Two cells are left over, and belong to no row.
        let mut tallies = [0, 0, 0, 0, 0, 8, 9];
        let correlation = 0x0807_0605_0403_0201;
        let mut send = |table: &mut [u64], tallies: &mut [u32], kind, payload: &[u8]| {
            let mut length = [0];
            write_frame(
                kind,
                [1, 2, 3],
                correlation,
                payload,
                &mut frame,
                &mut length,
            );
            let bytes = &frame[..length[0] as usize];
            receive(table, &schema, b'C', bytes, &mut [0; 32], tallies, &mut [])
        };
        assert_eq!(send(&mut table, &mut tallies, 1, &[1, 0]), 0);
        assert_eq!(table[..3], [correlation, 0, 1]);
        assert_eq!(send(&mut table, &mut tallies, 8, &[]), 0);
        assert_eq!(table[..3], [correlation, 0, 17]);
        assert_eq!(tallies, [1, 0, 0, 0, 0, 8, 9]);

        let mut release = |table: &mut [u64], tallies: &mut [u32]| {
            let number = release(table, &schema, correlation, tallies, &mut cells);
            (number, cells)
        };
        // Elements of a stream that the form lacks, and a number above all marks
        // and elements, are 15, and change nothing.
        for marks in [17 + (1 << 5), 17 + (1 << 21), 17 + (1 << 37)] {
            table[2] = marks;
            assert_eq!(release(&mut table, &mut tallies), (15, [0, 1]));
            assert_eq!((table[2], tallies), (marks, [1, 0, 0, 0, 0, 8, 9]));
        }
        table[2] = 17;
        assert_eq!(release(&mut table, &mut tallies[..4]), (19, [0, 1]));
        assert_eq!(release(&mut table, &mut tallies), (0, [0, 0]));
        assert_eq!(table, [0; 3 * 128]);
        assert_eq!(tallies, [1, 0, 0, 1, 0, 8, 9]);
        assert_eq!(release(&mut table, &mut tallies), (11, [0, 0]));
    }

    /// A struct with one uint8, and a method that streams it both ways.
    fn stream_schema() -> Vec<u8> {
        let types = [6, 0, 0, 16, 0, 1];
        let method = [1, 2, 3, 3, u32::MAX, u32::MAX, 1, 1];
        let words = [&types[..], &[0, 0], &method, &[24, 32, 64, 1]].concat();
        words.iter().flat_map(|word| word.to_le_bytes()).collect()
    }

    #[test]
    fn elements_are_counted_each_in_its_own_bits() {
        let schema = stream_schema();
        let (mut table, mut tallies, mut frame) = ([0; 3 * 128], [0; 5], [0; 28]);
        let mut send = |table: &mut [u64], kind, payload: &[u8]| {
            let mut length = [0];
            write_frame(kind, [1, 2, 3], 7, payload, &mut frame, &mut length);
            let bytes = &frame[..length[0] as usize];
            let side = if matches!(kind, 4..=7) { b'S' } else { b'C' };
            let mut cells = [FILL; 7];
            let sheet = &mut [0; 8];
            let number = receive(table, &schema, side, bytes, sheet, &mut tallies, &mut cells);
            (number, cells[1])
        };
        assert_eq!(send(&mut table, 1, &[]), (0, 26));
        assert_eq!(send(&mut table, 2, &[1, 9]), (0, 28));
        assert_eq!(send(&mut table, 2, &[1, 9]), (0, 28));
        assert_eq!(send(&mut table, 6, &[]), (0, 26));
        assert_eq!(send(&mut table, 4, &[1, 9]), (0, 28));
        assert_eq!(table[2], 3 + (2 << 5) + (1 << 21));
        // The last element that is counted, and one more, whatever it carries.
        table[2] = 3 + (2 << 5) + (65_534 << 21);
        assert_eq!(send(&mut table, 4, &[1, 9]), (0, 28));
        let full = 3 + (2 << 5) + (65_535 << 21);
        assert_eq!(table[2], full);
        assert_eq!(send(&mut table, 4, &[1, 9]), (17, 0));
        assert_eq!(send(&mut table, 4, &[]), (17, 0));
        assert_eq!(table[2], full);
        assert_eq!(send(&mut table, 5, &[]), (0, 26));
        assert_eq!(send(&mut table, 3, &[]), (0, 26));
        assert_eq!(table, [0; 3 * 128]);
        assert_eq!(tallies, [1, 1, 0, 0, 0]);
    }

    /// uint8, a map from it to itself, and a struct with a field of the first
    /// type and, where there is a second field, an optional one of the other.
    fn grown_schema(fields: u32) -> Vec<u8> {
        let types = [6, 0, 0, 15, 0, 0, 16, 0, fields];
        let rows = [0, 0, 1, 1];
        let end = 36 + 8 * fields;
        let words = [&types[..], &rows[..2 * fields as usize], &[36, end, end, 1]].concat();
        words.iter().flat_map(|word| word.to_le_bytes()).collect()
    }

    #[test]
    fn ours_and_theirs_cross_in_their_places() {
        let (ours, theirs) = (grown_schema(1), grown_schema(2));
        let (mut sheet, mut cells) = ([0; 12], [FILL; 5]);
        // The added map has two pairs, and a byte that no table knows follows.
        let payload = [0x07, 9, 2, 1, 0, 2, 0, 5];
        let number = read_beside(&ours, &theirs, 2, &payload, &mut sheet, &mut cells);
        assert_eq!((number, cells), (0, [0, 2, 7, 1, 1]));
        assert_eq!(sheet, [2, 0, 7, 1, 0, 1, 1, 0, 0, 0, 0, 0]);
        let number = read_beside(&theirs, &ours, 2, &payload, &mut sheet, &mut cells);
        assert_eq!((number, cells), (47, [0; 5]));
    }
}
