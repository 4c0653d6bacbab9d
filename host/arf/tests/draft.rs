//! What the writer says to a value in the making that is not right.

use arf::{Draft, Refusal, Schema};

/// uint8, string, and a struct with one of each, the second optional.
fn file() -> Vec<u8> {
    let words = [6u32, 0, 0, 12, 0, 0, 16, 0, 2, 0, 0, 1, 1, 36, 52, 52, 1];
    words.iter().flat_map(|word| word.to_le_bytes()).collect()
}

/// Makes a value in memory of a size, and writes it.
fn made(rows: usize, room: usize, make: impl Fn(&mut Draft)) -> Result<Vec<u8>, Refusal> {
    let file = file();
    let schema = Schema::new(&file)?;
    let (mut sheet, mut bytes) = (vec![0; 4 * rows], vec![0; room]);
    let mut draft = Draft::new(&mut sheet, &mut bytes);
    make(&mut draft);
    let mut out = vec![0; 64];
    let (sheet, bytes) = (draft.sheet(), draft.bytes());
    let length = arf::write(schema.bytes(), 2, sheet, bytes, &mut out)?;
    out.truncate(length);
    Ok(out)
}

fn whole(draft: &mut Draft) {
    draft.structure(2, [0, 1]).value(0, [7]).value(1, "ok");
}

#[test]
fn a_value_is_written_in_exact_room() {
    assert_eq!(made(3, 11, whole).as_deref(), Ok(&b"\x03\x07\x02ok"[..]));
}

#[test]
fn what_has_no_room_is_missed() {
    let refused = |number, place| Err(Refusal { number, place });
    assert_eq!(made(2, 11, whole), refused(50, 2));
    assert_eq!(made(0, 11, whole), refused(50, 0));
    assert_eq!(made(3, 10, whole), refused(51, 2));
    assert_eq!(made(3, 8, whole), refused(51, 1));
    assert_eq!(made(3, 0, whole), refused(51, 0));
    // A content that fits is not put where an earlier one had no room.
    let late = |draft: &mut Draft| {
        draft.structure(2, [0, 1]).value(0, [7, 8]).value(1, "");
    };
    assert_eq!(made(3, 9, late), refused(50, 1));
}

/// The number and the row of the refusal of a struct with these fields present
/// and these values in it.
fn refused(present: &[usize], values: &[(u32, &[u8])]) -> (u32, usize) {
    let make = |draft: &mut Draft| {
        draft.structure(2, present.iter().copied());
        for (type_number, content) in values {
            draft.value(*type_number, content);
        }
    };
    let refused = made(9, 99, make).unwrap_err();
    (refused.number, refused.place)
}

#[test]
fn what_is_wrong_is_told_by_its_row() {
    // A required field is absent, or there is no such field.
    assert_eq!(refused(&[], &[]), (25, 0));
    for ordinal in [2, 64, usize::MAX] {
        assert_eq!(refused(&[0, ordinal], &[(0, &[7])]), (50, 0));
    }
    // A field is missing, of another type, of another length, or left over.
    assert_eq!(refused(&[0], &[]), (50, 1));
    assert_eq!(refused(&[0], &[(1, b"7")]), (50, 1));
    assert_eq!(refused(&[0], &[(0, &[7, 0])]), (50, 1));
    assert_eq!(refused(&[0], &[(0, &[7]), (1, b"ok")]), (50, 2));
}
