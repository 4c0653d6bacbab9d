//! Records with holes: what is kept, what is listed, and the room for both.

mod common;

use common::{BYTE, CELL};
use reference::cases::Case;
use reference::generate::rng::Rng;
use reference::generate::Generator;
use reference::{read_frame, salvage, write_frame, FrameAnswer, Header, Reason, Salvaged};

/// An entry of a kind from a side.
fn entry_of(side: u8, kind: u32, payload: &[u8]) -> Vec<u8> {
    let header = Header {
        kind,
        identifiers: [1, 2, 3],
        correlation: 9,
    };
    let mut out = vec![0; payload.len() + 30];
    let length = write_frame(&header, payload, &mut out).unwrap();
    [&[side], &out[..length]].concat()
}

fn entry(payload: &[u8]) -> Vec<u8> {
    entry_of(b'C', 1, payload)
}

/// The counts, the copy and the spans of a record. Checks that nothing else is
/// touched, that just enough room is enough, and that less is refused.
fn salvaged(record: &[u8]) -> (usize, Vec<u8>, Vec<[u32; 2]>) {
    let mut copy = vec![BYTE; record.len() + 5];
    let mut list = vec![CELL; record.len() + 5];
    let answer = salvage(record, &mut copy, &mut list).unwrap();
    let cells = 2 * answer.spans;
    assert!(copy[answer.copied..].iter().all(|&byte| byte == BYTE));
    assert!(list[cells..].iter().all(|&cell| cell == CELL));
    copy.truncate(answer.copied);
    list.truncate(cells);
    check_room(record, answer, &copy, &list);
    let spans = list.chunks(2).map(|span| [span[0], span[1]]);
    (answer.kept, copy, spans.collect())
}

/// Tries just enough room, a cell more, and a byte or a cell less.
fn check_room(record: &[u8], answer: Salvaged, copy: &[u8], list: &[u32]) {
    let (bytes, cells) = (copy.len(), list.len());
    let attempt = |bytes: usize, cells: usize| {
        let mut copy = vec![BYTE; bytes];
        let mut list = vec![CELL; cells];
        (salvage(record, &mut copy, &mut list), copy, list)
    };
    let exact = (Ok(answer), copy.to_vec(), list.to_vec());
    assert_eq!(attempt(bytes, cells), exact);
    let spare = (Ok(answer), copy.to_vec(), [list, &[CELL]].concat());
    assert_eq!(attempt(bytes, cells + 1), spare);
    let refused = |reason, bytes, cells| (Err(reason), vec![BYTE; bytes], vec![CELL; cells]);
    for cells in [cells, cells.saturating_sub(1), 0] {
        if bytes > 0 {
            let short = refused(Reason::OutputTooSmall, bytes - 1, cells);
            assert_eq!(attempt(bytes - 1, cells), short);
        }
    }
    for less in 1..=2 {
        if cells > 0 {
            let short = refused(Reason::ListTooSmall, bytes, cells - less);
            assert_eq!(attempt(bytes, cells - less), short);
        }
    }
}

#[test]
fn numbers_of_the_refusals() {
    assert_eq!(Reason::RecordTooLong.number(), 45);
    assert_eq!(Reason::OutputTooSmall.number(), 52);
    assert_eq!(Reason::ListTooSmall.number(), 53);
}

#[test]
fn whole_records_have_no_spans() {
    assert_eq!(salvaged(&[]), (0, vec![], vec![]));
    assert_eq!(
        salvage(&[], &mut [], &mut []),
        Ok(Salvaged {
            kept: 0,
            copied: 0,
            spans: 0
        })
    );
    for number in 1..5 {
        let record = entry(&[7]).repeat(number);
        assert_eq!(salvaged(&record), (number, record.clone(), vec![]));
    }
}

#[test]
fn the_side_need_not_suit_the_kind() {
    for kind in 1..=8 {
        for side in 0..=255 {
            let record = entry_of(side, kind, &[]);
            let kept = matches!(side, b'C' | b'S');
            let expected = match kept {
                true => (1, record.clone(), vec![]),
                false => (0, vec![], vec![[0, 27]]),
            };
            assert_eq!(salvaged(&record), expected, "{side} {kind}");
        }
    }
}

#[test]
fn holes_before_between_and_after() {
    let one = entry(&[7]);
    let record = [b"XY", &one[..], b"Z", &one, &one, b"CSC"].concat();
    let expected = (3, one.repeat(3), vec![[0, 2], [30, 1], [87, 3]]);
    assert_eq!(salvaged(&record), expected);
    // A side byte before another: the first is left out.
    let record = [b"C", &one[..]].concat();
    assert_eq!(salvaged(&record), (1, one.clone(), vec![[0, 1]]));
}

#[test]
fn a_frame_at_fault_is_left_out_whole() {
    let one = entry(&[7]);
    let faults = [(1, 0xAE), (2, 2), (3, 2), (4, 0), (4, 9), (5, 1)];
    for (at, byte) in faults {
        let mut bad = one.clone();
        bad[at] = byte;
        let record = [&one[..], &bad, &one].concat();
        let expected = (2, one.repeat(2), vec![[28, 28]]);
        assert_eq!(salvaged(&record), expected, "{at} {byte}");
    }
    // A malformed length, and one of 16,385.
    for length in [&[0x81, 0x00][..], &[0x81, 0x80, 0x01]] {
        let bad = [&one[..26], length, &[0; 16_385]].concat();
        let record = [&one[..], &bad, &one].concat();
        let span = [28, bad.len() as u32];
        assert_eq!(salvaged(&record), (2, one.repeat(2), vec![span]));
    }
    // A payload of 16,384 bytes is kept.
    let longest = entry(&vec![b'C'; 16_384]);
    assert_eq!(salvaged(&longest), (1, longest.clone(), vec![]));
}

#[test]
fn a_cut_frame_is_left_out_from_its_side_byte_on() {
    let one = entry(&[7, 8, 9]);
    for length in 1..one.len() {
        let record = [&one[..], &one[..length]].concat();
        let span = [one.len() as u32, length as u32];
        assert_eq!(salvaged(&record), (1, one.clone(), vec![span]));
    }
}

#[test]
fn entries_inside_a_payload() {
    let inner = entry(&[7]);
    let outer = entry(&[b"ab", &inner[..], b"cd"].concat());
    // The outer one is whole: the inner one is part of it.
    assert_eq!(salvaged(&outer), (1, outer.clone(), vec![]));
    // It is cut, or at fault: the inner one is kept.
    let cut = &outer[..outer.len() - 1];
    let expected = (1, inner.clone(), vec![[0, 29], [57, 1]]);
    assert_eq!(salvaged(cut), expected);
    let mut bad = outer.clone();
    bad[5] = 1;
    let expected = (1, inner.clone(), vec![[0, 29], [57, 2]]);
    assert_eq!(salvaged(&bad), expected);
    // Cut within the inner one too: nothing is left.
    let cut = &outer[..50];
    assert_eq!(salvaged(cut), (0, vec![], vec![[0, 50]]));
}

#[test]
fn a_length_that_takes_in_what_follows() {
    let one = entry(&[7]);
    let mut greedy = entry(&[]);
    greedy[26] = 30;
    // 30 bytes of two entries of 28: the second loses its start.
    let record = [&greedy[..], &one, &one].concat();
    let expected = (1, record[..57].to_vec(), vec![[57, 26]]);
    assert_eq!(salvaged(&record), expected);
    // More than remains: it is cut, and both are kept.
    greedy[26] = 57;
    let record = [&greedy[..], &one, &one].concat();
    assert_eq!(salvaged(&record), (2, one.repeat(2), vec![[0, 27]]));
    greedy[26] = 56;
    let record = [&greedy[..], &one, &one].concat();
    assert_eq!(salvaged(&record), (1, record.clone(), vec![]));
}

#[test]
fn records_of_65_536_bytes_and_more() {
    let one = entry(&[]);
    let mut record = one.repeat(65_536 / one.len());
    let rest = 65_536 - record.len();
    record.extend(vec![b'S'; rest]);
    let (kept, copy, spans) = salvaged(&record);
    assert_eq!((kept, copy.len()), (2_427, 65_529));
    assert_eq!(spans, [[65_529, 7]]);
    record.push(b'S');
    for (bytes, cells) in [(0, 0), (70_000, 0), (0, 9), (70_000, 9)] {
        let mut copy = vec![BYTE; bytes];
        let mut list = vec![CELL; cells];
        let answer = salvage(&record, &mut copy, &mut list);
        assert_eq!(answer, Err(Reason::RecordTooLong));
        assert_eq!((copy, list), (vec![BYTE; bytes], vec![CELL; cells]));
    }
    let letters = vec![b'C'; 65_536];
    assert_eq!(salvaged(&letters), (0, vec![], vec![[0, 65_536]]));
}

/// Whether a side byte and a whole frame stand at a place, by the frame alone.
fn starts(record: &[u8], place: usize) -> Option<usize> {
    let side = record.get(place).is_some_and(|side| b"CS".contains(side));
    match read_frame(&record[place + 1..]) {
        FrameAnswer::Whole(frame) if side => Some(1 + frame.length()),
        _ => None,
    }
}

/// The laws of a salvage.
fn check_laws(record: &[u8]) -> Salvaged {
    let (kept, copy, spans) = salvaged(record);
    // The spans rise, are not empty and never touch.
    for span in &spans {
        assert!(span[1] > 0);
    }
    for pair in spans.windows(2) {
        assert!(pair[0][0] + pair[0][1] < pair[1][0]);
    }
    // With the entries of the copy they cover the record once, in order, and
    // no entry starts within them.
    let mut left = &copy[..];
    let mut next = spans.iter().peekable();
    let (mut place, mut entries) = (0, 0);
    while place < record.len() {
        match next.next_if(|span| span[0] as usize == place) {
            Some(span) => {
                let end = place + span[1] as usize;
                assert!((place..end).all(|at| starts(record, at).is_none()));
                place = end;
            }
            None => {
                let length = starts(record, place).unwrap();
                let (entry, rest) = left.split_at(length);
                assert_eq!(entry, &record[place..place + length]);
                (left, place, entries) = (rest, place + length, entries + 1);
            }
        }
    }
    assert_eq!((place, next.next()), (record.len(), None));
    assert_eq!((left.len(), entries), (0, kept));
    // Of the copy everything is kept.
    assert_eq!(salvaged(&copy), (kept, copy.clone(), vec![]));
    Salvaged {
        kept,
        copied: copy.len(),
        spans: spans.len(),
    }
}

#[test]
fn laws_of_the_generated_cases() {
    let mut generator = Generator::new(21, &[17]);
    let (mut kept, mut spans, mut both) = (0, 0, 0);
    for _ in 0..4_000 {
        let Some(Case::Salvage(case)) = generator.case() else {
            panic!("no case");
        };
        if case.record.len() > 2_000 {
            continue;
        }
        let answer = check_laws(&case.record);
        kept += answer.kept;
        spans += answer.spans;
        both += usize::from(answer.kept > 1 && answer.spans > 1);
    }
    assert!(kept > 5_000 && spans > 2_000 && both > 200);
}

#[test]
fn laws_of_random_bytes() {
    let mut rng = Rng::new(22);
    let mut kept = 0;
    for _ in 0..3_000 {
        let mut record = Vec::new();
        for _ in 0..rng.below(6) {
            let length = rng.below(4);
            let garbage: Vec<u8> = (0..length).map(|_| rng.pick(b"CS\xAF\x01\x00")).collect();
            record.extend(garbage);
            let length = rng.below(40);
            let payload = rng.bytes(length);
            let kind = rng.range(1, 8) as u32;
            let mut entry = entry_of(rng.pick(b"CS"), kind, &payload);
            if rng.one_in(3) {
                let at = rng.below(entry.len());
                entry[at] = rng.pick(&[b'C', b'S', 0xAF, 1, 0, 255]);
            }
            if rng.one_in(5) {
                entry.truncate(rng.below(entry.len()));
            }
            record.extend(entry);
        }
        kept += check_laws(&record).kept;
    }
    assert!(kept > 3_000);
}
