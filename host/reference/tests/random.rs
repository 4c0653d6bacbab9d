//! Random and generated cases: nothing panics, refusals leave buffers alone,
//! what is read writes back as the same bytes, and every answer number comes up.

mod common;

use std::collections::BTreeMap;

use common::{comparisons, table_t, BYTE, CELL};
use reference::cases::{answer_file, read_file, Case, FrameWriteCase, ReadCase, WriteCase};
use reference::generate::rng::Rng;
use reference::generate::table::Table;
use reference::generate::{codes, Generator};
use reference::varuint::{decode, Decoded};
use reference::*;

/// Cases of some codes from a seed; none named means all.
fn cases_of(codes: &[u8], seed: u64, number: usize) -> Vec<Case> {
    let mut generator = Generator::new(seed, codes);
    (0..number).filter_map(|_| generator.case()).collect()
}

/// Cases of codes 1 to 9 from a seed.
fn cases(seed: u64, number: usize) -> Vec<Case> {
    cases_of(&[1, 2, 3, 4, 5, 6, 7, 8, 9], seed, number)
}

/// The numbers that the entry of a code can give.
fn numbers(code: u8) -> Vec<u32> {
    let table = 40..=44;
    match code {
        1 | 2 => [0].into_iter().chain(table).collect(),
        3 => [0, 7, 30, 31, 46]
            .into_iter()
            .chain(20..=28)
            .chain(table)
            .collect(),
        4 => [0, 22, 23, 50, 51].into_iter().chain(table).collect(),
        5 => {
            let own = [0, 7, 22, 23, 24, 25, 28, 31, 46, 50, 51, 52];
            own.into_iter().chain(table).collect()
        }
        6 => (0..=7).collect(),
        7 => vec![0, 4, 7, 52],
        8 | 11 => (0..=14).chain([16]).chain(20..=31).chain(table).collect(),
        9 => (0..=31).chain(table).collect(),
        10 => [0, 11, 14, 15, 18, 19].into_iter().chain(table).collect(),
        15 => numbers(5).into_iter().chain([4]).collect(),
        17 => vec![0, 45, 52, 53],
        16 => numbers(3).into_iter().chain([47]).collect(),
        18 => numbers(5),
        19 => [0, 45, 52].into_iter().chain(table).collect(),
        20 => vec![0, 52, 65, 66],
        _ => panic!("code {code} has no numbers here"),
    }
}

/// How many cases of a code give every number often enough.
fn enough(code: u8) -> usize {
    match code {
        3 | 5 => 4_200,
        9 => 2_300,
        16 => 2_600,
        _ => 2_000,
    }
}

#[test]
fn every_number_comes_up() {
    for code in codes() {
        let mut counts = BTreeMap::new();
        for case in cases_of(&[code], 1, enough(code)) {
            assert_eq!(case.code(), code);
            for number in case.numbers() {
                *counts.entry(number).or_insert(0) += 1;
            }
        }
        for number in numbers(code) {
            let count = counts.remove(&number).unwrap_or(0);
            let least = if number == 45 { 5 } else { 20 };
            assert!(count >= least, "code {code} number {number}: {count}");
        }
        assert!(counts.is_empty(), "code {code}: {counts:?}");
    }
}

/// A code that is added later changes none of the cases of the others.
#[test]
fn codes_do_not_disturb_each_other() {
    let mut all = cases_of(&[], 16, 3_000);
    all.retain(|case| case.code() <= 9);
    assert_eq!(all, cases(16, all.len()));
    for code in [10, 11, 15, 16, 17, 18, 19, 20] {
        let mut alone = Generator::new(16, &[code]);
        for case in cases_of(&[], 16, 3_000) {
            if case.code() == code {
                assert_eq!(alone.case(), Some(case));
            }
        }
    }
}

#[test]
fn case_files_read_back_and_keep_the_limits() {
    let cases = cases_of(&[], 2, 4_000);
    let mut file = Vec::new();
    cases.iter().for_each(|case| case.put(&mut file));
    assert_eq!(read_file(&file), Some(cases.clone()));
    let answers = answer_file(&file);
    assert!(!answers.contains("cut"));
    let mut text = String::new();
    cases.iter().for_each(|case| case.answer(&mut text));
    assert_eq!(answers, text);
    let cut = answer_file(&file[..file.len() - 1]);
    assert!(cut.ends_with("cut\n"));
    assert_eq!(answer_file(&[77]), "cut\n");
    assert_eq!(answer_file(&[]), "");
}

#[test]
fn outputs_of_140000_bytes_and_one_more() {
    let frame = |room| {
        let case = FrameWriteCase {
            header: Header::default(),
            payload: Vec::new(),
            room,
        };
        let mut file = Vec::new();
        Case::FrameWrite(case).put(&mut file);
        answer_file(&file)
    };
    assert!(frame(140_000).starts_with("4 0 "));
    assert_eq!(frame(140_001), "cut\n");
}

#[test]
fn case_files_stay_small() {
    for (codes, limit) in [
        (&[1, 2][..], 2_500_000),
        (&[3, 4], 2_000_000),
        (&[15], 3_750_000),
        (&[16], 4_800_000),
        (&[18], 4_000_000),
        (&[17], 5_500_000),
        (&[19], 6_500_000),
        (&[20], 2_500_000),
    ] {
        let mut generator = Generator::new(3, codes);
        let mut file = Vec::new();
        for _ in 0..5_000 {
            generator.case().unwrap().put(&mut file);
        }
        assert!(file.len() < limit, "{codes:?}: {}", file.len());
    }
}

/// The sheet of an accepted reading.
fn rows(case: &ReadCase) -> Option<(Vec<u32>, Reading)> {
    let mut sheet = vec![CELL; 4 * (case.payload.len() + 1)];
    let reading = read(&case.schema, case.type_number, &case.payload, &mut sheet).ok()?;
    sheet.truncate(4 * reading.rows);
    let due = comparisons(&case.schema, sheet.as_chunks().0);
    assert_eq!(reading.comparisons, due);
    assert!(due <= MAX_COMPARISONS);
    Some((sheet, reading))
}

/// Writes a read payload again from its rows.
fn written(case: &ReadCase, sheet: &[u32]) -> Vec<u8> {
    let mut out = vec![BYTE; 16_384];
    let (schema, root, payload) = (&case.schema, case.type_number, &case.payload);
    let length = write(schema, root, sheet, payload, &mut out).unwrap();
    assert!(out[length..].iter().all(|&byte| byte == BYTE));
    out.truncate(length);
    out
}

/// Checks what a reading and its writing again must keep: the same bytes, and
/// with a tail the same rows. Gives whether there is a tail, none if refused.
fn writes_back(case: &ReadCase) -> Option<bool> {
    let (sheet, reading) = rows(case)?;
    let payload = written(case, &sheet);
    assert_eq!(payload.len(), reading.tail_place);
    if reading.tail_length == 0 {
        assert_eq!(payload, case.payload);
        return Some(false);
    }
    let again = ReadCase {
        payload: payload.clone(),
        ..case.clone()
    };
    let (second, tail) = rows(&again).unwrap();
    assert_eq!((second, tail.tail_length), (sheet, 0));
    Some(true)
}

#[test]
fn what_is_read_writes_back() {
    let mut seen = [0; 2];
    for case in cases(4, 20_000) {
        if let Case::Read(case) = case {
            if let Some(tail) = writes_back(&case) {
                seen[usize::from(tail)] += 1;
            }
        }
    }
    assert!(seen[0] > 1_000 && seen[1] > 100, "{seen:?}");
}

/// All payloads of up to six bytes over those that matter to a length.
#[test]
fn short_payloads_write_back() {
    const BYTES: [u8; 6] = [0, 1, 2, 3, 0x80, 0x81];
    let texts = Table {
        types: vec![[12, 0, 0], [6, 0, 0], [15, 0, 1], [16, 0, 2]],
        fields: vec![[0, 1], [2, 1]],
        methods: vec![],
    };
    for (schema, type_number) in [(table_t(), 4), (texts.bytes(), 3)] {
        let mut seen = 0;
        for length in 0..=6 {
            for number in 0..BYTES.len().pow(length) {
                let byte = |place| BYTES[number / BYTES.len().pow(place) % BYTES.len()];
                let case = ReadCase {
                    schema: schema.clone(),
                    type_number,
                    payload: (0..length).map(byte).collect(),
                    cells: 0,
                };
                seen += usize::from(writes_back(&case).is_some());
            }
        }
        assert!(seen > 1_000, "{seen}");
    }
}

#[test]
fn an_accepted_frame_is_written_again_as_the_same_bytes() {
    let mut seen = 0;
    for case in cases(10, 20_000) {
        let sent = match case {
            Case::Frame(case) => vec![case.data],
            Case::Receive(case) => vec![case.data],
            Case::Run(case) => case.frames.into_iter().map(|(_, data)| data).collect(),
            _ => continue,
        };
        for bytes in sent {
            let FrameAnswer::Whole(frame) = read_frame(&bytes) else {
                continue;
            };
            let payload = &bytes[frame.payload_place..frame.length()];
            let mut out = vec![BYTE; frame.length()];
            let length = write_frame(&frame.header, payload, &mut out);
            assert_eq!(length, Ok(frame.length()));
            assert_eq!(out, bytes[..frame.length()]);
            seen += 1;
        }
    }
    assert!(seen > 5_000, "{seen}");
}

/// The length of a VarUInt with spare groups at the front of some bytes.
fn spare_length(bytes: &[u8]) -> Option<usize> {
    let last = bytes.iter().take(10).position(|&byte| byte < 0x80)?;
    (last > 0 && bytes[last] == 0).then_some(last + 1)
}

/// The payload or the frames of a case.
fn handed_in(case: &Case) -> Vec<&[u8]> {
    match case {
        Case::Read(case) => vec![&case.payload],
        Case::Frame(case) => vec![&case.data],
        Case::Receive(case) => vec![&case.data],
        Case::Run(case) => case.frames.iter().map(|(_, data)| &data[..]).collect(),
        _ => Vec::new(),
    }
}

/// The number and place of each answer to a case.
fn answers(case: &Case) -> Vec<(u32, usize)> {
    let mut text = String::new();
    case.answer(&mut text);
    let number = |word: Option<&str>| word.unwrap().parse::<usize>().unwrap();
    let start = |line: &str| {
        let mut words = line.split(' ');
        (number(words.next()) as u32, number(words.next()))
    };
    text.lines().map(start).collect()
}

/// The bytes from a malformed VarUInt on, where an answer refuses one.
fn malformed(bytes: &[u8], is_frame: bool, answer: (u32, usize)) -> Option<&[u8]> {
    let place = match (answer, read_frame(bytes)) {
        ((6, _), _) => 25,
        ((21, place), FrameAnswer::Whole(frame)) if is_frame => frame.payload_place + place,
        ((21, place), _) => place,
        _ => return None,
    };
    Some(&bytes[place..])
}

#[test]
fn spare_groups_of_every_length_come_up() {
    let mut counts = BTreeMap::new();
    for case in cases(11, 20_000) {
        let code = case.code();
        for (bytes, answer) in handed_in(&case).into_iter().zip(answers(&case)) {
            let length = malformed(bytes, code != 3, answer).and_then(spare_length);
            if let Some(length) = length {
                *counts.entry((code, answer.0, length)).or_insert(0) += 1;
            }
        }
    }
    for (code, number) in [(3, 21), (6, 6), (8, 6), (8, 21), (9, 6), (9, 21)] {
        let of_length = |length| counts.get(&(code, number, length)).unwrap_or(&0);
        let all: usize = (2..=10).map(of_length).sum();
        assert!(all >= 30, "code {code} number {number}: {all}");
        let fewest = (2..=10).map(of_length).min();
        assert!(code > 6 || fewest >= Some(&10), "{counts:?}");
    }
}

/// The key kind of a map type, none of another.
fn key_kind(schema: &[u8], number: u32) -> Option<u32> {
    let row = |number: u32| schema[12 * number as usize..].as_chunks::<4>().0;
    let kind = |number| u32::from_le_bytes(row(number)[0]);
    (kind(number) == 15).then(|| kind(u32::from_le_bytes(row(number)[1])))
}

/// The key kind and pairs of each map that rows show.
fn maps_shown(schema: &[u8], sheet: &[u32]) -> Vec<(u32, u32)> {
    let rows = sheet.as_chunks::<4>().0.iter();
    rows.filter_map(|row| Some((key_kind(schema, row[0])?, row[3])))
        .collect()
}

/// The key kinds and pairs of the maps that a case accepts or shows to be
/// above the limit.
fn maps_of_case(case: &Case) -> Vec<(u32, u32)> {
    let answer = answers(case)[0];
    match case {
        Case::Read(case) if answer.0 == 0 => {
            maps_shown(&case.schema, &rows(case).unwrap_or_default().0)
        }
        Case::Write(case) if answer.0 == 0 => maps_shown(&case.schema, &case.sheet),
        Case::Write(case) if answer.0 == 31 => {
            maps_shown(&case.schema, &case.sheet[4 * answer.1..][..4])
        }
        _ => Vec::new(),
    }
}

/// How often maps of each key kind and size come up in the cases of a code.
fn map_counts(code: u8) -> BTreeMap<(u32, u32), usize> {
    let mut counts = BTreeMap::new();
    let mut generator = Generator::new(12, &[code]);
    for _ in 0..10_000 {
        for map in maps_of_case(&generator.case().unwrap()) {
            *counts.entry(map).or_insert(0) += 1;
        }
    }
    counts
}

#[test]
fn maps_of_every_size_and_key_kind_come_up() {
    let (read, written) = (map_counts(3), map_counts(5));
    for kind in [1, 2, 3, 4, 5, 6, 7, 8, 9, 12, 13] {
        let sizes: &[u32] = match kind {
            1 => &[0, 1, 2],
            _ => &[0, 1, 2, 63, 64],
        };
        for pairs in sizes {
            let map = (kind, *pairs);
            assert!(read.contains_key(&map), "reader: {map:?}");
            assert!(written.contains_key(&map), "writer: {map:?}");
        }
        assert!(written.contains_key(&(kind, 65)), "writer: {kind}");
    }
    let thousands = |(_, pairs): &(u32, u32)| (1_000..10_000).contains(pairs);
    assert!(written.keys().any(thousands));
}

/// The payloads of a case, one for each answer; none where there is no whole
/// frame.
fn payloads(case: &Case) -> Vec<Option<&[u8]>> {
    let payload = |bytes| match read_frame(bytes) {
        FrameAnswer::Whole(frame) => Some(&bytes[frame.payload_place..frame.length()]),
        _ => None,
    };
    match case {
        Case::Read(case) => vec![Some(&case.payload)],
        _ => handed_in(case).into_iter().map(payload).collect(),
    }
}

/// Whether a key late in the map of 64 pairs that is the first field is
/// refused, by the place in the payload.
fn is_late((payload, answer): &(Option<&[u8]>, (u32, usize))) -> bool {
    let late = |payload: &[u8]| payload[1] == 64 && answer.1 > payload.len() * 3 / 4;
    answer.0 == 24 && payload.is_some_and(late)
}

#[test]
fn keys_repeated_late_come_up() {
    let mut counts = BTreeMap::new();
    for case in cases(13, 20_000) {
        let answers = answers(&case);
        let late = match &case {
            // The first field is the second row.
            Case::Write(case) => {
                let full = case.sheet.get(7) == Some(&64);
                usize::from(full && answers[0].0 == 24 && answers[0].1 >= 120)
            }
            _ => {
                let payloads = payloads(&case).into_iter();
                payloads.zip(answers).filter(is_late).count()
            }
        };
        *counts.entry(case.code()).or_insert(0) += late;
    }
    for (code, least) in [(3, 10), (5, 10), (8, 5), (9, 5)] {
        assert!(counts[&code] >= least, "code {code}: {counts:?}");
    }
}

#[test]
fn counts_above_64_come_up() {
    let mut counts = BTreeMap::new();
    for case in cases(14, 20_000) {
        for (payload, (number, place)) in payloads(&case).into_iter().zip(answers(&case)) {
            let Some(payload) = payload.filter(|_| number == 31) else {
                continue;
            };
            let Decoded::Whole { value, .. } = decode(&payload[place..]) else {
                panic!("no count at {place}");
            };
            assert!(value > 64);
            let size = if value > 999 { 1_000 } else { value.min(66) };
            *counts.entry((case.code(), size)).or_insert(0) += 1;
        }
    }
    for (code, size, least) in [
        (3, 65, 20),
        (3, 66, 20),
        (3, 1_000, 5),
        (8, 65, 10),
        (8, 1_000, 2),
        (9, 65, 10),
        (9, 1_000, 2),
    ] {
        let count = counts.get(&(code, size)).unwrap_or(&0);
        assert!(*count >= least, "code {code} pairs {size}: {count}");
    }
}

#[test]
fn the_most_comparisons_come_up() {
    let mut seen = BTreeMap::new();
    for case in cases(15, 20_000) {
        let mut text = String::new();
        case.answer(&mut text);
        let place = match case.code() {
            3 => 5,
            8 | 9 => 7,
            _ => continue,
        };
        for line in text.lines() {
            let number: usize = line.split(' ').nth(place).unwrap().parse().unwrap();
            assert!(number <= MAX_COMPARISONS);
            assert!(number == 0 || line.starts_with("0 "));
            let most = seen.entry(case.code()).or_insert(0);
            *most = number.max(*most);
        }
    }
    assert_eq!((seen[&3], seen[&8]), (257_985, 257_985));
    assert!(seen[&9] >= 2_016);
}

#[test]
fn what_is_written_reads_back() {
    let mut seen = 0;
    for case in cases(5, 20_000) {
        let Case::Write(WriteCase {
            schema,
            type_number,
            sheet,
            data,
            room,
        }) = case
        else {
            continue;
        };
        let mut out = vec![BYTE; room];
        let Ok(length) = write(&schema, type_number, &sheet, &data, &mut out) else {
            assert!(out.iter().all(|&byte| byte == BYTE));
            continue;
        };
        assert!(out[length..].iter().all(|&byte| byte == BYTE));
        let mut cells = vec![CELL; sheet.len()];
        let reading = read(&schema, type_number, &out[..length], &mut cells).unwrap();
        assert_eq!(reading.rows, sheet.len() / 4);
        assert_eq!((reading.tail_place, reading.tail_length), (length, 0));
        let shape = |row: &[u32]| (row[0], row[3]);
        assert!(sheet
            .chunks_exact(4)
            .map(shape)
            .eq(cells.chunks_exact(4).map(shape)));
        seen += 1;
    }
    assert!(seen > 500);
}

#[test]
fn an_extension_reads_what_the_old_table_writes() {
    let mut generator = Generator::new(6, &[2]);
    let mut rng = Rng::new(6);
    let mut seen = 0;
    for _ in 0..3_000 {
        let Some(Case::Extends(pair)) = generator.case() else {
            continue;
        };
        if extends(&pair.old, &pair.new) != Ok(true) {
            continue;
        }
        for _ in 0..100 {
            let payload: Vec<u8> = (0..rng.below(6)).map(|_| rng.below(4) as u8).collect();
            let root = rng.below(6) as u32;
            let mut old = vec![CELL; 64];
            let mut new = old.clone();
            let by_old = read(&pair.old, root, &payload, &mut old);
            let by_new = read(&pair.new, root, &payload, &mut new);
            if by_old.is_ok_and(|reading| reading.tail_length == 0) {
                assert_eq!((by_old, old), (by_new, new));
                seen += 1;
            }
        }
    }
    assert!(seen > 100, "{seen}");
}

/// A table with one more method, whose input is the given type.
fn with_method(schema: &[u8], input: u32) -> Vec<u8> {
    let (body, trailer) = schema.split_at(schema.len() - 16);
    let words = |words: &[u32]| -> Vec<u8> {
        let bytes = words.iter().map(|word| word.to_le_bytes());
        bytes.collect::<Vec<_>>().concat()
    };
    let method = [77, 77, 77, 8, input, u32::MAX, u32::MAX, u32::MAX];
    let end = [body.len() as u32 + 32, 1];
    [body, &words(&method), &trailer[..8], &words(&end)].concat()
}

#[test]
fn a_frame_carries_what_the_reader_says() {
    let mut seen = BTreeMap::new();
    for case in cases(9, 20_000) {
        let Case::Read(case) = case else { continue };
        let alone = read(&case.schema, case.type_number, &case.payload, &mut []);
        if alone.is_err_and(|refusal| !matches!(refusal.number(), 20..=31)) {
            continue;
        }
        let schema = with_method(&case.schema, case.type_number);
        let header = Header {
            kind: 1,
            identifiers: [77, 77, 77],
            correlation: 5,
        };
        let mut frame = vec![0; case.payload.len() + 28];
        let length = write_frame(&header, &case.payload, &mut frame).unwrap();
        let mut sheet = vec![CELL; case.cells];
        let mut other = sheet.clone();
        let by_reader = read(&case.schema, case.type_number, &case.payload, &mut sheet);
        let mut calls = CallTable::fresh();
        let received = calls.receive(
            &schema,
            &mut tallies::fresh(&schema),
            b'C',
            &frame[..length],
            &mut other,
        );
        let expected = match by_reader {
            Ok(reading) => Outcome::Accepted(reading),
            Err(refusal) => Outcome::Refused(refusal),
        };
        assert_eq!((received.outcome, other), (expected, sheet));
        let number = received.number();
        assert_eq!(received.open, usize::from(number == 0));
        assert_eq!(received.used, if number == 30 { 0 } else { length });
        *seen.entry(number).or_insert(0) += 1;
    }
    let numbers: Vec<u32> = seen.keys().copied().collect();
    assert_eq!(numbers, [0, 20, 21, 22, 23, 24, 25, 26, 27, 28, 30, 31]);
}

/// Bytes that are close to something meaningful.
fn near(rng: &mut Rng, base: &[u8]) -> Vec<u8> {
    let mut bytes = base.to_vec();
    for _ in 0..rng.below(4) {
        let at = rng.below(bytes.len());
        if let Some(byte) = bytes.get_mut(at) {
            *byte = rng.byte();
        }
    }
    if rng.one_in(4) {
        let length = rng.below(bytes.len() + 1);
        bytes.truncate(length);
    }
    bytes
}

#[test]
fn nothing_panics_on_random_bytes() {
    let mut rng = Rng::new(7);
    let table = table_t();
    let frame = {
        let mut out = [0; 40];
        let header = Header {
            kind: 1,
            identifiers: [1, 2, 3],
            correlation: 4,
        };
        let length = write_frame(&header, &[1, 7], &mut out).unwrap();
        out[..length].to_vec()
    };
    for _ in 0..30_000 {
        let length = rng.below(60);
        let bytes = rng.bytes(length);
        let schema = match rng.one_in(3) {
            true => bytes.clone(),
            false => near(&mut rng, &table),
        };
        let sheet: Vec<u32> = (0..rng.below(30))
            .map(|_| rng.word() >> rng.pick(&[0, 16, 29, 30, 31]))
            .collect();
        let root = rng.below(7) as u32;
        let mut cells = [CELL; 30];
        let mut out = [BYTE; 30];
        let _ = check_table(&schema);
        let _ = extends(&table, &schema);
        if read(&schema, root, &bytes, &mut cells).is_err() {
            assert_eq!(cells, [CELL; 30]);
        }
        let mut cells = [CELL; 30];
        if read_beside(&table, &schema, root, &bytes, &mut cells).is_err() {
            assert_eq!(cells, [CELL; 30]);
        }
        let row = [root, rng.word() >> 28, rng.word() >> 28, rng.word() >> 31];
        let _ = scalar(&schema, row, &bytes);
        if write(&schema, root, &sheet, &bytes, &mut out).is_err() {
            assert_eq!(out, [BYTE; 30]);
        }
        let header = Header {
            kind: rng.below(10) as u32,
            ..Header::default()
        };
        let mut out = [BYTE; 60];
        if write_value_frame(&header, &schema, root, &sheet, &bytes, &mut out).is_err() {
            assert_eq!(out, [BYTE; 60]);
        }
        let tail = Tail {
            place: rng.word() >> rng.pick(&[0, 26, 30]),
            length: rng.word() >> rng.pick(&[0, 26, 30]),
        };
        let mut out = [BYTE; 60];
        if forward(&schema, root, &sheet, &bytes, tail, &mut out).is_err() {
            assert_eq!(out, [BYTE; 60]);
        }
        let data = near(&mut rng, &frame);
        let _ = read_frame(&data);
        let mut calls = CallTable::fresh();
        calls.receive(
            &schema,
            &mut tallies::fresh(&schema),
            b'C',
            &data,
            &mut cells,
        );
        let record = [b"C", &data[..], b"S", &frame].concat();
        assert!(list(&schema, &record).ends_with('\n'));
    }
}

#[test]
fn random_call_tables() {
    let mut rng = Rng::new(8);
    let schema = table_t();
    for _ in 0..2_000 {
        let mut tallies = tallies::fresh(&schema);
        let mut table = CallTable::fresh();
        for _ in 0..rng.below(4) {
            let slot = rng.below(128);
            table.slots[slot] = Call {
                open: rng.one_in(2),
                correlation: rng.below(3) as u64,
                method: rng.below(2) as u32,
                response: rng.one_in(4),
                input_closed: rng.one_in(4),
                output_closed: rng.one_in(4),
                cancelled: rng.one_in(4),
                ..Call::default()
            };
        }
        let good = Schema::check(&schema).is_ok_and(|schema| table.is_good(&schema));
        let answer = table.receive(&schema, &mut tallies, b'C', &[], &mut []);
        assert_eq!(answer.number(), if good { 1 } else { 15 });
        let before = table;
        let answer = table.release(&schema, &mut tallies, 1);
        let mut open = before.slots.iter().filter(|call| call.open);
        let call = open.find(|call| call.correlation == 1);
        let expected = match (good, call.map(|call| call.cancelled)) {
            (false, _) => 15,
            (true, None) => 11,
            (true, Some(false)) => 14,
            (true, Some(true)) => 0,
        };
        assert_eq!(answer.number(), expected);
        assert_eq!(answer.open, table.open_count());
        assert_eq!(expected == 0, table != before);
    }
}
