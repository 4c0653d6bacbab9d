//! Large cases: what they reach, and that a full table changes no answer.

use std::collections::{BTreeMap, BTreeSet};

use reference::cases::{answer_file, read_file, Case, Event};
use reference::generate::large::filled;
use reference::generate::rng::Rng;
use reference::generate::table::Table;
use reference::generate::{codes, Generator};
use reference::{read, salvage, MAX_PAYLOAD};

fn large(codes: &[u8], seed: u64, number: usize) -> Vec<Case> {
    let mut generator = Generator::large(seed, codes);
    (0..number).filter_map(|_| generator.case()).collect()
}

#[test]
fn large_cases_read_back_and_keep_the_limits() {
    let cases = large(&[], 1, 340);
    let mut file = Vec::new();
    cases.iter().for_each(|case| case.put(&mut file));
    assert_eq!(read_file(&file).as_ref(), Some(&cases));
    assert!(!answer_file(&file).contains("cut"));
    let made: BTreeSet<u8> = cases.iter().map(Case::code).collect();
    assert_eq!(made, codes().into_iter().collect());
}

/// The schema files of a case.
fn schemas(case: &Case) -> Vec<&[u8]> {
    match case {
        Case::Table(case) => vec![&case.schema],
        Case::Extends(case) => vec![&case.old, &case.new],
        Case::Read(case) => vec![&case.schema],
        Case::Scalar(case) => vec![&case.schema],
        Case::Write(case) => vec![&case.schema],
        Case::Run(case) => vec![&case.schema],
        Case::Receive(case) => vec![&case.schema],
        Case::Release(case) => vec![&case.schema],
        Case::History(case) => vec![&case.schema],
        Case::ValueFrame(case) => vec![&case.schema],
        Case::Beside(case) => vec![&case.ours, &case.theirs],
        Case::Forward(case) => vec![&case.schema],
        Case::Index(case) => vec![&case.schema],
        _ => Vec::new(),
    }
}

/// Every code that has a table meets a full one, in each section, and faults in
/// the last row of each.
#[test]
fn every_entry_meets_full_tables() {
    let mut full = BTreeMap::new();
    let mut faults = BTreeMap::new();
    for case in large(&[], 2, 1_700) {
        for schema in schemas(&case) {
            let Some(table) = Table::from_bytes(schema) else {
                continue;
            };
            let sizes = [table.types.len(), table.fields.len(), table.methods.len()];
            let found = full.entry(case.code()).or_insert([0; 3]);
            for (section, most) in [256, 2_048, 256].into_iter().enumerate() {
                found[section] += usize::from(sizes[section] == most);
            }
        }
        if !schemas(&case).is_empty() {
            for number in case.numbers() {
                *faults.entry((case.code(), number)).or_insert(0) += 1;
            }
        }
    }
    for code in codes() {
        if matches!(code, 6 | 7 | 17 | 20) {
            continue;
        }
        assert!(
            full[&code].iter().all(|&times| times > 2),
            "{code} {full:?}"
        );
        for number in 40..=44 {
            assert!(faults[&(code, number)] > 0, "{code} {number} {faults:?}");
        }
    }
}

/// Rows before those of a case change no number of its answers.
#[test]
fn a_full_table_changes_no_answer() {
    let mut rng = Rng::new(3);
    let mut seen = BTreeMap::new();
    for code in codes() {
        let mut generator = Generator::new(3, &[code]);
        for _ in 0..300 {
            let case = generator.case().unwrap();
            let numbers = case.numbers();
            if let Some(full) = filled(&mut rng, case) {
                assert_eq!(full.numbers(), numbers, "{full:?}");
                *seen.entry(code).or_insert(0) += 1;
            }
        }
    }
    for (code, times) in seen {
        assert!(times > 50 || code == 1, "{code}: {times}");
    }
}

/// Long payloads are as often of one length as of another, up to the limit.
#[test]
fn payloads_of_every_length() {
    let mut lengths = Vec::new();
    let mut most_rows = 0;
    for case in large(&[3], 4, 250) {
        if let Case::Read(case) = case {
            lengths.push(case.payload.len());
            let mut sheet = vec![0; 4 * MAX_PAYLOAD + 4];
            let reading = read(&case.schema, case.type_number, &case.payload, &mut sheet);
            most_rows = most_rows.max(reading.map_or(0, |reading| reading.rows));
        }
    }
    let between = |from, to| lengths.iter().filter(|&&n| from <= n && n < to).count();
    let short = between(0, 1_024);
    let long = between(1_024, 16_384);
    assert!(long > short, "{short} {long}");
    for from in (1_024..16_384).step_by(3_072) {
        assert!(
            between(from, from + 3_072) > lengths.len() / 40,
            "{from} {lengths:?}"
        );
    }
    assert!(between(16_383, 16_384) > 0 && between(16_384, 16_385) > 0);
    assert_eq!(most_rows, MAX_PAYLOAD);
}

/// Frames of all sizes, dropped ones too, and the last identifier of all.
#[test]
fn frames_of_every_length() {
    let (mut longest, mut last) = (BTreeMap::new(), BTreeMap::new());
    for case in large(&[6, 8, 9, 11], 5, 600) {
        let frames: Vec<&[u8]> = match &case {
            Case::Frame(case) => vec![&case.data],
            Case::Receive(case) => vec![&case.data],
            Case::Run(case) => case.frames.iter().map(|(_, data)| &data[..]).collect(),
            Case::History(case) => {
                let frames = case.events.iter().filter_map(|event| match event {
                    Event::Frame((_, data)) => Some(&data[..]),
                    Event::Release(_) => None,
                });
                frames.collect()
            }
            _ => continue,
        };
        for frame in frames {
            let most = longest.entry(case.code()).or_insert(0);
            *most = frame.len().max(*most);
            if frame.get(17..25) == Some(&[255; 8]) {
                *last.entry(case.code()).or_insert(0) += 1;
            }
        }
    }
    for code in [6, 8, 9, 11] {
        assert!(longest[&code] > 14_000, "{longest:?}");
    }
    for code in [8, 9, 11] {
        assert!(last[&code] > 1, "{last:?}");
    }
}

#[test]
fn records_with_as_many_spans_as_there_can_be() {
    let (mut most, mut lengths) = (0, BTreeSet::new());
    for case in large(&[17], 6, 60) {
        if let Case::Salvage(case) = case {
            let mut copy = vec![0; 70_000];
            let mut list = vec![0; 70_000];
            lengths.insert(case.record.len());
            let salvaged = salvage(&case.record, &mut copy, &mut list);
            most = most.max(salvaged.map_or(0, |salvaged| salvaged.spans));
        }
    }
    assert_eq!(most, 2_341);
    assert!(lengths.contains(&65_535) && lengths.contains(&65_536));
}
