//! All entries of one call, in a record of `examples/`.

use std::fs;
use std::path::Path;

use arf::{FrameRead, IndexRow};

fn example(name: &str) -> Vec<u8> {
    let folder = Path::new(env!("CARGO_MANIFEST_DIR")).join("../../examples");
    fs::read(folder.join(name)).expect("the example is there")
}

/// The correlation, the place and the answer of each entry that a listing prints.
fn listed(record: &[u8], listing: &str) -> Vec<(u64, IndexRow)> {
    let mut place = 0;
    let lines = listing.lines().skip(1);
    let lines = lines.take_while(|line| !line.starts_with("stopped"));
    let entry = |line: &str| {
        let words: Vec<&str> = line.split(' ').collect();
        let Ok(FrameRead::Whole {
            header,
            place: start,
            length,
        }) = arf::read_frame(&record[place + 1..])
        else {
            panic!("no whole frame at {place}");
        };
        assert_eq!(words[3], header.correlation.to_string());
        let entry = IndexRow {
            place,
            answer: words[4].parse().unwrap(),
        };
        place += 1 + start + length;
        (header.correlation, entry)
    };
    lines.map(entry).collect()
}

#[test]
fn an_index_has_the_entries_that_the_listing_prints() {
    let schema = example("carrier.schema");
    for name in ["day", "cancelled", "damaged", "added", "released"] {
        let record = example(&format!("{name}.record"));
        let listing = String::from_utf8(example(&format!("{name}.listing"))).unwrap();
        let listed = listed(&record, &listing);
        let mut index = vec![0; arf::MAX_INDEX];
        let length = arf::make_index(&schema, &record, &mut index).unwrap();
        assert_eq!(length, 16 * listed.len() + 16, "{name}");
        index.truncate(length);
        for correlation in 0..20 {
            let of_call = listed.iter().filter(|(call, _)| *call == correlation);
            let expected: Vec<IndexRow> = of_call.map(|(_, entry)| *entry).collect();
            let found = arf::look_up(&index, &record, correlation).unwrap();
            assert_eq!(found.len(), expected.len());
            assert_eq!(found.collect::<Vec<_>>(), expected, "{name} {correlation}");
        }
        let refused = arf::look_up(&index, &record[1..], 1).unwrap_err();
        assert_eq!((refused.number, refused.place), (66, 0));
    }
}

#[test]
fn what_is_no_index_is_refused() {
    let mut index = Vec::new();
    for row in [[1, 0, 0, 0], [1, 0, 27, 11]] {
        let [low, high, place, answer]: [u32; 4] = row;
        index.extend([low, high, place, answer].map(u32::to_le_bytes).concat());
    }
    let rows = index.clone();
    index.extend([0u32, 2, 54, 1].map(u32::to_le_bytes).concat());
    let record = [0; 54];
    let number = |index: &[u8]| match arf::look_up(index, &record, 1) {
        Ok(entries) => (0, entries.len()),
        Err(refusal) => (refusal.number, 0),
    };
    assert_eq!(number(&index), (0, 2));
    assert_eq!(number(&index[16..]), (65, 0));
    assert_eq!(number(&index[1..]), (65, 0));
    assert_eq!(number(&[]), (65, 0));
    // The same row twice, and rows that fall.
    let twice = [&rows[..16], &rows[..16], &index[32..]].concat();
    assert_eq!(number(&twice), (65, 0));
    let fall = [&rows[16..], &rows[..16], &index[32..]].concat();
    assert_eq!(number(&fall), (65, 0));
    // Each number of the trailer: the third is the record's length.
    for (cell, expected) in [(0, 65), (1, 65), (2, 66), (3, 65)] {
        let mut wrong = index.clone();
        wrong[32 + 4 * cell] ^= 4;
        assert_eq!(number(&wrong), (expected, 0), "cell {cell}");
    }
}
