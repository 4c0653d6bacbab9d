//! The limits, kinds and numbers of `host/c/arf.h` are those of this crate.

use arf::{FrameKind, Reason};
use std::collections::BTreeMap;

const HEADER: &str = include_str!("../../c/arf.h");

/// The names that the header defines as a number.
fn defines() -> BTreeMap<&'static str, u64> {
    let define = |line: &'static str| {
        let mut words = line.strip_prefix("#define ARF_")?.split_whitespace();
        let (name, value) = (words.next()?, words.next()?);
        Some((name, value.trim_end_matches('u').parse().ok()?))
    };
    HEADER.lines().filter_map(define).collect()
}

/// The names and numbers of an enum of the header.
fn members(name: &str) -> Vec<(&'static str, u32)> {
    let start = format!("enum {name} {{");
    let lines = HEADER.lines().skip_while(|line| *line != start).skip(1);
    let member = |line: &'static str| {
        let (name, number) = line.trim().trim_end_matches(',').split_once(" = ")?;
        Some((name.strip_prefix("ARF_")?, number.parse().ok()?))
    };
    lines
        .map_while(|line| (line != "};").then(|| member(line).expect("a member")))
        .collect()
}

#[test]
fn limits_are_the_same() {
    let limits = [
        ("CLIENT", u8::from(arf::Side::Client).into()),
        ("SERVER", u8::from(arf::Side::Server).into()),
        ("INDEX_STACK", arf::INDEX_STACK),
        ("MAX_COMPARISONS", arf::MAX_COMPARISONS),
        ("MAX_DEPTH", arf::MAX_DEPTH),
        ("MAX_ELEMENTS", arf::MAX_ELEMENTS.into()),
        ("MAX_FIELDS", arf::MAX_FIELDS),
        ("MAX_FRAME", arf::MAX_FRAME),
        ("MAX_INDEX", arf::MAX_INDEX),
        ("MAX_METHODS", arf::MAX_METHODS),
        ("MAX_PAIRS", arf::MAX_PAIRS),
        ("MAX_PAYLOAD", arf::MAX_PAYLOAD),
        ("MAX_RECORD", arf::MAX_RECORD),
        ("MAX_SCHEMA", arf::MAX_SCHEMA),
        ("MAX_SHEET", arf::MAX_SHEET),
        ("MAX_STRUCT_FIELDS", arf::MAX_STRUCT_FIELDS),
        ("MAX_TYPES", arf::MAX_TYPES),
        ("NO_VALUE", arf::NO_VALUE as usize),
        ("RECORD_CELLS", size_of::<arf::CallTable>() / 8 / arf::SLOTS),
        ("SLOTS", arf::SLOTS),
        ("SPAN_CELLS", arf::SPAN_CELLS),
        ("STACK", arf::STACK),
        ("TALLY_CELLS", size_of::<arf::Tally>() / 4),
    ];
    let limits: BTreeMap<_, _> = limits.into_iter().map(|(k, v)| (k, v as u64)).collect();
    assert_eq!(defines(), limits);
}

#[test]
fn numbers_are_the_same() {
    let numbers: Vec<_> = members("arf_number").iter().map(|row| row.1).collect();
    let reasons = Reason::ALL.iter().map(|reason| reason.number());
    let expected: Vec<_> = [0, 1].into_iter().chain(reasons).collect();
    assert_eq!(numbers, expected);
}

#[test]
fn kinds_are_the_same() {
    let kinds = members("arf_kind");
    assert_eq!(kinds.len(), 8);
    for (name, number) in kinds {
        assert_eq!(FrameKind::try_from(number).unwrap().to_string(), name);
    }
}
