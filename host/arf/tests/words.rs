//! The words of the reasons are those of `crates/words`, which `arf explain`
//! prints.

use arf::Reason;
use std::fs;
use std::path::Path;

/// The lines of a text of the crate's page, one for each number from 0 on.
fn lines(name: &str) -> Vec<String> {
    let path = Path::new(env!("CARGO_MANIFEST_DIR")).join("../../crates/words/src/page.rt");
    let page = fs::read_to_string(path).expect("crates/words is there");
    let start = format!("const {name}: ");
    let text = page.lines().skip_while(|line| !line.starts_with(&start));
    // Each line of the text ends in its own line feed and one that is left out.
    let text = text.skip(1).take_while(|line| *line != "\";");
    text.map(|line| {
        let line = line.trim_start().strip_suffix("\\n\\");
        line.expect("a line of the text").to_string()
    })
    .collect()
}

/// The numbers that mean something, with their meaning and advice.
fn numbers() -> Vec<(u32, String, String)> {
    let (meanings, advices) = (lines("MEANINGS"), lines("ADVICES"));
    assert_eq!(meanings.len(), advices.len());
    let texts = (0u32..).zip(meanings.iter().zip(&advices));
    let told = texts.filter(|(_, (meaning, _))| !meaning.is_empty());
    told.map(|(number, (meaning, advice))| {
        let meaning = meaning.strip_prefix(&format!("{number}: "));
        let meaning = meaning.expect("the line of a number starts with it");
        (number, meaning.to_string(), advice.clone())
    })
    .collect()
}

#[test]
fn every_reason_has_the_words_of_the_page() {
    let told: Vec<_> = Reason::ALL
        .iter()
        .map(|reason| {
            let (meaning, advice) = (reason.meaning().into(), reason.advice().into());
            (reason.number(), meaning, advice)
        })
        .collect();
    let page: Vec<_> = numbers().into_iter().filter(|row| row.0 > 1).collect();
    assert!(page.len() > 40);
    assert_eq!(told, page);
}

#[test]
fn numbers_go_both_ways() {
    let numbers = numbers();
    for number in 0..100 {
        match Reason::from_number(number) {
            Some(reason) => assert_eq!(u32::from(reason), number),
            None => assert!(number < 2 || numbers.iter().all(|row| row.0 != number)),
        }
    }
}
