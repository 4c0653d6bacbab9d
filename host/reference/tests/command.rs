//! The command line.

mod common;

use std::io::Write;
use std::path::PathBuf;
use std::process::{Command, Output, Stdio};

use common::LISTING;

fn reference(arguments: &[&str], input: &[u8]) -> Output {
    let mut child = Command::new(env!("CARGO_BIN_EXE_reference"))
        .args(arguments)
        .stdin(Stdio::piped())
        .stdout(Stdio::piped())
        .stderr(Stdio::piped())
        .spawn()
        .unwrap();
    let mut stdin = child.stdin.take().unwrap();
    let input = input.to_vec();
    let feed = std::thread::spawn(move || {
        let _ = stdin.write_all(&input);
    });
    let output = child.wait_with_output().unwrap();
    feed.join().unwrap();
    output
}

fn file(name: &str, bytes: &[u8]) -> PathBuf {
    let path = PathBuf::from(env!("CARGO_TARGET_TMPDIR")).join(name);
    std::fs::write(&path, bytes).unwrap();
    path
}

#[test]
fn listing_of_an_empty_record() {
    let schema = file("schema", &common::table_t());
    let record = file("record", &[]);
    let paths = [schema.to_str().unwrap(), record.to_str().unwrap()];
    let output = reference(&["list", paths[0], paths[1]], &[]);
    assert!(output.status.success());
    let expected = "frame side kind call answer place rows open\nstopped 0 left 0\n";
    assert_eq!(output.stdout, expected.as_bytes());
    assert!(output.stderr.is_empty());
}

#[test]
fn a_file_that_cannot_be_read() {
    let schema = file("other_schema", &common::table_t());
    let schema = schema.to_str().unwrap();
    for arguments in [
        ["list", schema, "/no/such/record"],
        ["list", "/no/such/schema", schema],
    ] {
        let output = reference(&arguments, &[]);
        assert!(!output.status.success());
        assert!(output.stdout.is_empty());
        assert!(!output.stderr.is_empty());
    }
}

#[test]
fn wrong_arguments() {
    let wrong: [&[&str]; 6] = [
        &[],
        &["list"],
        &["cases", "1"],
        &["cases", "x", "1"],
        &["cases", "1", "1", "99"],
        &["count", "1", "1", "1,,2"],
    ];
    for arguments in wrong {
        let output = reference(arguments, &[]);
        assert!(!output.status.success());
        assert!(output.stdout.is_empty());
        assert!(!output.stderr.is_empty());
    }
}

#[test]
fn cases_and_answers() {
    let first = reference(&["cases", "7", "300"], &[]);
    let second = reference(&["cases", "7", "300"], &[]);
    assert_eq!(first.stdout, second.stdout);
    let answers = reference(&["answers"], &first.stdout);
    assert!(answers.status.success());
    let text = String::from_utf8(answers.stdout).unwrap();
    assert!(text.lines().count() >= 300 && text.ends_with('\n'));
    let few = reference(&["cases", "7", "50", "1,2"], &[]);
    assert!(matches!(few.stdout[0], 1 | 2));
    let answers = reference(&["answers"], &few.stdout);
    let text = String::from_utf8(answers.stdout).unwrap();
    assert_eq!(text.lines().count(), 50);
    let count = reference(&["count", "7", "50", "1,2"], &[]);
    let text = String::from_utf8(count.stdout).unwrap();
    let times = text.lines().map(|line| line.split(' ').nth(2).unwrap());
    assert_eq!(
        times
            .map(|times| times.parse::<u32>().unwrap())
            .sum::<u32>(),
        50
    );
}

#[test]
fn listings_of_a_file_of_cases() {
    let cases = reference(&["listings", "11", "3"], &[]);
    assert!(cases.status.success());
    let again = reference(&["listings", "11", "3"], &[]);
    assert_eq!(cases.stdout, again.stdout);
    let listings = reference(&["list-all"], &cases.stdout);
    let text = String::from_utf8(listings.stdout).unwrap();
    assert!(text.contains(LISTING));
    let maps = "frame side kind call answer place rows open
1 C 1 1 31 1 0 0
2 C 2 1 11 0 0 0
3 C 1 1 0 0 130 1
4 C 2 1 0 0 130 1
5 S 6 1 31 1 0 0
6 C 2 1 11 0 0 0
7 C 1 2 24 128 0 0
8 C 1 2 0 0 2 1
stopped 0 left 0
";
    assert!(text.contains(maps));
    let crossing = "2 C 8 1 0 0 0 1
3 S 6 1 16 0 0 1
4 S 6 1 16 0 0 1
5 S 4 1 16 0 0 1
6 S 5 1 16 0 0 1
7 C 8 1 14 0 0 1
8 C 8 1 14 0 0 1
9 C 3 1 14 0 0 1
10 C 1 1 10 0 0 1
11 C 1 2 0 0 2 2
12 S 7 1 12 0 0 2
13 S 7 1 0 0 0 1
14 S 6 1 11 0 0 1
15 C 1 1 0 0 2 2
16 S 6 1 0 0 4 1
17 C 8 2 29 0 0 0
18 S 6 2 11 0 0 0
stopped 0 left 0
";
    assert!(text.contains(crossing));
    for end in [
        "0 left 0",
        "1 left 7",
        "30 left",
        "40 left",
        "41 left",
        "42 left",
        "43 left",
        "44 left",
        "45 left 0",
    ] {
        assert!(text.contains(&format!("stopped {end}")), "{end}");
    }
}

#[test]
fn examples_are_written_with_their_listings() {
    let folder = PathBuf::from(env!("CARGO_TARGET_TMPDIR")).join("examples");
    std::fs::create_dir_all(&folder).unwrap();
    let output = reference(&["examples", folder.to_str().unwrap()], &[]);
    assert!(output.status.success());
    let schema = folder.join("carrier.schema");
    let record = folder.join("added.record");
    let paths = [schema.to_str().unwrap(), record.to_str().unwrap()];
    let listing = reference(&["list", paths[0], paths[1]], &[]).stdout;
    assert_eq!(
        listing,
        std::fs::read(folder.join("added.listing")).unwrap()
    );
}

#[test]
fn an_index_and_a_look_up() {
    let folder = PathBuf::from(env!("CARGO_TARGET_TMPDIR")).join("indexed");
    std::fs::create_dir_all(&folder).unwrap();
    let output = reference(&["examples", folder.to_str().unwrap()], &[]);
    assert!(output.status.success());
    let schema = folder.join("worked.schema");
    let record = folder.join("worked.record");
    let (schema, record) = (schema.to_str().unwrap(), record.to_str().unwrap());
    let made = reference(&["index", schema, record], &[]);
    assert!(made.status.success());
    assert_eq!(made.stdout.len(), 16 * 6);
    let index = file("worked.index", &made.stdout);
    let index = index.to_str().unwrap();
    let found = reference(&["look-up", index, record, "9"], &[]);
    assert!(found.status.success());
    assert_eq!(found.stdout, b"place answer\n0 0\n29 0\n60 11\nstopped 0\n");
    let other = reference(&["look-up", index, schema, "9"], &[]);
    assert_eq!(other.stdout, b"place answer\nstopped 66\n");
    for wrong in [
        ["index", record, record].to_vec(),
        ["look-up", index, record, "nine"].to_vec(),
    ] {
        let output = reference(&wrong, &[]);
        assert!(!output.status.success() && output.stdout.is_empty());
    }
}
