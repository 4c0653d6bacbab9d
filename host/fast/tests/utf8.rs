//! UTF-8 as the standard library has it.

/// The bytes after so many others, so that every way of going by blocks meets
/// them; with more behind.
fn everywhere(bytes: &[u8]) {
    let valid = std::str::from_utf8(bytes).is_ok();
    for before in [0, 1, 13, 15, 16, 47, 61, 62, 63, 64, 126, 127, 128] {
        for behind in [0, 3, 70] {
            let text = [&vec![b'a'; before], bytes, &vec![b'z'; behind]].concat();
            assert_eq!(fast::is_utf8(&text), valid, "{bytes:X?} after {before}");
        }
    }
}

#[test]
fn two_bytes() {
    for first in 0..=0xFFu8 {
        for second in 0..=0xFFu8 {
            let bytes = [first, second];
            let valid = std::str::from_utf8(&bytes).is_ok();
            assert_eq!(fast::is_utf8(&bytes), valid, "{bytes:X?}");
        }
    }
}

/// The bytes at which a range starts or ends, and those beside them.
const EDGES: &[u8] = &[
    0x00, 0x7F, 0x80, 0x8F, 0x90, 0x9F, 0xA0, 0xBF, 0xC0, 0xC1, 0xC2, 0xDF, 0xE0, 0xE1, 0xEC, 0xED,
    0xEE, 0xEF, 0xF0, 0xF1, 0xF3, 0xF4, 0xF5, 0xFF,
];

#[test]
fn edges_of_the_ranges() {
    for &a in EDGES {
        for &b in EDGES {
            for &c in EDGES {
                everywhere(&[a, b, c]);
            }
        }
    }
}

#[test]
fn four_bytes() {
    for a in [0xEF, 0xF0, 0xF1, 0xF3, 0xF4, 0xF5] {
        for &b in EDGES {
            for c in [0x7F, 0x80, 0xBF, 0xC0] {
                for d in [0x7F, 0x80, 0xBF, 0xC0] {
                    everywhere(&[a, b, c, d]);
                }
            }
        }
    }
}

/// Long texts of one character, and the same with one byte changed.
#[test]
fn long_texts() {
    for character in ["a", "é", "ß", "水", "퟿", "\u{E000}", "🚰", "\u{10FFFF}"] {
        for times in [1, 7, 16, 31, 33, 64, 100, 500] {
            let text = character.repeat(times).into_bytes();
            assert!(fast::is_utf8(&text));
            for place in 0..text.len() {
                for byte in [0x00, 0x80, 0xC2, 0xE0, 0xED, 0xF0, 0xF4, 0xFF] {
                    let mut changed = text.clone();
                    changed[place] = byte;
                    let valid = std::str::from_utf8(&changed).is_ok();
                    assert_eq!(
                        fast::is_utf8(&changed),
                        valid,
                        "{character} {place} {byte:X}"
                    );
                }
            }
        }
    }
}
