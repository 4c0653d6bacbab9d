//! UTF-8 by RFC 3629, compared with the standard library.

use reference::generate::rng::Rng;
use reference::utf8::is_valid;

fn same(bytes: &[u8]) {
    let expected = std::str::from_utf8(bytes).is_ok();
    assert_eq!(is_valid(bytes), expected, "{bytes:02X?}");
}

/// Bytes at which some rule begins or ends.
const EDGES: &[u8] = &[
    0x00, 0x41, 0x7F, 0x80, 0x8F, 0x90, 0x9F, 0xA0, 0xBF, 0xC0, 0xC1, 0xC2, 0xDF, 0xE0, 0xE1, 0xEC,
    0xED, 0xEE, 0xEF, 0xF0, 0xF1, 0xF3, 0xF4, 0xF5, 0xF7, 0xF8, 0xFE, 0xFF,
];

#[test]
fn all_strings_of_one_and_two_bytes() {
    for first in 0..=255 {
        same(&[first]);
        for second in 0..=255 {
            same(&[first, second]);
        }
    }
}

#[test]
fn strings_of_three_and_four_bytes_at_the_edges() {
    for first in 0..=255 {
        for &second in EDGES {
            for &third in EDGES {
                same(&[first, second, third]);
                for &fourth in EDGES {
                    same(&[first, second, third, fourth]);
                }
            }
        }
    }
}

#[test]
fn random_strings() {
    let mut rng = Rng::new(1);
    for _ in 0..200_000 {
        let bytes = rng.bytes(4);
        same(&bytes);
        let lead = rng.pick(&[0xE0, 0xED, 0xF0, 0xF4, 0xF1, 0xE1]);
        same(&[
            lead,
            0x80 | bytes[1] & 0x3F,
            0x80 | bytes[2] & 0x3F,
            bytes[3],
        ]);
    }
}

#[test]
fn every_character_and_no_surrogate() {
    for number in 0..=0x11_0000 {
        if let Some(character) = char::from_u32(number) {
            let mut buffer = [0; 4];
            assert!(is_valid(character.encode_utf8(&mut buffer).as_bytes()));
        }
    }
    for number in 0xD800..=0xDFFFu32 {
        let bytes = [
            0xE0 | (number >> 12) as u8,
            0x80 | (number >> 6 & 0x3F) as u8,
            0x80 | (number & 0x3F) as u8,
        ];
        assert!(!is_valid(&bytes));
    }
}

#[test]
fn faults_at_every_place_of_a_long_string() {
    for length in [1, 7, 31, 32, 33, 63, 64, 65, 100] {
        for place in 0..length {
            let mut bytes = vec![b'a'; length];
            assert!(is_valid(&bytes));
            for byte in [0x80, 0xC2, 0xE2, 0xF0, 0xFF] {
                bytes[place] = byte;
                assert!(!is_valid(&bytes));
            }
        }
    }
}
