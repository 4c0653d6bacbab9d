//! UTF-8 by RFC 3629.

/// Whether the bytes are UTF-8: no surrogate, no longer form than needed,
/// nothing above 10FFFF.
#[inline]
pub fn is_valid(bytes: &[u8]) -> bool {
    let mut rest = bytes;
    while let Some(&first) = rest.first() {
        if first < 0x80 {
            rest = skip_ascii(rest);
        } else if let Some(length) = multibyte(rest) {
            rest = &rest[length..];
        } else {
            return false;
        }
    }
    true
}

/// Drops the leading bytes below 80. Long runs go by blocks, which the
/// compiler turns into vector code.
#[inline]
fn skip_ascii(mut bytes: &[u8]) -> &[u8] {
    while let Some((block, rest)) = bytes.split_first_chunk::<32>() {
        if block.iter().fold(0, |all, &byte| all | byte) >= 0x80 {
            break;
        }
        bytes = rest;
    }
    while let [0..=0x7F, rest @ ..] = bytes {
        bytes = rest;
    }
    bytes
}

/// The length of the character of two to four bytes at the front, if it is one.
fn multibyte(bytes: &[u8]) -> Option<usize> {
    match *bytes {
        [0xC2..=0xDF, 0x80..=0xBF, ..] => Some(2),
        [0xE0, 0xA0..=0xBF, 0x80..=0xBF, ..]
        | [0xE1..=0xEC | 0xEE..=0xEF, 0x80..=0xBF, 0x80..=0xBF, ..]
        | [0xED, 0x80..=0x9F, 0x80..=0xBF, ..] => Some(3),
        [0xF0, 0x90..=0xBF, 0x80..=0xBF, 0x80..=0xBF, ..]
        | [0xF1..=0xF3, 0x80..=0xBF, 0x80..=0xBF, 0x80..=0xBF, ..]
        | [0xF4, 0x80..=0x8F, 0x80..=0xBF, 0x80..=0xBF, ..] => Some(4),
        _ => None,
    }
}
