//! VarUInt: seven bits a byte, least group first, top bit set on all but the last.

/// What the bytes at hand say about a VarUInt that starts at the first of them.
#[derive(Clone, Copy, Debug, PartialEq, Eq)]
pub enum Decoded {
    /// A whole number and how many bytes spell it.
    Whole { value: u64, length: usize },
    /// The bytes end before the number does.
    Cut,
    /// The tenth byte is there and above 1, or the last of several is 0.
    Malformed,
}

/// Reads a VarUInt. Each number has one spelling, the shortest: a spare zero
/// group makes it malformed once its last byte is there.
#[inline]
pub fn decode(bytes: &[u8]) -> Decoded {
    match bytes.first() {
        Some(&byte) if byte < 0x80 => Decoded::Whole {
            value: u64::from(byte),
            length: 1,
        },
        _ => decode_long(bytes),
    }
}

/// The general case of [`decode`].
fn decode_long(bytes: &[u8]) -> Decoded {
    let mut value = 0;
    for (index, &byte) in bytes.iter().take(10).enumerate() {
        if index == 9 && byte > 1 {
            return Decoded::Malformed;
        }
        value |= u64::from(byte & 0x7F) << (7 * index);
        if byte == 0 && index > 0 {
            return Decoded::Malformed;
        }
        if byte < 0x80 {
            let length = index + 1;
            return Decoded::Whole { value, length };
        }
    }
    Decoded::Cut
}

/// The length of the shortest spelling.
#[inline]
pub const fn length(value: u64) -> usize {
    let bits = 64 - (value | 1).leading_zeros() as usize;
    bits.div_ceil(7)
}

/// Writes the shortest spelling to the front of `out` and gives its length.
/// `out` must have room for it.
#[inline]
pub fn encode(mut value: u64, out: &mut [u8]) -> usize {
    let mut at = 0;
    while value >= 0x80 {
        out[at] = value as u8 | 0x80;
        value >>= 7;
        at += 1;
    }
    out[at] = value as u8;
    at + 1
}

#[cfg(test)]
mod tests {
    use super::*;

    #[test]
    fn one_to_eleven_bytes() {
        for groups in 1..=10 {
            let mut bytes = vec![0x80; groups];
            bytes[groups - 1] = 1;
            let value = 1 << (7 * (groups - 1));
            let length = groups;
            assert_eq!(decode(&bytes), Decoded::Whole { value, length });
            bytes.push(0xFF);
            assert_eq!(decode(&bytes), Decoded::Whole { value, length });
            bytes[groups - 1] = 0;
            let zero = match groups {
                1 => Decoded::Whole { value: 0, length },
                _ => Decoded::Malformed,
            };
            assert_eq!(decode(&bytes), zero);
            assert_eq!(decode(&bytes[..groups]), zero);
        }
        assert_eq!(decode(&[0x80; 11]), Decoded::Malformed);
        let mut eleven = [0x80; 11];
        eleven[10] = 0;
        assert_eq!(decode(&eleven), Decoded::Malformed);
    }

    #[test]
    fn cut_and_malformed() {
        assert_eq!(decode(&[]), Decoded::Cut);
        for length in 1..=9 {
            assert_eq!(decode(&vec![0xFF; length]), Decoded::Cut);
        }
        for tenth in 0..=255u8 {
            let mut bytes = [0xFF; 10];
            bytes[9] = tenth;
            let malformed = decode(&bytes) == Decoded::Malformed;
            assert_eq!(malformed, tenth != 1);
        }
    }

    #[test]
    fn spare_groups() {
        for value in [0u64, 1, 0x7F, 0x80, 0x3FFF, 0x4000, (1 << 63) - 1] {
            let mut bytes = [0; 10];
            let shortest = encode(value, &mut bytes);
            bytes[shortest - 1] |= 0x80;
            for length in shortest + 1..=10 {
                bytes[shortest..length - 1].fill(0x80);
                bytes[length - 1] = 0;
                assert_eq!(decode(&bytes[..length]), Decoded::Malformed);
                assert_eq!(decode(&bytes[..length - 1]), Decoded::Cut);
            }
        }
    }

    #[test]
    fn shortest_spelling_reads_back() {
        for shift in 0..64 {
            for value in [1u64 << shift, (1 << shift) - 1, !0 >> shift] {
                let mut out = [0; 10];
                let length = encode(value, &mut out);
                assert_eq!(length, super::length(value));
                assert_eq!(decode(&out), Decoded::Whole { value, length });
                assert!(length == 1 || out[length - 1] != 0);
            }
        }
    }
}
