//! Presence bitmaps of up to 64 fields, held in one 64-bit number.

/// The number of whole bytes a struct of `fields` fields uses for its bitmap.
#[inline]
pub const fn width(fields: u32) -> usize {
    fields.div_ceil(8) as usize
}

/// A number with one bit set for each known field.
#[inline]
pub const fn known(fields: u32) -> u64 {
    match fields {
        0 => 0,
        1..=63 => (1 << fields) - 1,
        _ => u64::MAX,
    }
}

/// Puts up to eight bitmap bytes into a number, bit i for field i.
#[inline]
pub fn load(bytes: &[u8]) -> u64 {
    if let Some(&eight) = bytes.first_chunk::<8>() {
        return u64::from_le_bytes(eight);
    }
    let place = |bits, (index, &byte): (usize, &u8)| bits | u64::from(byte) << (8 * index);
    bytes.iter().enumerate().fold(0, place)
}
