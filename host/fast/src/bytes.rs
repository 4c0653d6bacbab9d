//! Numbers loaded from bytes.

/// N bytes from a place on.
#[inline(always)]
pub fn chunk<const N: usize>(s: &[u8], at: usize) -> [u8; N] {
    match s[at..].first_chunk::<N>() {
        Some(bytes) => *bytes,
        None => outside(),
    }
}

/// Stores N bytes at a place.
#[inline(always)]
pub fn store<const N: usize>(s: &mut [u8], at: usize, bytes: [u8; N]) {
    match s[at..].first_chunk_mut::<N>() {
        Some(to) => *to = bytes,
        None => outside(),
    }
}

#[cold]
#[inline(never)]
fn outside() -> ! {
    panic!("outside the bytes")
}

#[inline(always)]
pub fn u32_at(s: &[u8], at: usize) -> u32 {
    u32::from_le_bytes(chunk(s, at))
}

#[inline(always)]
pub fn u64_at(s: &[u8], at: usize) -> u64 {
    u64::from_le_bytes(chunk(s, at))
}

/// The n bytes from a place on, 1 to 8 of them, as a number. They are there.
#[inline(always)]
pub fn number(s: &[u8], at: usize, n: usize) -> u64 {
    match s.len() - at >= 8 {
        true => u64_at(s, at) & (u64::MAX >> (64 - 8 * n as u32)),
        false => number_at_end(s, at, n),
    }
}

#[cold]
#[inline(never)]
fn number_at_end(s: &[u8], at: usize, n: usize) -> u64 {
    let bytes = s[at..at + n].iter().rev();
    bytes.fold(0, |number, &byte| number << 8 | u64::from(byte))
}

/// A number mixed by the two products of splitmix64.
#[inline(always)]
pub fn mixed(x: u64) -> u64 {
    let once = (x ^ x >> 30).wrapping_mul(0xBF58_476D_1CE4_E5B9);
    (once ^ once >> 27).wrapping_mul(0x94D0_49BB_1331_11EB)
}
