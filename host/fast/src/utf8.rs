//! UTF-8 by RFC 3629. ASCII by blocks; other blocks by comparing each byte with the three before it, which the compiler turns into vector code.

use crate::bytes::{chunk, u32_at, u64_at};

#[inline(always)]
pub fn is_valid(s: &[u8]) -> bool {
    let n = s.len();
    const TOP: u64 = 0x8080_8080_8080_8080;
    if n <= 16 {
        let bits = if n >= 8 {
            u64_at(s, 0) | u64_at(s, n - 8)
        } else if n >= 4 {
            (u32_at(s, 0) | u32_at(s, n - 4)) as u64
        } else {
            let mut x = 0;
            for &b in s {
                x |= b as u64;
            }
            x
        };
        if bits & TOP == 0 {
            return true;
        }
        return short(s);
    }
    long(s)
}

const BLOCK: usize = 64;

#[inline(never)]
fn long(s: &[u8]) -> bool {
    if s.len() < 48 {
        return short(s);
    }
    let mut at = ascii(s);
    if at == s.len() {
        return true;
    }
    let mut due = false;
    while s.len() - at >= BLOCK {
        let mut top = 0;
        for &b in &s[at..at + BLOCK] {
            top |= b;
        }
        if top >= 0x80 || due {
            if !due {
                if pairs(&chunk(s, at)) {
                    at += BLOCK;
                    continue;
                }
                let next = longer(s, at);
                if next - at >= BLOCK / 2 {
                    at = next;
                    continue;
                }
            }
            if at == 0 {
                let mut window = [0; BLOCK + 3];
                window[3..].copy_from_slice(&s[..BLOCK]);
                if !block(&window) {
                    return false;
                }
            } else if !block(&chunk(s, at - 3)) {
                return false;
            }
            let last: [u8; 3] = chunk(s, at + BLOCK - 3);
            due = (last[2] >= 0xC0) | (last[1] >= 0xE0) | (last[0] >= 0xF0);
        }
        at += BLOCK;
    }
    let mut window = [0; BLOCK + 3];
    let back = at.min(3);
    window[3 - back..3 + s.len() - at].copy_from_slice(&s[at - back..]);
    block(&window)
}

/// Blocks of ASCII at the front.
#[inline(always)]
fn ascii(s: &[u8]) -> usize {
    let (blocks, _) = s.as_chunks::<128>();
    for (i, block) in blocks.iter().enumerate() {
        if block.iter().fold(0, |x, &b| x | b) >= 0x80 {
            return 128 * i;
        }
    }
    128 * blocks.len()
}

/// Whether the bytes after the first three are right, by the three before each.
#[inline(always)]
fn block(w: &[u8; BLOCK + 3]) -> bool {
    let mut bad = 0u8;
    for k in 0..BLOCK {
        let (c, b, a, x) = (w[k], w[k + 1], w[k + 2], w[k + 3]);
        let follows = (x as i8) < -64;
        let due = (a >= 0xC0) | (b >= 0xE0) | (c >= 0xF0);
        let never = (x & 0xFE == 0xC0) | (x >= 0xF5);
        let range = ((a == 0xE0) & (x < 0xA0))
            | ((a == 0xED) & (x > 0x9F))
            | ((a == 0xF0) & (x < 0x90))
            | ((a == 0xF4) & (x > 0x8F));
        bad |= ((follows != due) | never | range) as u8;
    }
    bad == 0
}

/// Whether a block is two-byte characters.
#[inline(always)]
fn pairs(block: &[u8; BLOCK]) -> bool {
    let (pairs, _) = block.as_chunks::<2>();
    let mut bad = 0u16;
    for p in pairs {
        let x = u16::from_le_bytes(*p);
        let short = u16::from(x & 0x1E == 0).wrapping_neg();
        bad |= ((x & 0xC0E0) ^ 0x80C0) | short;
    }
    bad == 0
}

/// The place after a run of three-byte characters and then of four-byte ones,
/// two characters at a time. A character starts at the place.
#[inline(always)]
fn longer(s: &[u8], mut at: usize) -> usize {
    while s.len() - at >= 8 {
        let x = u64_at(s, at);
        if x & 0xC0C0_F0C0_C0F0 != 0x8080_E080_80E0 || !three(x) || !three(x >> 24) {
            break;
        }
        at += 6;
    }
    while s.len() - at >= 8 {
        let x = u64_at(s, at);
        if x & 0xC0C0_C0F8_C0C0_C0F8 != 0x8080_80F0_8080_80F0 || !four(x) || !four(x >> 32) {
            break;
        }
        at += 8;
    }
    at
}

/// Neither a longer form than needed nor a surrogate.
#[inline(always)]
fn three(x: u64) -> bool {
    let high = (x & 0xF) << 1 | (x >> 13 & 1);
    high != 0 && high != 0x1B
}

/// Neither a longer form than needed nor above 10FFFF.
#[inline(always)]
fn four(x: u64) -> bool {
    let high = (x & 7) << 2 | (x >> 12 & 3);
    high.wrapping_sub(1) < 16
}

/// Character by character.
#[inline(never)]
fn short(mut s: &[u8]) -> bool {
    loop {
        match *s {
            [] => return true,
            [0..=0x7F, ref rest @ ..] => s = rest,
            [a, b, ref rest @ ..] if a & 0xE0 == 0xC0 => {
                if a < 0xC2 || b & 0xC0 != 0x80 {
                    return false;
                }
                s = rest;
            }
            [a, b, c, ref rest @ ..] if a & 0xF0 == 0xE0 => {
                let x = (a as u32) << 16 | (b as u32) << 8 | c as u32;
                let point = x & 0x0F_3F3F;
                if x & 0xF0_C0C0 != 0xE0_8080 || point < 0x2000 || point & 0x0F_2000 == 0x0D_2000 {
                    return false;
                }
                s = rest;
            }
            [a, b, c, d, ref rest @ ..] => {
                let second = match a {
                    0xF0 => (0x90..=0xBF).contains(&b),
                    0xF1..=0xF3 => b & 0xC0 == 0x80,
                    0xF4 => (0x80..=0x8F).contains(&b),
                    _ => false,
                };
                if !second || c & 0xC0 != 0x80 || d & 0xC0 != 0x80 {
                    return false;
                }
                s = rest;
            }
            _ => return false,
        }
    }
}
