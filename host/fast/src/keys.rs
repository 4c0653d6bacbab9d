//! Repeated map keys: small maps by comparing, others by hashing. One stack
//! serves maps in maps.

use crate::bytes::{number, u64_at};
use crate::MAX_PAIRS;

#[derive(Default)]
pub struct Keys {
    slots: Vec<u8>,
    digests: Vec<u64>,
    spans: Vec<(u32, u32)>,
}

/// The keys of one map that is being walked.
#[derive(Clone, Copy)]
pub struct Set {
    digests: usize,
    spans: usize,
    slots: usize,
    /// 64 minus the bits of an index into the slots; 64 where there are none.
    shift: u32,
    /// Keys of one byte, as bits.
    seen: [u64; 4],
}

const MIX: u64 = 0x9E37_79B9_7F4A_7C15;

/// A map of more pairs than this hashes its keys.
const FEW: usize = 8;

/// A number for a content: itself where it has eight bytes or fewer, and
/// otherwise one that differs for most other contents.
#[inline(always)]
fn digest(s: &[u8], from: usize, n: usize) -> u64 {
    match n {
        0 => 0,
        1..=8 => number(s, from, n),
        _ => long_digest(&s[from..from + n]),
    }
}

#[inline(always)]
fn fold(a: u64, b: u64) -> u64 {
    let product = u128::from(a) * u128::from(b);
    product as u64 ^ (product >> 64) as u64
}

#[inline]
fn long_digest(s: &[u8]) -> u64 {
    let n = s.len();
    let mut mixed = n as u64 ^ 0xA076_1D64_78BD_642F;
    if n > 16 {
        let (words, _) = s[..n - 1].as_chunks::<16>();
        for word in words {
            mixed = fold(
                u64_at(word, 0) ^ 0xE703_7ED1_A0B4_28DB,
                u64_at(word, 8) ^ mixed,
            );
        }
    }
    let last = n.saturating_sub(16);
    fold(
        u64_at(s, last) ^ 0x8EBC_6AF0_9C88_C6E3,
        u64_at(s, n - 8) ^ mixed,
    )
}

impl Keys {
    #[inline(always)]
    pub fn clear(&mut self) {
        self.slots.clear();
        self.digests.clear();
        self.spans.clear();
    }

    /// A map of at most n keys begins: scalars of a width, or strings or bytes,
    /// for which it is 0.
    #[inline(always)]
    pub fn begin(&mut self, n: usize, width: u8) -> Set {
        debug_assert!(n <= MAX_PAIRS);
        let slots = self.slots.len();
        let mut shift = 64;
        if n > FEW && width != 1 {
            let size = (2 * n).next_power_of_two();
            shift = 64 - size.trailing_zeros();
            self.slots.resize(slots + size, 0);
        }
        Set {
            digests: self.digests.len(),
            spans: self.spans.len(),
            slots,
            shift,
            seen: [0; 4],
        }
    }

    #[inline(always)]
    pub fn end(&mut self, set: &Set) {
        self.slots.truncate(set.slots);
        self.digests.truncate(set.digests);
        self.spans.truncate(set.spans);
    }

    /// Adds a key of one byte; false where it is there already.
    #[inline(always)]
    pub fn add_byte(&mut self, set: &mut Set, byte: u8) -> bool {
        let word = &mut set.seen[usize::from(byte >> 6)];
        let bit = 1u64 << (byte & 63);
        let new = *word & bit == 0;
        *word |= bit;
        new
    }

    /// Adds a key that is a number; false where it is there already.
    #[inline(always)]
    pub fn add_number(&mut self, set: &Set, key: u64) -> bool {
        self.add(set, key, |_, _| true)
    }

    /// Adds a key of any length; false where it is there already.
    #[inline(always)]
    pub fn add_text(&mut self, set: &Set, s: &[u8], from: usize, n: usize) -> bool {
        let first = set.spans;
        let new = self.add(set, digest(s, from, n), |spans, i| {
            let (place, length) = spans[first + i];
            let (place, length) = (place as usize, length as usize);
            length == n && (n <= 8 || s[from..from + n] == s[place..place + n])
        });
        self.spans.push((from as u32, n as u32));
        new
    }

    #[inline(always)]
    fn add(&mut self, set: &Set, key: u64, same: impl Fn(&[(u32, u32)], usize) -> bool) -> bool {
        let index = self.digests.len() - set.digests;
        if set.shift == 64 {
            let earlier = self.digests[set.digests..].iter().enumerate();
            for (i, &digest) in earlier {
                if digest == key && same(&self.spans, i) {
                    return false;
                }
            }
        } else {
            let mask = (1usize << (64 - set.shift)) - 1;
            let mut at = (key.wrapping_mul(MIX) >> set.shift) as usize;
            let slots = &mut self.slots[set.slots..set.slots + mask + 1];
            loop {
                let there = slots[at & mask];
                if there == 0 {
                    slots[at & mask] = index as u8 + 1;
                    break;
                }
                let i = usize::from(there) - 1;
                if self.digests[set.digests + i] == key && same(&self.spans, i) {
                    return false;
                }
                at += 1;
            }
        }
        self.digests.push(key);
        true
    }
}
