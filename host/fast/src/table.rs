//! The check of the schema table; it leaves the type rows in a short form.

use crate::bytes::{mixed, u32_at, u64_at};
use crate::Refusal;

/// A type row in a short form.
#[derive(Clone, Copy, Default)]
pub struct Info {
    pub kind: u8,
    /// Width of a scalar; 0 for all else.
    pub width: u8,
    /// Fields of a struct.
    pub fields: u8,
    /// The required bits of this struct are in the scratch memory.
    pub ready: bool,
    /// Element, key or first field.
    pub a: u16,
    /// Value.
    pub b: u16,
}

#[derive(Clone, Copy)]
pub struct Table<'a> {
    pub types: usize,
    pub fields: &'a [[u8; 8]],
    pub methods: &'a [[u8; 32]],
}

const WIDTHS: u64 = 0x8484_2184_2110;

#[cold]
fn refuse<T>(number: u32, place: usize) -> Result<T, Refusal> {
    Err(Refusal { number, place })
}

pub fn check_table(schema: &[u8]) -> Result<(), Refusal> {
    crate::scratch::with(|s| check(schema, &mut s.info).map(|_| ()))
}

#[inline(always)]
fn words<const N: usize>(row: &[u8]) -> [u32; N] {
    std::array::from_fn(|i| u32_at(row, 4 * i))
}

#[inline]
pub fn check<'a>(bytes: &'a [u8], info: &mut [Info; 256]) -> Result<Table<'a>, Refusal> {
    let Some((body, trailer)) = bytes.split_last_chunk::<16>() else {
        return refuse(40, 0);
    };
    let [fields_at, methods_at, trailer_at, layout] = words::<4>(trailer);
    let (f, m) = (fields_at as usize, methods_at as usize);
    if layout != 1 || trailer_at as usize != body.len() || f > m || m > body.len() {
        return refuse(40, 0);
    }
    let (types, odd_types) = body[..f].as_chunks::<12>();
    let (fields, odd_fields) = body[f..m].as_chunks::<8>();
    let (methods, odd_methods) = body[m..].as_chunks::<32>();
    if odd_types.len() + odd_fields.len() + odd_methods.len() != 0 {
        return refuse(40, 0);
    }
    if types.len() > 256 || fields.len() > 2048 || methods.len() > 256 {
        return refuse(41, 0);
    }
    let n = types.len() as u32;
    for (i, (row, short)) in types.iter().zip(info.iter_mut()).enumerate() {
        let [kind, a, b] = words::<3>(row);
        let good = match kind {
            1..=13 => a | b == 0,
            14 => a < n && b == 0,
            15 => {
                b < n && a < n && {
                    let key = u32_at(&types[a as usize], 0);
                    key < 14 && (0b11_0011_1111_1110u32 >> key) & 1 == 1
                }
            }
            16 => b.wrapping_sub(1) < 64 && a as u64 + b as u64 <= fields.len() as u64,
            _ => false,
        };
        if !good {
            return refuse(42, i);
        }
        *short = Info {
            kind: kind as u8,
            width: if kind < 12 {
                (WIDTHS >> (4 * kind)) as u8 & 15
            } else {
                0
            },
            fields: if kind == 16 { b as u8 } else { 0 },
            ready: false,
            a: a as u16,
            b: b as u16,
        };
    }
    let mut bad = false;
    for row in fields {
        let [ty, optional] = words::<2>(row);
        bad |= (ty >= n) | (optional > 1);
    }
    if bad {
        return bad_field(fields, n);
    }
    check_methods(methods, types)?;
    Ok(Table {
        types: types.len(),
        fields,
        methods,
    })
}

#[cold]
fn bad_field<'a>(fields: &[[u8; 8]], n: u32) -> Result<Table<'a>, Refusal> {
    let bad = |row: &[u8; 8]| {
        let [ty, optional] = words::<2>(row);
        (ty >= n) | (optional > 1)
    };
    refuse(43, fields.iter().position(bad).unwrap_or(0))
}

/// A letter Y has a struct type, an N has none.
#[inline(always)]
fn formed(types: &[[u8; 12]], row: &[u8; 32]) -> bool {
    let [_, _, _, form, t @ ..] = words::<8>(row);
    let mut good = form <= 15;
    for (i, &t) in t.iter().enumerate() {
        good &= if form >> (3 - i) & 1 == 1 {
            (t as usize) < types.len() && u32_at(&types[t as usize], 0) == 16
        } else {
            t == u32::MAX
        };
    }
    good
}

/// The presence bits of the fields that are not optional.
pub fn required_bits(fields: &[[u8; 8]]) -> u64 {
    let bits = fields.iter().enumerate();
    bits.fold(0, |bits, (i, field)| bits | u64::from(field[4] ^ 1) << i)
}

#[inline(always)]
fn ids(row: &[u8; 32]) -> (u64, u32) {
    (u64_at(row, 0), u32_at(row, 8))
}

#[inline(always)]
fn check_methods(methods: &[[u8; 32]], types: &[[u8; 12]]) -> Result<(), Refusal> {
    if methods.len() <= 6 {
        for (i, row) in methods.iter().enumerate() {
            if !formed(types, row) || methods[..i].iter().any(|m| ids(m) == ids(row)) {
                return refuse(44, i);
            }
        }
        return Ok(());
    }
    check_many(methods, types)
}

#[inline(never)]
fn check_many(methods: &[[u8; 32]], types: &[[u8; 12]]) -> Result<(), Refusal> {
    check_hashed::<false>(methods, types)
        .or_else(|| check_hashed::<true>(methods, types))
        .unwrap_or(Ok(()))
}

/// So many taken slots may be passed over before the numbers are mixed.
const MOST_PASSED: usize = 512;

/// Looks for the same identifiers by a hash table. None where it was given up,
/// since too many slots were taken already; with mixed numbers it never is.
#[inline(always)]
fn check_hashed<const MIXING: bool>(
    methods: &[[u8; 32]],
    types: &[[u8; 12]],
) -> Option<Result<(), Refusal>> {
    let mut slots = [0u16; 1024];
    let mut passed = 0;
    for (i, row) in methods.iter().enumerate() {
        if !formed(types, row) {
            return Some(refuse(44, i));
        }
        let own = ids(row);
        let mut at = (number_of::<MIXING>(own) >> 54) as usize;
        loop {
            let there = slots[at & 1023];
            if there == 0 {
                slots[at & 1023] = i as u16 + 1;
                break;
            }
            if ids(&methods[there as usize - 1]) == own {
                return Some(refuse(44, i));
            }
            passed += 1;
            if !MIXING && passed == MOST_PASSED {
                return None;
            }
            at += 1;
        }
    }
    Some(Ok(()))
}

/// The number whose top ten bits are the first slot; the library takes its top
/// twelve for the flag.
#[inline(always)]
fn number_of<const MIXING: bool>((names, method): (u64, u32)) -> u64 {
    if MIXING {
        return mixed(mixed(names).wrapping_add(method as u64));
    }
    names
        .wrapping_mul(0x369D_EA0F_31A5_3F85)
        .wrapping_add((method as u64).wrapping_mul(0xD6E8_FEB8_6659_FD93))
}
