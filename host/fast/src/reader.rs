//! The payload reader: one pass that judges and keeps rows of four 16-bit numbers, which are widened onto the sheet at the end.

use crate::bytes::number;
use crate::keys::Keys;
use crate::scratch::{with, Scratch};
use crate::table::{check, required_bits, Info, Table};
use crate::{utf8, Refusal, LEVELS, MAX_PAIRS, MAX_PAYLOAD};

#[derive(Clone, Copy, Debug, Default, PartialEq, Eq)]
pub struct Reading {
    pub rows: usize,
    pub tail_place: usize,
    pub tail_length: usize,
    /// The key comparisons that were due: each later key of a map against each
    /// earlier one, over all maps read.
    pub comparisons: usize,
}

pub fn read(schema: &[u8], ty: u32, payload: &[u8], sheet: &mut [u32]) -> Result<Reading, Refusal> {
    with(|scratch| {
        let table = check(schema, &mut scratch.info)?;
        read_checked(scratch, &table, ty, payload, sheet)
    })
}

#[inline(always)]
pub fn read_checked(
    scratch: &mut Scratch,
    table: &Table,
    ty: u32,
    payload: &[u8],
    sheet: &mut [u32],
) -> Result<Reading, Refusal> {
    if ty as usize >= table.types || scratch.info[ty as usize].kind != 16 {
        return Err(Refusal::of(46));
    }
    if payload.len() > MAX_PAYLOAD {
        return Err(Refusal::of(7));
    }
    let Scratch {
        info,
        required,
        rows,
        keys,
        ..
    } = scratch;
    keys.clear();
    let mut walk = Walk {
        p: payload,
        fields: table.fields,
        info,
        required,
        rows: &mut rows[..payload.len()],
        keys,
        fault: Refusal::of(0),
        unknown: 0,
        comparisons: 0,
    };
    let (end, count) = walk.structure::<true>(ty as u8, walk.info[ty as usize], 0, 0, LEVELS);
    if end == BAD {
        return Err(walk.fault);
    }
    let comparisons = walk.comparisons;
    let tail = payload.len() - end;
    let unknown = walk.unknown.count_ones() as usize;
    if unknown > tail {
        return Err(Refusal {
            number: 20,
            place: end,
        });
    }
    if unknown == 0 && tail > 0 {
        return Err(Refusal {
            number: 27,
            place: end,
        });
    }
    if count > sheet.len() / 4 {
        return Err(Refusal::of(30));
    }
    let (cells, _) = rows[..count].as_flattened().as_chunks::<2>();
    for (to, from) in sheet[..4 * count].iter_mut().zip(cells) {
        *to = u16::from_le_bytes(*from) as u32;
    }
    Ok(Reading {
        rows: count,
        tail_place: end,
        tail_length: tail,
        comparisons,
    })
}

const BAD: usize = usize::MAX;

/// The place and the row after what was read; the place is BAD for a refusal.
type Next = (usize, usize);

struct Walk<'a> {
    p: &'a [u8],
    fields: &'a [[u8; 8]],
    info: &'a mut [Info; 256],
    required: &'a mut [u64; 256],
    rows: &'a mut [[u8; 8]],
    keys: &'a mut Keys,
    fault: Refusal,
    unknown: u64,
    comparisons: usize,
}

#[inline(always)]
fn packed(ty: u8, place: usize, length: usize, count: usize) -> u64 {
    ty as u64 | (place as u64) << 16 | (length as u64) << 32 | (count as u64) << 48
}

impl<'a> Walk<'a> {
    #[cold]
    #[inline(never)]
    fn refuse(&mut self, number: u32, place: usize) -> Next {
        self.fault = Refusal { number, place };
        (BAD, 0)
    }

    #[inline(always)]
    fn put(&mut self, row: usize, x: u64) {
        self.rows[row] = x.to_le_bytes();
    }

    #[inline(always)]
    fn kind(&self, ty: u8) -> Info {
        self.info[ty as usize]
    }

    /// A length or count and the place after it; refuses by a place of BAD.
    #[inline(always)]
    fn size(&mut self, at: usize, least: usize) -> (usize, usize) {
        let rest = self.p.len() - at;
        if rest > 0 {
            let b = self.p[at] as usize;
            if b < 0x80 {
                if least * b <= rest - 1 {
                    return (b, at + 1);
                }
            } else if rest > 1 {
                let c = self.p[at + 1] as usize;
                let n = b - 0x80 + (c << 7);
                if c.wrapping_sub(1) < 0x7F && least * n <= rest - 2 {
                    return (n, at + 2);
                }
            }
        }
        self.long_size(at, least)
    }

    #[cold]
    #[inline(never)]
    fn long_size(&mut self, at: usize, least: usize) -> (usize, usize) {
        let mut value = 0u64;
        for i in 0..10 {
            let Some(&b) = self.p.get(at + i) else {
                self.refuse(20, at);
                return (0, BAD);
            };
            if (i == 9 && b > 1) || (i > 0 && b == 0) {
                self.refuse(21, at);
                return (0, BAD);
            }
            value |= ((b & 0x7F) as u64) << (7 * i);
            if b < 0x80 {
                let next = at + i + 1;
                if value > ((self.p.len() - next) / least) as u64 {
                    break;
                }
                return (value as usize, next);
            }
        }
        self.refuse(20, at);
        (0, BAD)
    }

    #[inline(always)]
    fn required_bits(&mut self, ty: u8, t: Info) -> u64 {
        if t.ready {
            return self.required[ty as usize];
        }
        self.find_required(ty, t)
    }

    #[inline(never)]
    fn find_required(&mut self, ty: u8, t: Info) -> u64 {
        let bits = required_bits(&self.fields[t.a as usize..][..t.fields as usize]);
        self.required[ty as usize] = bits;
        self.info[ty as usize].ready = true;
        bits
    }

    /// A struct whose fields may have `left` more levels.
    fn structure<const ROOT: bool>(
        &mut self,
        ty: u8,
        t: Info,
        at: usize,
        row: usize,
        left: u32,
    ) -> Next {
        let n = t.fields as usize;
        let width = (n + 7) / 8;
        if self.p.len() - at < width {
            return self.refuse(20, at);
        }
        let word = if width == 1 {
            self.p[at] as u64
        } else {
            number(self.p, at, width)
        };
        if self.required_bits(ty, t) & !word != 0 {
            return self.refuse(25, at);
        }
        let known = u64::MAX >> (64 - n as u32);
        if ROOT {
            self.unknown = word & !known;
        } else if word & !known != 0 {
            return self.refuse(26, at);
        }
        let fields = &self.fields[t.a as usize..][..n];
        let mut bits = word & known;
        let mut here = at + width;
        let mut below = row + 1;
        let mut count = 0;
        if bits != 0 && left == 0 {
            return self.refuse(28, here);
        }
        while bits != 0 {
            let i = bits.trailing_zeros() as usize;
            bits &= bits - 1;
            count += 1;
            let fty = fields[i][0];
            let f = self.kind(fty);
            (here, below) = self.value(fty, f, here, below, left - 1);
            if here == BAD {
                return (BAD, 0);
            }
        }
        self.put(row, packed(ty, at, here - at, count));
        (here, below)
    }

    /// Any value; leaves without a call.
    #[inline(always)]
    fn value(&mut self, ty: u8, t: Info, at: usize, row: usize, left: u32) -> Next {
        if t.width != 0 {
            let w = t.width as usize;
            if self.p.len() - at < w {
                return self.refuse(20, at);
            }
            if t.kind == 1 && self.p[at] > 1 {
                return self.refuse(22, at);
            }
            self.put(row, packed(ty, at, w, 0));
            (at + w, row + 1)
        } else if t.kind < 14 {
            self.text(ty, t, at, row)
        } else if t.kind == 16 {
            self.structure::<false>(ty, t, at, row, left)
        } else if t.kind == 14 {
            self.array(ty, t, at, row, left)
        } else {
            self.map(ty, t, at, row, left)
        }
    }

    #[inline(always)]
    fn text(&mut self, ty: u8, t: Info, at: usize, row: usize) -> Next {
        let (n, from) = self.size(at, 1);
        if from == BAD {
            return (BAD, 0);
        }
        if t.kind == 12 && !utf8::is_valid(&self.p[from..from + n]) {
            return self.refuse(23, from);
        }
        self.put(row, packed(ty, from, n, 0));
        (from + n, row + 1)
    }

    fn array(&mut self, ty: u8, t: Info, at: usize, row: usize, left: u32) -> Next {
        let (n, start) = self.size(at, 1);
        if start == BAD {
            return (BAD, 0);
        }
        if n > 0 && left == 0 {
            return self.refuse(28, start);
        }
        let elem = t.a as u8;
        let e = self.kind(elem);
        let (mut here, mut below) = (start, row + 1);
        if e.width != 0 {
            let w = e.width as usize;
            let fit = (self.p.len() - start) >> e.width.trailing_zeros();
            let m = n.min(fit);
            if e.kind == 1 {
                if let Some(i) = self.p[start..start + m].iter().position(|&b| b > 1) {
                    return self.refuse(22, start + i);
                }
            }
            if m < n {
                return self.refuse(20, start + m * w);
            }
            let mut x = packed(elem, start, w, 0);
            for r in &mut self.rows[below..below + n] {
                *r = x.to_le_bytes();
                x = x.wrapping_add((w as u64) << 16);
            }
            here = start + n * w;
            below += n;
        } else if e.kind < 14 {
            for _ in 0..n {
                (here, below) = self.text(elem, e, here, below);
                if here == BAD {
                    return (BAD, 0);
                }
            }
        } else if e.kind == 16 {
            for _ in 0..n {
                let e = self.kind(elem);
                (here, below) = self.structure::<false>(elem, e, here, below, left - 1);
                if here == BAD {
                    return (BAD, 0);
                }
            }
        } else if e.kind == 14 {
            for _ in 0..n {
                (here, below) = self.array(elem, e, here, below, left - 1);
                if here == BAD {
                    return (BAD, 0);
                }
            }
        } else {
            for _ in 0..n {
                (here, below) = self.map(elem, e, here, below, left - 1);
                if here == BAD {
                    return (BAD, 0);
                }
            }
        }
        self.put(row, packed(ty, start, here - start, n));
        (here, below)
    }

    fn map(&mut self, ty: u8, t: Info, at: usize, row: usize, left: u32) -> Next {
        let (n, start) = self.size(at, 2);
        if start == BAD {
            return (BAD, 0);
        }
        if n > MAX_PAIRS {
            return self.refuse(31, at);
        }
        if n > 0 && left == 0 {
            return self.refuse(28, start);
        }
        let (kty, vty) = (t.a as u8, t.b as u8);
        let k = self.kind(kty);
        let mut set = self.keys.begin(n, k.width);
        let (mut here, mut below) = (start, row + 1);
        for _ in 0..n {
            let key = here;
            let new;
            if k.width != 0 {
                let w = k.width as usize;
                if self.p.len() - here < w {
                    return self.refuse(20, here);
                }
                if w == 1 {
                    let b = self.p[here];
                    if k.kind == 1 && b > 1 {
                        return self.refuse(22, here);
                    }
                    new = self.keys.add_byte(&mut set, b);
                } else {
                    let v = number(self.p, here, w);
                    new = self.keys.add_number(&set, v);
                }
                self.put(below, packed(kty, here, w, 0));
                here += w;
            } else {
                let (m, from) = self.size(here, 1);
                if from == BAD {
                    return (BAD, 0);
                }
                if k.kind == 12 && !utf8::is_valid(&self.p[from..from + m]) {
                    return self.refuse(23, from);
                }
                new = self.keys.add_text(&set, self.p, from, m);
                self.put(below, packed(kty, from, m, 0));
                here = from + m;
            }
            if !new {
                return self.refuse(24, key);
            }
            let v = self.kind(vty);
            (here, below) = self.value(vty, v, here, below + 1, left - 1);
            if here == BAD {
                return (BAD, 0);
            }
        }
        self.keys.end(&set);
        self.comparisons += n * n.saturating_sub(1) / 2;
        self.put(row, packed(ty, start, here - start, n));
        (here, below)
    }
}
