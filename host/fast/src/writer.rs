//! The value writer: one pass over the rows that judges them and writes into scratch memory, which is copied out at the end.

use crate::bytes::{chunk, number, store};
use crate::keys::Keys;
use crate::scratch::{with, Scratch};
use crate::table::{check, required_bits, Info};
use crate::{utf8, Refusal, LEVELS, MAX_PAIRS, MAX_PAYLOAD};

pub fn write(
    schema: &[u8],
    ty: u32,
    sheet: &[u32],
    bytes: &[u8],
    out: &mut [u8],
) -> Result<usize, Refusal> {
    with(|scratch| {
        let table = check(schema, &mut scratch.info)?;
        if ty as usize >= table.types || scratch.info[ty as usize].kind != 16 {
            return Err(Refusal::of(46));
        }
        let (rows, _) = sheet.as_chunks::<4>();
        let Scratch {
            info,
            required,
            out: made,
            keys,
            long,
            ..
        } = scratch;
        keys.clear();
        long.clear();
        let mut walk = Walk {
            rows,
            bytes,
            fields: table.fields,
            info,
            required,
            out: made,
            keys,
            long,
            fault: Refusal::of(0),
        };
        let (row, length) = walk.structure::<true>(ty as u8, walk.info[ty as usize], 0, 0, LEVELS);
        if row == BAD {
            return Err(walk.fault);
        }
        if row < rows.len() {
            return Err(Refusal {
                number: 50,
                place: row,
            });
        }
        if length > MAX_PAYLOAD {
            return Err(Refusal::of(7));
        }
        if length > out.len() {
            return Err(Refusal::of(52));
        }
        let mut done = 0;
        for &(pos, from, n) in long.iter() {
            let (pos, from, n) = (pos as usize, from as usize, n as usize);
            out[done..pos].copy_from_slice(&made[done..pos]);
            out[pos..pos + n].copy_from_slice(&bytes[from..from + n]);
            done = pos + n;
        }
        out[done..length].copy_from_slice(&made[done..length]);
        Ok(length)
    })
}

const BAD: usize = usize::MAX;

/// The row and the place in the output after a value; the row is BAD for a refusal. A place above MAX_PAYLOAD is MAX_PAYLOAD + 1.
type Next = (usize, usize);

struct Walk<'a> {
    rows: &'a [[u32; 4]],
    bytes: &'a [u8],
    fields: &'a [[u8; 8]],
    info: &'a mut [Info; 256],
    required: &'a mut [u64; 256],
    out: &'a mut [u8; MAX_PAYLOAD + 16],
    keys: &'a mut Keys,
    long: &'a mut Vec<(u32, u32, u32)>,
    fault: Refusal,
}

impl<'a> Walk<'a> {
    #[cold]
    #[inline(never)]
    fn refuse(&mut self, number: u32, row: usize) -> Next {
        self.fault = Refusal { number, place: row };
        (BAD, 0)
    }

    #[inline(always)]
    fn kind(&self, ty: u8) -> Info {
        self.info[ty as usize]
    }

    #[inline(always)]
    fn row(&self, row: usize, ty: u8) -> Option<[u32; 4]> {
        if row < self.rows.len() {
            let r = self.rows[row];
            if r[0] == ty as u32 {
                return Some(r);
            }
        }
        None
    }

    /// n bytes of a word, up to 8: the whole word is stored.
    #[inline(always)]
    fn put_word(&mut self, pos: usize, n: usize, x: u64) -> usize {
        if pos > MAX_PAYLOAD {
            return pos;
        }
        store(&mut self.out[..], pos, x.to_le_bytes());
        if pos + n > MAX_PAYLOAD {
            MAX_PAYLOAD + 1
        } else {
            pos + n
        }
    }

    #[inline(always)]
    fn put_size(&mut self, pos: usize, x: u32) -> usize {
        if x < 0x80 {
            return self.put_word(pos, 1, x as u64);
        }
        if x < 0x4000 {
            return self.put_word(pos, 2, (x & 0x7F | 0x80 | x >> 7 << 8) as u64);
        }
        self.put_long_size(pos, x)
    }

    #[cold]
    #[inline(never)]
    fn put_long_size(&mut self, pos: usize, mut x: u32) -> usize {
        let (mut word, mut n) = (0u64, 0);
        while x >= 0x80 {
            word |= ((x & 0x7F | 0x80) as u64) << (8 * n);
            x >>= 7;
            n += 1;
        }
        word |= (x as u64) << (8 * n);
        self.put_word(pos, n + 1, word)
    }

    #[inline(always)]
    fn put_span(&mut self, pos: usize, from: usize, n: usize) -> usize {
        if pos + n > MAX_PAYLOAD {
            return MAX_PAYLOAD + 1;
        }
        if n <= 16 && self.bytes.len() - from >= 16 {
            store(&mut self.out[..], pos, chunk::<16>(self.bytes, from));
        } else {
            self.put_long(pos, from, n);
        }
        pos + n
    }

    #[inline(never)]
    fn put_long(&mut self, pos: usize, from: usize, n: usize) {
        if n < 512 {
            self.out[pos..pos + n].copy_from_slice(&self.bytes[from..from + n]);
        } else {
            self.long.push((pos as u32, from as u32, n as u32));
        }
    }

    #[inline(always)]
    fn required_bits(&mut self, ty: u8, t: Info) -> u64 {
        if t.ready {
            return self.required[ty as usize];
        }
        self.find_required(ty, t)
    }

    #[inline(never)]
    fn find_required(&mut self, ty: u8, t: Info) -> u64 {
        let bits = required_bits(&self.fields[t.a as usize..][..t.fields as usize]);
        self.required[ty as usize] = bits;
        self.info[ty as usize].ready = true;
        bits
    }

    fn structure<const ROOT: bool>(
        &mut self,
        ty: u8,
        t: Info,
        row: usize,
        pos: usize,
        left: u32,
    ) -> Next {
        let Some([_, place, _, count]) = self.row(row, ty) else {
            return self.refuse(50, row);
        };
        let n = t.fields as usize;
        let width = (n + 7) / 8;
        let place = place as usize;
        if place + width > self.bytes.len() {
            return self.refuse(51, row);
        }
        let word = if width == 1 {
            self.bytes[place] as u64
        } else {
            number(self.bytes, place, width)
        };
        if self.required_bits(ty, t) & !word != 0 {
            return self.refuse(25, row);
        }
        let known = word & u64::MAX >> (64 - n as u32);
        let ones = if width == 1 {
            ONES[known as usize & 255] as u32
        } else {
            known.count_ones()
        };
        if ones != count || (!ROOT && word != known) {
            return self.refuse(50, row);
        }
        let mut to = self.put_word(pos, width, known);
        let fields = &self.fields[t.a as usize..][..n];
        let mut here = row + 1;
        let mut bits = known;
        if bits != 0 && left == 0 {
            return self.refuse(28, here);
        }
        while bits != 0 {
            let i = bits.trailing_zeros() as usize;
            bits &= bits - 1;
            let fty = fields[i][0];
            let f = self.kind(fty);
            (here, to) = self.value(fty, f, here, to, left - 1);
            if here == BAD {
                return (BAD, 0);
            }
        }
        (here, to)
    }

    #[inline(always)]
    fn value(&mut self, ty: u8, t: Info, row: usize, pos: usize, left: u32) -> Next {
        if t.width != 0 {
            let (place, w) = self.scalar(ty, t, row);
            if w == 0 {
                return (BAD, 0);
            }
            (row + 1, self.put_scalar(pos, place, w))
        } else if t.kind < 14 {
            let (place, n) = self.text(ty, t, row);
            if place == BAD {
                return (BAD, 0);
            }
            let to = self.put_size(pos, n as u32);
            (row + 1, self.put_span(to, place, n))
        } else if t.kind == 16 {
            self.structure::<false>(ty, t, row, pos, left)
        } else if t.kind == 14 {
            self.array(ty, t, row, pos, left)
        } else {
            self.map(ty, t, row, pos, left)
        }
    }

    #[inline(always)]
    fn put_scalar(&mut self, pos: usize, place: usize, w: usize) -> usize {
        let x = number(self.bytes, place, w);
        self.put_word(pos, w, x)
    }

    /// Place and width of a scalar's row; the width is 0 for a refusal.
    #[inline(always)]
    fn scalar(&mut self, ty: u8, t: Info, row: usize) -> (usize, usize) {
        let w = t.width as usize;
        let Some([_, place, length, count]) = self.row(row, ty) else {
            self.refuse(50, row);
            return (0, 0);
        };
        let place = place as usize;
        if length as usize != w || count != 0 {
            self.refuse(50, row);
            return (0, 0);
        }
        if place + w > self.bytes.len() {
            self.refuse(51, row);
            return (0, 0);
        }
        if t.kind == 1 && self.bytes[place] > 1 {
            self.refuse(22, row);
            return (0, 0);
        }
        (place, w)
    }

    /// Place and length of a string or bytes; the place is BAD for a refusal.
    #[inline(always)]
    fn text(&mut self, ty: u8, t: Info, row: usize) -> (usize, usize) {
        let Some([_, place, length, count]) = self.row(row, ty) else {
            return self.refuse(50, row);
        };
        let (place, n) = (place as usize, length as usize);
        if count != 0 {
            return self.refuse(50, row);
        }
        if place + n > self.bytes.len() {
            return self.refuse(51, row);
        }
        if t.kind == 12 && !utf8::is_valid(&self.bytes[place..place + n]) {
            return self.refuse(23, row);
        }
        (place, n)
    }

    fn array(&mut self, ty: u8, t: Info, row: usize, pos: usize, left: u32) -> Next {
        let Some([_, _, _, n]) = self.row(row, ty) else {
            return self.refuse(50, row);
        };
        let mut to = self.put_size(pos, n);
        let mut here = row + 1;
        if n > 0 && left == 0 {
            return self.refuse(28, here);
        }
        let elem = t.a as u8;
        let e = self.kind(elem);
        if e.width != 0 {
            for _ in 0..n {
                let (place, w) = self.scalar(elem, e, here);
                if w == 0 {
                    return (BAD, 0);
                }
                to = self.put_scalar(to, place, w);
                here += 1;
            }
        } else if e.kind == 16 {
            for _ in 0..n {
                let e = self.kind(elem);
                (here, to) = self.structure::<false>(elem, e, here, to, left - 1);
                if here == BAD {
                    return (BAD, 0);
                }
            }
        } else {
            for _ in 0..n {
                (here, to) = self.value(elem, e, here, to, left - 1);
                if here == BAD {
                    return (BAD, 0);
                }
            }
        }
        (here, to)
    }

    fn map(&mut self, ty: u8, t: Info, row: usize, pos: usize, left: u32) -> Next {
        let Some([_, _, _, n]) = self.row(row, ty) else {
            return self.refuse(50, row);
        };
        if n as usize > MAX_PAIRS {
            return self.refuse(31, row);
        }
        let mut to = self.put_size(pos, n);
        let mut here = row + 1;
        if n > 0 && left == 0 {
            return self.refuse(28, here);
        }
        let (kty, vty) = (t.a as u8, t.b as u8);
        let k = self.kind(kty);
        let mut set = self.keys.begin(n as usize, k.width);
        for _ in 0..n {
            let new;
            if k.width != 0 {
                let (place, w) = self.scalar(kty, k, here);
                if w == 0 {
                    return (BAD, 0);
                }
                if w == 1 {
                    let b = self.bytes[place];
                    new = self.keys.add_byte(&mut set, b);
                    to = self.put_word(to, 1, b as u64);
                } else {
                    let v = number(self.bytes, place, w);
                    new = self.keys.add_number(&set, v);
                    to = self.put_word(to, w, v);
                }
            } else {
                let (place, m) = self.text(kty, k, here);
                if place == BAD {
                    return (BAD, 0);
                }
                new = self.keys.add_text(&set, self.bytes, place, m);
                to = self.put_size(to, m as u32);
                to = self.put_span(to, place, m);
            }
            if !new {
                return self.refuse(24, here);
            }
            let v = self.kind(vty);
            (here, to) = self.value(vty, v, here + 1, to, left - 1);
            if here == BAD {
                return (BAD, 0);
            }
        }
        self.keys.end(&set);
        (here, to)
    }
}

/// The number of bits of a byte.
const ONES: [u8; 256] = {
    let mut t = [0; 256];
    let mut i = 0;
    while i < 256 {
        t[i] = (i as u8).count_ones() as u8;
        i += 1;
    }
    t
};
