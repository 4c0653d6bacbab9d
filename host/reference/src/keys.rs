//! Finding repeated map keys.

/// One key: its content, and a digest of it for quick comparison.
struct Key<'a> {
    digest: u64,
    content: &'a [u8],
}

/// A number that equal contents share and others hardly ever do. Short keys,
/// numbers among them, are their own digest.
#[inline]
fn digest(content: &[u8]) -> u64 {
    let (words, rest) = content.as_chunks::<8>();
    let mix = |digest: u64, &word: &[u8; 8]| {
        let mixed = digest.rotate_left(29) ^ u64::from_le_bytes(word);
        mixed.wrapping_mul(0x9E37_79B9_7F4A_7C15)
    };
    words.iter().fold(crate::bitmap::load(rest), mix)
}

/// The keys of all maps that are being walked, the innermost map's on top.
/// One list serves a whole value, so a map costs no allocation of its own.
#[derive(Default)]
pub struct Keys<'a> {
    stack: Vec<Key<'a>>,
}

impl<'a> Keys<'a> {
    /// Where the keys of a map that begins now will start.
    #[inline]
    pub fn begin(&self) -> usize {
        self.stack.len()
    }

    /// Adds a key to the map that began at `start`; false if it is there already.
    /// Keys of one type are equal when their contents are the same bytes.
    #[inline]
    pub fn insert(&mut self, start: usize, content: &'a [u8]) -> bool {
        let digest = digest(content);
        let same = |key: &Key| key.digest == digest && key.content == content;
        if self.stack[start..].iter().any(same) {
            return false;
        }
        self.stack.push(Key { digest, content });
        true
    }

    /// Forgets the keys of the map that began at `start`.
    #[inline]
    pub fn end(&mut self, start: usize) {
        self.stack.truncate(start);
    }
}
