//! Memory that a thread keeps between calls.

use crate::keys::Keys;
use crate::table::Info;
use crate::MAX_PAYLOAD;
use std::cell::RefCell;

pub struct Scratch {
    /// The type rows of the schema of this call.
    pub info: [Info; 256],
    /// The required bits of the struct types that were met in this call.
    pub required: [u64; 256],
    /// Rows as four 16-bit numbers.
    pub rows: [[u8; 8]; MAX_PAYLOAD],
    /// Bytes that are written, with room for whole words at the end.
    pub out: [u8; MAX_PAYLOAD + 16],
    pub keys: Keys,
    /// Long spans that are copied at the end: place in the output, place in the bytes, length.
    pub long: Vec<(u32, u32, u32)>,
}

thread_local! {
    static SCRATCH: RefCell<Box<Scratch>> = RefCell::new(Box::new(Scratch {
        info: [Info::default(); 256],
        required: [0; 256],
        rows: [[0; 8]; MAX_PAYLOAD],
        out: [0; MAX_PAYLOAD + 16],
        keys: Keys::default(),
        long: Vec::new(),
    }));
}

#[inline(always)]
pub fn with<R>(f: impl FnOnce(&mut Scratch) -> R) -> R {
    SCRATCH.with(|s| f(&mut s.borrow_mut()))
}
