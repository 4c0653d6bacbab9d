//! What passes a relay: payloads of a new writer between two new tables, read
//! in the middle by an old one.

use super::extensions::{extended, old_table};
use super::payload::payload_of;
use super::rng::Rng;
use super::value::Types;
use crate::read;

/// A new table that extends an old one, and a payload of the new writer, of a
/// struct that the old table has.
pub struct Relay {
    pub old: Vec<u8>,
    pub new: Vec<u8>,
    pub root: u32,
    pub payload: Vec<u8>,
}

impl Relay {
    /// Whether the payload is right by the new table. A map of many pairs may
    /// have too few different keys.
    fn is_right(&self) -> bool {
        let mut sheet = vec![0; 4 * (self.payload.len() + 1)];
        read(&self.new, self.root, &self.payload, &mut sheet).is_ok()
    }
}

/// A random payload for a relay.
pub fn relay(rng: &mut Rng) -> Relay {
    loop {
        let old = old_table(rng);
        let new = extended(rng, &old);
        let root = rng.pick(&old.structs());
        let full = !rng.one_in(3);
        let Some(payload) = payload_of(rng, &Types::new(&new), root, full) else {
            continue;
        };
        let relay = Relay {
            old: old.bytes(),
            new: new.bytes(),
            root,
            payload: payload.bytes,
        };
        if relay.is_right() {
            return relay;
        }
    }
}
