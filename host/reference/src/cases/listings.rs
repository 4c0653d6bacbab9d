//! Files of listing cases: a schema file and a record each.

use super::format::{put_bytes, Input};
use crate::list;

/// What one listing is made of.
#[derive(Clone, Debug, PartialEq, Eq)]
pub struct ListingCase {
    pub schema: Vec<u8>,
    pub record: Vec<u8>,
}

/// The cases as a file.
pub fn put_listings(cases: &[ListingCase]) -> Vec<u8> {
    let mut file = Vec::new();
    for case in cases {
        put_bytes(&mut file, &case.schema);
        put_bytes(&mut file, &case.record);
    }
    file
}

/// The listings of a whole file, one after the other; a cut case ends them.
pub fn list_file(bytes: &[u8]) -> String {
    let mut input = Input::new(bytes);
    let mut text = String::new();
    while !input.is_empty() {
        let (Some(schema), Some(record)) = (input.bytes(), input.bytes()) else {
            break;
        };
        text.push_str(&list(&schema, &record));
    }
    text
}
