//! Long values: texts of thousands of bytes, lists of thousands of elements,
//! maps whose keys stand far apart.

use crate::generate::payload::table_holding;
use crate::generate::rng::Rng;
use crate::generate::table::{Table, ARRAY, BYTES, MAP, STRING, STRUCT};
use crate::generate::value::{Content, Length, Maker, Types, Value};
use crate::MAX_PAYLOAD;

/// The least bytes of a long payload.
pub const LEAST: usize = 1_024;

/// A long value of a type; none where its values hardly get long.
pub fn long_value(rng: &mut Rng, types: &Types, root: u32) -> Option<Value> {
    if !types.fits(root, 16) {
        return None;
    }
    for _ in 0..6 {
        let budget = rng.range(LEAST, MAX_PAYLOAD) >> rng.pick(&[0, 0, 0, 1, 2, 3]);
        let length = rng.pick(&[Length::LongLists, Length::LongTexts]);
        let full = rng.one_in(2);
        let mut maker = Maker {
            types,
            rng,
            budget,
            full,
            length,
        };
        let value = maker.value(root, 16);
        let size = value.bytes().len();
        if (LEAST..=MAX_PAYLOAD).contains(&size) {
            return Some(value);
        }
    }
    None
}

/// A table and a long value of it.
pub fn long_sample(rng: &mut Rng) -> (Table, Value) {
    loop {
        let wanted = rng.pick(&[ARRAY, ARRAY, ARRAY, MAP, STRING, BYTES]);
        let (table, root) = table_holding(rng, wanted);
        if let Some(value) = long_value(rng, &Types::new(&table), root) {
            return (table, value);
        }
    }
}

/// Makes a text in a value longer, or shorter, so that its payload has so many
/// bytes; false where it has no such text.
pub fn stretch(value: &mut Value, size: usize) -> bool {
    let missing = size as isize - value.bytes().len() as isize;
    let Some(text) = last_text(value) else {
        return false;
    };
    let length = text.len() as isize + missing;
    if length < 0 {
        return false;
    }
    text.resize(length as usize, b'x');
    // The text's own length may have got longer or shorter.
    let over = value.bytes().len() as isize - size as isize;
    if let Some(text) = last_text(value) {
        let length = text.len() as isize - over;
        text.resize(length.max(0) as usize, b'x');
    }
    value.bytes().len() == size
}

/// The last text in a value that is no key.
fn last_text(value: &mut Value) -> Option<&mut Vec<u8>> {
    match &mut value.content {
        Content::Scalar(_) => None,
        // Text that is cut has to stay UTF-8.
        Content::Text(text) => text.is_ascii().then_some(text),
        Content::Items(items) => items.iter_mut().rev().find_map(last_text),
        Content::Pairs(pairs) => {
            let mut values = pairs.iter_mut().rev().map(|(_, value)| value);
            values.find_map(last_text)
        }
        Content::Fields { fields, .. } => fields.iter_mut().rev().find_map(last_text),
    }
}

/// A value with as many rows as a payload of 16,384 bytes may show, or one
/// fewer: elements of one byte, in one array or in arrays of arrays.
pub fn most_rows(rng: &mut Rng) -> (Table, Value) {
    let mut table = Table::default();
    let leaf = table.add_type(rng.pick(&[1, 2, 6]), 0, 0);
    let list = table.add_type(ARRAY, leaf, 0);
    let lists = table.add_type(ARRAY, list, 0);
    let root = table.add_struct(&[[list, 1], [lists, 1]]);
    let kind = table.types[leaf as usize][0];
    let item = |byte: u8| Value {
        number: leaf,
        kind,
        content: Content::Scalar(vec![byte]),
    };
    let array = |number: u32, items: Vec<Value>| Value {
        number,
        kind: ARRAY,
        content: Content::Items(items),
    };
    let leaves = |rng: &mut Rng, count: usize| -> Vec<Value> {
        (0..count).map(|_| item(rng.below(2) as u8)).collect()
    };
    // One list has a count of two bytes. Lists of at most 127 have one of one.
    let (bits, fields) = match rng.one_in(2) {
        true => (1, vec![array(list, leaves(rng, MAX_PAYLOAD - 3))]),
        false => {
            let inner = (0..127).map(|_| array(list, leaves(rng, 127)));
            let inner = inner.collect();
            let outer = array(lists, inner);
            // 1 + 1 + 127 + 127 * 127 bytes, and the rest in the other list.
            let rest = MAX_PAYLOAD - (2 + 127 + 127 * 127) - 1;
            (3, vec![array(list, leaves(rng, rest)), outer])
        }
    };
    let root = Value {
        number: root,
        kind: STRUCT,
        content: Content::Fields {
            bits,
            width: 1,
            fields,
        },
    };
    (table, root)
}

/// A map whose values are long, so that equal keys would stand far apart.
pub fn far_keys(rng: &mut Rng) -> (Table, Value) {
    loop {
        let mut table = Table::default();
        let key = table.add_type(rng.pick(&[2, 3, 5, 6, 9, STRING, BYTES]), 0, 0);
        let leaf = table.add_type(rng.pick(&[1, 6, STRING, BYTES]), 0, 0);
        let list = table.add_type(ARRAY, leaf, 0);
        let inner = table.add_struct(&[[list, 0], [leaf, 1]]);
        let map = table.add_type(MAP, key, rng.pick(&[leaf, list, inner]));
        let root = table.add_struct(&[[map, 0], [leaf, 1]]);
        if let Some(value) = long_value(rng, &Types::new(&table), root) {
            return (table, value);
        }
    }
}
