//! Values whose maps have few or many pairs, and keys that are hard to tell
//! apart.

use super::payload::{table_holding, value_of};
use super::rng::Rng;
use super::table::{Table, BYTES, MAP, STRING, STRUCT};
use super::value::{random_text, scalar_width, Content, Length, Maker, Types, Value};
use crate::{MAX_DEPTH, MAX_PAIRS};

/// Makes a number of pairs.
pub type Pairs = fn(&mut Rng) -> usize;

/// A number of pairs that a map may have.
pub fn allowed(rng: &mut Rng) -> usize {
    rng.pick(&[0, 1, 2, 63, 63, 64, 64, 64])
}

/// As many pairs as a map may have.
pub fn most(_: &mut Rng) -> usize {
    MAX_PAIRS
}

/// A number of pairs above the limit.
pub fn excessive(rng: &mut Rng) -> usize {
    rng.pick(&[65, 65, 65, 66, 100, 127, 128, 129])
}

/// A thousand pairs and some more.
pub fn thousand(rng: &mut Rng) -> usize {
    rng.range(1_000, 1_200)
}

/// A number of pairs far above the limit.
pub fn thousands(rng: &mut Rng) -> usize {
    rng.range(1_000, 4_000)
}

/// Contents of keys of a kind, all different as far as the kind has as many.
pub fn key_contents(rng: &mut Rng, kind: u32, count: usize) -> Vec<Vec<u8>> {
    let mut contents = match kind {
        1 => (0..count).map(|index| vec![(index % 2) as u8]).collect(),
        STRING | BYTES => texts(rng, kind, count),
        number => numbers(rng, scalar_width(number), count),
    };
    if rng.one_in(2) {
        rng.shuffle(&mut contents);
    }
    contents
}

/// Numbers that differ in a few bits only, anywhere in their bytes.
fn numbers(rng: &mut Rng, width: usize, count: usize) -> Vec<Vec<u8>> {
    let counted = (usize::BITS - count.leading_zeros()) as usize;
    let shift = rng.below((8 * width).saturating_sub(counted) + 1);
    let base = rng.bits();
    let number = |index: usize| (base ^ (index as u64) << shift).to_le_bytes();
    (0..count)
        .map(|index| number(index)[..width].to_vec())
        .collect()
}

/// Strings or bytes of one letter and every length, or with equal ends.
fn texts(rng: &mut Rng, kind: u32, count: usize) -> Vec<Vec<u8>> {
    if count <= 2 * MAX_PAIRS && rng.one_in(4) {
        let letter = rng.pick(&[0, b'a']);
        return (0..count).map(|length| vec![letter; length]).collect();
    }
    let [first, last] = [0; 2].map(|_| {
        let length = rng.pick(&[0, 0, 1, 7, 8, 15]);
        match kind {
            STRING => random_text(rng, length),
            _ => rng.bytes(length),
        }
    });
    let middle = |index: usize| [index % 64, index / 64 % 64].map(|digit| b' ' + digit as u8);
    (0..count)
        .map(|index| [&first[..], &middle(index), &last].concat())
        .collect()
}

impl Value {
    fn children(&mut self) -> Vec<&mut Value> {
        match &mut self.content {
            Content::Scalar(_) | Content::Text(_) => Vec::new(),
            Content::Items(items) => items.iter_mut().collect(),
            Content::Pairs(pairs) => pairs
                .iter_mut()
                .flat_map(|(key, value)| [key, value])
                .collect(),
            Content::Fields { fields, .. } => fields.iter_mut().collect(),
        }
    }

    /// How many maps the value has, itself included.
    fn maps(&mut self) -> usize {
        let own = usize::from(self.kind == MAP);
        let inner = self.children().into_iter().map(Value::maps);
        own + inner.sum::<usize>()
    }

    /// A map of the value by its number, and the levels it may fill.
    fn map(&mut self, number: &mut usize, levels: usize) -> Option<(&mut Value, usize)> {
        if self.kind == MAP {
            if *number == 0 {
                return Some((self, levels));
            }
            *number -= 1;
        }
        let mut children = self.children().into_iter();
        children.find_map(|child| child.map(number, levels.saturating_sub(1)))
    }
}

/// Gives one of the maps in a root value so many pairs; none where there is no
/// map or its values have no room.
pub fn give_pairs(rng: &mut Rng, types: &Types, root: &mut Value, count: usize) -> Option<()> {
    let mut number = rng.below(root.maps());
    let (map, levels) = root.map(&mut number, MAX_DEPTH as usize)?;
    let [_, key, element] = types.table.types[map.number as usize];
    if levels < 2 || !types.fits(element, levels - 1) {
        return None;
    }
    let kind = types.table.types[key as usize][0];
    let mut pairs = Vec::new();
    for content in key_contents(rng, kind, count) {
        let mut maker = Maker {
            types,
            rng,
            budget: 2,
            full: false,
            length: Length::Short,
        };
        let value = maker.value(element, levels - 1);
        pairs.push((leaf(key, kind, content), value));
    }
    map.content = Content::Pairs(pairs);
    Some(())
}

fn leaf(number: u32, kind: u32, content: Vec<u8>) -> Value {
    let content = match kind {
        STRING | BYTES => Content::Text(content),
        _ => Content::Scalar(content),
    };
    Value {
        number,
        kind,
        content,
    }
}

/// A table and a value by it that has a map of so many pairs, and maybe others
/// that have many.
pub fn map_value(rng: &mut Rng, count: usize) -> (Table, Value) {
    loop {
        let (table, root) = table_holding(rng, MAP);
        let types = Types::new(&table);
        let Some(mut value) = value_of(rng, &types, root, true) else {
            continue;
        };
        if rng.one_in(4) {
            let other = rng.pick(&[2, 10, 64]);
            give_pairs(rng, &types, &mut value, other);
        }
        if give_pairs(rng, &types, &mut value, count).is_some() {
            return (table, value);
        }
    }
}

/// The pairs of maps in a payload of 16,384 bytes that has as many key
/// comparisons due as can be: 127 maps of 64 pairs and one of 63.
pub fn fullest() -> Vec<usize> {
    let mut counts = vec![MAX_PAIRS; 127];
    counts.push(MAX_PAIRS - 1);
    counts
}

/// Maps of maps with so many pairs each, and the table of them.
pub fn maps_of_maps(rng: &mut Rng, mut counts: Vec<usize>) -> (Table, Value) {
    let mut table = Table::default();
    let key = table.add_type(rng.pick(&[2, 6]), 0, 0);
    let map = table.add_type(MAP, key, 1);
    let number = table.add_struct(&[[map, 0]]);
    rng.shuffle(&mut counts);
    let levels = rng.range(3, MAX_DEPTH as usize - 2);
    let value = Value {
        number,
        kind: STRUCT,
        content: Content::Fields {
            bits: 1,
            width: 1,
            fields: vec![map_of_maps(rng, &table, &mut counts, levels)],
        },
    };
    (table, value)
}

/// A map of the next count, whose values are maps of the counts after it, as
/// far as there are counts and levels; else they are empty.
fn map_of_maps(rng: &mut Rng, table: &Table, counts: &mut Vec<usize>, levels: usize) -> Value {
    let count = match levels {
        0 => 0,
        _ => counts.pop().unwrap_or(0),
    };
    let kind = table.types[0][0];
    let mut pairs = Vec::new();
    for content in key_contents(rng, kind, count) {
        let value = map_of_maps(rng, table, counts, levels - 1);
        pairs.push((leaf(0, kind, content), value));
    }
    Value {
        number: 1,
        kind: MAP,
        content: Content::Pairs(pairs),
    }
}
