//! Well-typed values, and their bytes on the wire with marks for damage.

use super::rng::Rng;
use super::table::{Table, ARRAY, BYTES, MAP, STRING, STRUCT};
use crate::bitmap;

/// The most bytes that a value may be forced to have.
const MAX_FORCED_SIZE: usize = 300;

/// What the types of a table ask of their values.
pub struct Types<'a> {
    pub table: &'a Table,
    /// The levels of the lowest value of each type; none has fewer.
    heights: Vec<usize>,
    /// The bytes of the shortest value of each type.
    sizes: Vec<usize>,
}

/// A height or size that no value can have.
const NEVER: usize = 1 << 20;

/// The width of a scalar kind.
pub fn scalar_width(kind: u32) -> usize {
    match kind {
        1 => 1,
        2..=5 => 1 << (kind - 2),
        6..=9 => 1 << (kind - 6),
        10 => 4,
        _ => 8,
    }
}

impl<'a> Types<'a> {
    pub fn new(table: &'a Table) -> Self {
        let types = table.types.len();
        let mut all = Types {
            table,
            heights: vec![NEVER; types],
            sizes: vec![NEVER; types],
        };
        while (0..types).any(|number| all.settle(number)) {}
        all
    }

    /// Lowers the height and size of one type by those it depends on; true if
    /// something changed.
    fn settle(&mut self, number: usize) -> bool {
        let [kind, _, count] = self.table.types[number];
        let (height, size) = match kind {
            STRUCT => {
                let fields = self.table.struct_fields(number as u32);
                let required = fields.iter().filter(|field| field[1] == 0);
                let start = (0, bitmap::width(count));
                let (height, size) = required.fold(start, |(height, size), field| {
                    let child = field[0] as usize;
                    (
                        height.max(self.heights[child]),
                        size + self.sizes[child].min(NEVER),
                    )
                });
                (height + 1, size)
            }
            STRING | BYTES | ARRAY | MAP => (1, 1),
            scalar => (1, scalar_width(scalar)),
        };
        let better = (height.min(NEVER), size.min(NEVER));
        let changed = better != (self.heights[number], self.sizes[number]);
        (self.heights[number], self.sizes[number]) = better;
        changed
    }

    /// Whether a small value of this type fits into so many levels.
    pub fn fits(&self, number: u32, levels: usize) -> bool {
        let number = number as usize;
        self.heights[number] <= levels && self.sizes[number] <= MAX_FORCED_SIZE
    }

    /// The struct types that have small values.
    pub fn roots(&self) -> Vec<u32> {
        let mut roots = self.table.structs();
        roots.retain(|&number| self.fits(number, 16));
        roots
    }
}

/// A value of a type.
#[derive(Clone, Debug)]
pub struct Value {
    pub number: u32,
    pub kind: u32,
    pub content: Content,
}

#[derive(Clone, Debug)]
pub enum Content {
    Scalar(Vec<u8>),
    Text(Vec<u8>),
    Items(Vec<Value>),
    Pairs(Vec<(Value, Value)>),
    /// The bitmap, its width in bytes, and the present fields.
    Fields {
        bits: u64,
        width: usize,
        fields: Vec<Value>,
    },
}

/// Makes random values within a budget of bytes.
pub struct Maker<'a, 'r> {
    pub types: &'a Types<'a>,
    pub rng: &'r mut Rng,
    pub budget: usize,
    /// Whether optional fields are present and lists filled wherever possible.
    pub full: bool,
    /// What goes on as far as the budget does.
    pub length: Length,
}

/// What is long in a value.
#[derive(Clone, Copy, Debug, PartialEq, Eq)]
pub enum Length {
    Short,
    LongLists,
    /// Lists too.
    LongTexts,
}

/// The pairs of a map in a long value, at most; few maps have so many.
const LONG_PAIRS: usize = 64;

impl Maker<'_, '_> {
    /// A value of a type that fits into so many levels.
    pub fn value(&mut self, number: u32, levels: usize) -> Value {
        let [kind, a, b] = self.types.table.types[number as usize];
        self.budget = self.budget.saturating_sub(1);
        let content = match kind {
            STRING => Content::Text(self.text()),
            BYTES => {
                let length = self.text_length();
                Content::Text(self.rng.bytes(length))
            }
            ARRAY => self.items(a, levels),
            MAP => self.pairs(a, b, levels),
            STRUCT => self.fields(number, levels),
            scalar => Content::Scalar(random_scalar(self.rng, scalar)),
        };
        Value {
            number,
            kind,
            content,
        }
    }

    fn text_length(&mut self) -> usize {
        let length = match self.rng.below(40) {
            10..=29 if self.length == Length::LongTexts => self.rng.below(self.budget + 1),
            0 => self.rng.range(120, 140),
            _ => self.rng.below(6),
        };
        let length = length.min(self.budget);
        self.budget -= length;
        length
    }

    fn text(&mut self) -> Vec<u8> {
        let length = self.text_length();
        random_text(self.rng, length)
    }

    /// Whether one more child of this type may be made.
    fn may_add(&self, number: u32, levels: usize) -> bool {
        levels > 1 && self.budget > 2 && self.types.fits(number, levels - 1)
    }

    fn count(&mut self) -> usize {
        match self.full {
            _ if self.length != Length::Short && !self.rng.one_in(3) => {
                self.rng.below(self.budget + 1)
            }
            true => self.rng.range(1, 4),
            false => self.rng.below(4),
        }
    }

    fn items(&mut self, element: u32, levels: usize) -> Content {
        let mut items = Vec::new();
        for _ in 0..self.count() {
            if self.may_add(element, levels) {
                items.push(self.value(element, levels - 1));
            }
        }
        Content::Items(items)
    }

    fn pairs(&mut self, key: u32, value: u32, levels: usize) -> Content {
        let mut pairs: Vec<(Value, Value)> = Vec::new();
        let count = self.count() + usize::from(self.full);
        for _ in 0..count.min(LONG_PAIRS) {
            if !self.may_add(key, levels) || !self.may_add(value, levels) {
                break;
            }
            let made = self.value(key, levels - 1);
            let same = |pair: &(Value, Value)| pair.0.bytes() == made.bytes();
            if !pairs.iter().any(same) {
                let value = self.value(value, levels - 1);
                pairs.push((made, value));
            }
        }
        Content::Pairs(pairs)
    }

    fn fields(&mut self, number: u32, levels: usize) -> Content {
        let table = self.types.table;
        let mut bits = 0;
        let mut fields = Vec::new();
        for (index, &[child, optional]) in table.struct_fields(number).iter().enumerate() {
            let wanted = self.full || self.rng.one_in(2);
            if optional == 0 || wanted && self.may_add(child, levels) {
                bits |= 1 << index;
                fields.push(self.value(child, levels - 1));
            }
        }
        let width = bitmap::width(table.struct_fields(number).len() as u32);
        Content::Fields {
            bits,
            width,
            fields,
        }
    }
}

/// Scalars with a liking for the ends of their ranges.
pub fn random_scalar(rng: &mut Rng, kind: u32) -> Vec<u8> {
    let width = scalar_width(kind);
    if kind == 1 {
        return vec![rng.below(2) as u8];
    }
    let special64 = [
        0,
        1,
        0x7FF0 << 48,
        0x7FF8 << 48,
        1 << 63,
        u64::MAX,
        0x7FF0_0000_0000_0001,
    ];
    let special32 = [
        0,
        0x7F80_0000,
        0x7FC0_0000,
        0x8000_0000,
        0x7F80_0001,
        0xFFC0_0000,
    ];
    let bits = match (rng.below(6), kind) {
        (0, 10) => rng.pick(&special32),
        (0, 11) => rng.pick(&special64),
        (0, _) => rng.pick(&[0, 1, 0x80, 0x7F, 0xFF, u64::MAX, 1 << (8 * width - 1)]),
        _ => rng.bits(),
    };
    bits.to_le_bytes()[..width].to_vec()
}

/// Exactly so many bytes of UTF-8, with characters of one to four bytes.
pub fn random_text(rng: &mut Rng, length: usize) -> Vec<u8> {
    let edges = [
        '\0',
        '\u{7F}',
        '\u{80}',
        '\u{7FF}',
        '\u{800}',
        '\u{D7FF}',
        '\u{E000}',
        '\u{FFFE}',
        '\u{FFFF}',
        '\u{10000}',
        '\u{10FFFF}',
        'a',
        'z',
        '\u{E4}',
        '\u{20AC}',
        '\u{1F600}',
    ];
    let mut text = String::new();
    while text.len() < length {
        let character = match rng.one_in(3) {
            true => rng.pick(&edges),
            false => char::from(rng.range(0x20, 0x7E) as u8),
        };
        if text.len() + character.len_utf8() <= length {
            text.push(character);
        }
    }
    text.into_bytes()
}

/// What a mark in a payload points out.
#[derive(Clone, Copy, Debug, PartialEq, Eq)]
pub enum Spot {
    Bool,
    /// The length of a string or bytes.
    Length,
    /// The count of an array or a map.
    Count,
    MapCount,
    /// A whole string: its length and its content.
    String,
    /// A whole key of the map of that number.
    Key {
        map: usize,
    },
    Bitmap {
        number: u32,
        inner: bool,
    },
}

/// A span of a payload and what it is.
#[derive(Clone, Copy, Debug)]
pub struct Mark {
    pub spot: Spot,
    pub place: usize,
    pub end: usize,
    /// Where the content of a key or string starts.
    pub content: usize,
}

/// A payload with its marks.
#[derive(Clone, Debug, Default)]
pub struct Payload {
    pub bytes: Vec<u8>,
    pub marks: Vec<Mark>,
    maps: usize,
}

/// The VarUInt of a number, which is the shortest.
pub fn varuint(value: u64) -> Vec<u8> {
    let mut bytes = vec![0; 10];
    let length = crate::varuint::encode(value, &mut bytes);
    bytes.truncate(length);
    bytes
}

/// A number with spare zero groups, one a little more often than others, in
/// ten bytes at most; none where its VarUInt has ten already.
pub fn padded(rng: &mut Rng, value: u64) -> Option<Vec<u8>> {
    let mut bytes = varuint(value);
    if bytes.len() == 10 {
        return None;
    }
    let length = match rng.one_in(8) {
        true => bytes.len() + 1,
        false => rng.range(bytes.len() + 1, 10),
    };
    *bytes.last_mut()? |= 0x80;
    bytes.resize(length - 1, 0x80);
    bytes.push(0);
    Some(bytes)
}

/// The first one to nine bytes of a VarUInt that has more.
pub fn unfinished(rng: &mut Rng) -> Vec<u8> {
    let length = rng.range(1, 9);
    match rng.one_in(2) {
        true => vec![0x80; length],
        false => (0..length).map(|_| 0x80 | rng.byte()).collect(),
    }
}

/// Ten bytes of which the last is above 1, so that they are no VarUInt.
pub fn overlong(rng: &mut Rng) -> Vec<u8> {
    let mut bytes = vec![0x80 | rng.byte(); 9];
    bytes.push(rng.pick(&[2, 3, 0x7F, 0x80, 0x81, 0xFF]));
    bytes
}

impl Value {
    /// The bytes of the value.
    pub fn bytes(&self) -> Vec<u8> {
        self.payload().bytes
    }

    /// The value as the root of a payload.
    pub fn payload(&self) -> Payload {
        let mut payload = Payload::default();
        payload.put(self, false);
        payload
    }
}

impl Payload {
    /// A payload without marks.
    pub fn unmarked(bytes: Vec<u8>) -> Payload {
        Payload {
            bytes,
            ..Payload::default()
        }
    }

    fn mark(&mut self, spot: Spot, place: usize, content: usize) {
        let end = self.bytes.len();
        self.marks.push(Mark {
            spot,
            place,
            end,
            content,
        });
    }

    fn put_size(&mut self, size: usize, spot: Spot) {
        let place = self.bytes.len();
        self.bytes.extend(varuint(size as u64));
        self.mark(spot, place, place);
    }

    /// Adds a value and the marks of everything in it.
    fn put(&mut self, value: &Value, inner: bool) {
        let place = self.bytes.len();
        match &value.content {
            Content::Scalar(content) => {
                self.bytes.extend(content);
                if value.kind == 1 {
                    self.mark(Spot::Bool, place, place);
                }
            }
            Content::Text(content) => {
                self.put_size(content.len(), Spot::Length);
                let start = self.bytes.len();
                self.bytes.extend(content);
                if value.kind == STRING {
                    self.mark(Spot::String, place, start);
                }
            }
            Content::Items(items) => {
                self.put_size(items.len(), Spot::Count);
                for item in items {
                    self.put(item, true);
                }
            }
            Content::Pairs(pairs) => self.put_pairs(pairs),
            Content::Fields {
                bits,
                width,
                fields,
            } => {
                self.bytes.extend(&bits.to_le_bytes()[..*width]);
                let number = value.number;
                self.mark(Spot::Bitmap { number, inner }, place, place);
                for field in fields {
                    self.put(field, true);
                }
            }
        }
    }

    fn put_pairs(&mut self, pairs: &[(Value, Value)]) {
        let map = self.maps;
        self.maps += 1;
        self.put_size(pairs.len(), Spot::MapCount);
        for (key, value) in pairs {
            let place = self.bytes.len();
            self.put(key, true);
            let content = match &key.content {
                Content::Text(content) => self.bytes.len() - content.len(),
                _ => place,
            };
            self.mark(Spot::Key { map }, place, content);
            self.put(value, true);
        }
    }
}
