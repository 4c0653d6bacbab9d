//! Sheets, right ones and damaged ones, as cases for the writer.

use super::damage::{bad_text, tail};
use super::deep::{deep_table, deep_value};
use super::maps::{map_value, Pairs};
use super::payload::{sample, sample_holding, Sample};
use super::reading::no_struct;
use super::rng::Rng;
use super::table::{good_table, Table, ARRAY, BYTES, MAP, STRING, STRUCT};
use super::value::{Content, Value};
use crate::cases::{Case, WriteCase};
use crate::{read, write};

/// A sheet in the making: its rows over their bytes.
#[derive(Clone)]
pub struct Sheet {
    table: Table,
    root: u32,
    rows: Vec<[u32; 4]>,
    data: Vec<u8>,
}

impl Sheet {
    /// The rows that reading a payload gives.
    fn read(table: Table, root: u32, data: Vec<u8>) -> Option<Sheet> {
        let mut cells = vec![0; 4 * (data.len() + 1)];
        let reading = read(&table.bytes(), root, &data, &mut cells).ok()?;
        let (rows, _) = cells.as_chunks::<4>();
        Some(Sheet {
            rows: rows[..reading.rows].to_vec(),
            table,
            root,
            data,
        })
    }

    /// The rows of a value, as a reader without limits would give them.
    pub fn of_value(table: Table, value: &Value) -> Sheet {
        let mut sheet = Sheet {
            table,
            root: value.number,
            rows: Vec::new(),
            data: Vec::new(),
        };
        lay_out(value, &mut sheet);
        sheet
    }

    fn from_sample(rng: &mut Rng, sample: Sample) -> Option<Sheet> {
        let bytes = match rng.one_in(5) {
            true => tail(rng, &sample.table, &sample.payload).unwrap_or(sample.payload.bytes),
            false => sample.payload.bytes,
        };
        Sheet::read(sample.table, sample.root, bytes)
    }

    fn kind(&self, row: usize) -> u32 {
        let number = self.rows[row][0] as usize;
        self.table.types.get(number).map_or(0, |row| row[0])
    }

    /// A row whose kind is one of those that suit.
    fn pick_row(&self, rng: &mut Rng, suits: impl Fn(u32) -> bool) -> Option<usize> {
        let rows = 0..self.rows.len();
        let rows: Vec<usize> = rows.filter(|&row| suits(self.kind(row))).collect();
        (!rows.is_empty()).then(|| rng.pick(&rows))
    }

    /// The length of the output, if the sheet is right.
    fn length(&self) -> Option<usize> {
        let mut out = vec![0; crate::MAX_PAYLOAD];
        let cells = self.rows.concat();
        write(&self.table.bytes(), self.root, &cells, &self.data, &mut out).ok()
    }

    /// The case, with room enough in most and sometimes odd cells at the end.
    pub fn case(self, rng: &mut Rng) -> Case {
        let length = self.length().unwrap_or(20);
        let room = match rng.below(8) {
            0..=2 => length,
            3..=5 => length + rng.range(1, 20),
            6 => 64.max(length),
            _ => length.saturating_sub(rng.below(3)),
        };
        let mut sheet = self.rows.concat();
        if rng.one_in(4) {
            for _ in 0..rng.range(1, 3) {
                sheet.push(rng.word());
            }
        }
        Case::Write(WriteCase {
            schema: self.table.bytes(),
            type_number: self.root,
            sheet,
            data: self.data,
            room,
        })
    }
}

/// A change to a sheet; none where it has no row for it.
pub type Damage = fn(&mut Rng, &mut Sheet) -> Option<()>;

/// A sheet from a random payload, changed.
pub fn write_any(rng: &mut Rng, damage: Damage) -> Case {
    loop {
        let sample = sample(rng);
        if let Some(mut sheet) = Sheet::from_sample(rng, sample) {
            if damage(rng, &mut sheet).is_some() {
                return sheet.case(rng);
            }
        }
    }
}

/// A sheet from a payload that holds a value of a kind, changed.
pub fn write_holding(rng: &mut Rng, wanted: u32, damage: Damage) -> Case {
    loop {
        let sample = sample_holding(rng, wanted);
        if let Some(mut sheet) = Sheet::from_sample(rng, sample) {
            if damage(rng, &mut sheet).is_some() {
                return sheet.case(rng);
            }
        }
    }
}

/// A sheet with an array or a map, changed.
pub fn write_sized(rng: &mut Rng, damage: Damage) -> Case {
    let wanted = rng.pick(&[ARRAY, MAP]);
    write_holding(rng, wanted, damage)
}

/// A sheet of a value with a map of so many pairs, changed.
pub fn write_map(rng: &mut Rng, pairs: Pairs, damage: Damage) -> Case {
    loop {
        let count = pairs(rng);
        let (table, value) = map_value(rng, count);
        let mut sheet = Sheet::of_value(table, &value);
        if damage(rng, &mut sheet).is_some() {
            return sheet.case(rng);
        }
    }
}

/// The sheet as it is.
pub fn as_read(_: &mut Rng, _: &mut Sheet) -> Option<()> {
    Some(())
}

/// The same value over other bytes: contents moved, overlapping where they
/// can, and everything the writer ignores filled with anything.
pub fn made_up(rng: &mut Rng, sheet: &mut Sheet) -> Option<()> {
    let start = rng.below(6);
    let mut data = rng.bytes(start);
    for row in 0..sheet.rows.len() {
        let kind = sheet.kind(row);
        let [number, place, length, _] = sheet.rows[row];
        let size = match kind {
            STRUCT => sheet.table.struct_fields(number).len().div_ceil(8),
            ARRAY | MAP => 0,
            _ => length as usize,
        };
        let content = &sheet.data[place as usize..][..size];
        let found = data
            .windows(size.max(1))
            .position(|window| window == content);
        let moved = match found {
            Some(place) if size > 0 && rng.one_in(2) => place,
            _ => {
                data.extend(content);
                data.len() - size
            }
        };
        sheet.rows[row][1] = moved as u32;
        if kind >= ARRAY {
            sheet.rows[row][2] = rng.word();
        }
        if matches!(kind, ARRAY | MAP) {
            sheet.rows[row][1] = rng.word();
        }
    }
    let after = rng.below(4);
    data.extend(rng.bytes(after));
    sheet.data = data;
    Some(())
}

/// Rows missing at the end, or anywhere (50).
pub fn missing_row(rng: &mut Rng, sheet: &mut Sheet) -> Option<()> {
    let at = rng.below(sheet.rows.len());
    match rng.one_in(3) {
        true => drop(sheet.rows.remove(at)),
        false => sheet.rows.truncate(at),
    }
    Some(())
}

/// Rows left over (50).
pub fn extra_row(rng: &mut Rng, sheet: &mut Sheet) -> Option<()> {
    let row = match rng.one_in(2) {
        true => rng.pick(&sheet.rows),
        false => [0; 4],
    };
    for _ in 0..rng.range(1, 2) {
        sheet.rows.push(row);
    }
    Some(())
}

/// A type other than the one due (50).
pub fn other_type(rng: &mut Rng, sheet: &mut Sheet) -> Option<()> {
    let row = rng.below(sheet.rows.len());
    let types = sheet.table.types.len() as u32;
    let was = sheet.rows[row][0];
    sheet.rows[row][0] = rng.pick(&[was.wrapping_add(1), was.wrapping_sub(1), types, u32::MAX]);
    Some(())
}

/// A scalar whose length is not its width (50).
pub fn other_width(rng: &mut Rng, sheet: &mut Sheet) -> Option<()> {
    let row = sheet.pick_row(rng, |kind| kind < STRING)?;
    let was = sheet.rows[row][2];
    sheet.rows[row][2] = rng.pick(&[was.wrapping_add(1), was.wrapping_sub(1), 0, u32::MAX]);
    Some(())
}

/// A count on a scalar, string or bytes (50).
pub fn leaf_count(rng: &mut Rng, sheet: &mut Sheet) -> Option<()> {
    let row = sheet.pick_row(rng, |kind| kind < ARRAY)?;
    sheet.rows[row][3] = rng.pick(&[1, 2, 256, u32::MAX]);
    Some(())
}

/// A struct's count that its bits belie (50).
pub fn struct_count(rng: &mut Rng, sheet: &mut Sheet) -> Option<()> {
    let row = sheet.pick_row(rng, |kind| kind == STRUCT)?;
    let was = sheet.rows[row][3];
    let other = [was.wrapping_add(1), was.wrapping_sub(1), 64, u32::MAX];
    sheet.rows[row][3] = rng.pick(&other);
    Some(())
}

/// A map's count above 64, whatever rows follow (31).
pub fn many_pairs(rng: &mut Rng, sheet: &mut Sheet) -> Option<()> {
    let row = sheet.pick_row(rng, |kind| kind == MAP)?;
    sheet.rows[row][3] = rng.pick(&[65, 65, 66, 128, 1_000, 8_192, 1 << 31, u32::MAX]);
    if rng.one_in(4) {
        sheet.rows.truncate(row + 1);
    }
    Some(())
}

/// A map's count above 64 in a row of another type (50).
pub fn many_pairs_other_type(rng: &mut Rng, sheet: &mut Sheet) -> Option<()> {
    let row = sheet.pick_row(rng, |kind| kind == MAP)?;
    sheet.rows[row][3] = rng.pick(&[65, 66, u32::MAX]);
    sheet.rows[row][0] ^= 1;
    Some(())
}

/// Most rows and bytes missing, in most cases.
pub fn few_rows(rng: &mut Rng, sheet: &mut Sheet) -> Option<()> {
    if !rng.one_in(6) {
        sheet.rows.truncate(rng.range(10, 200));
        sheet.data.truncate(1_000);
    }
    Some(())
}

/// An array's or map's count changed: rows miss or are left over (50).
pub fn list_count(rng: &mut Rng, sheet: &mut Sheet) -> Option<()> {
    let row = sheet.pick_row(rng, |kind| matches!(kind, ARRAY | MAP))?;
    let was = sheet.rows[row][3];
    let other = [
        was.wrapping_add(1),
        was.saturating_sub(1),
        1 << 31,
        u32::MAX,
    ];
    sheet.rows[row][3] = rng.pick(&other);
    Some(())
}

/// A presence byte changed: a bit set or cleared (25 or 50).
pub fn presence(rng: &mut Rng, sheet: &mut Sheet) -> Option<()> {
    let row = sheet.pick_row(rng, |kind| kind == STRUCT)?;
    let [number, place, ..] = sheet.rows[row];
    let fields = sheet.table.struct_fields(number).len();
    let width = fields.div_ceil(8);
    let bit = rng.below(8 * width);
    *sheet.data.get_mut(place as usize + bit / 8)? ^= 1 << (bit % 8);
    Some(())
}

/// An unknown bit in an inner struct (50).
pub fn inner_bit(rng: &mut Rng, sheet: &mut Sheet) -> Option<()> {
    let row = sheet.pick_row(rng, |kind| kind == STRUCT)?;
    let [number, place, ..] = sheet.rows[row];
    let fields = sheet.table.struct_fields(number).len();
    if row == 0 || fields.is_multiple_of(8) {
        return None;
    }
    let last = place as usize + fields.div_ceil(8) - 1;
    *sheet.data.get_mut(last)? |= 0x80;
    if rng.one_in(3) {
        sheet.rows[row][3] = sheet.rows[row][3].wrapping_add(1);
    }
    Some(())
}

/// A required field's bit cleared, its row still there (25).
pub fn absent(rng: &mut Rng, sheet: &mut Sheet) -> Option<()> {
    let row = sheet.pick_row(rng, |kind| kind == STRUCT)?;
    let [number, place, ..] = sheet.rows[row];
    let fields = sheet.table.struct_fields(number);
    let required: Vec<usize> = (0..fields.len())
        .filter(|&bit| fields[bit][1] == 0)
        .collect();
    if required.is_empty() {
        return None;
    }
    let bit = rng.pick(&required);
    *sheet.data.get_mut(place as usize + bit / 8)? &= !(1 << (bit % 8));
    if rng.one_in(2) {
        sheet.rows[row][3] = sheet.rows[row][3].wrapping_sub(1);
    }
    Some(())
}

/// A span outside the bytes, by one or by far (51).
pub fn outside(rng: &mut Rng, sheet: &mut Sheet) -> Option<()> {
    let row = sheet.pick_row(rng, |kind| !matches!(kind, ARRAY | MAP))?;
    let kind = sheet.kind(row);
    let [number, place, length, _] = sheet.rows[row];
    let end = sheet.data.len() as u32;
    let size = match kind {
        STRUCT => sheet.table.struct_fields(number).len().div_ceil(8) as u32,
        _ => length,
    };
    let fitting = matches!(kind, STRING | BYTES);
    let (place, length) = match rng.below(5) {
        0 if fitting => (place, end.saturating_sub(place) + 1),
        1 if fitting => (place, u32::MAX - rng.below(3) as u32),
        2 if fitting => (end + rng.range(1, 2) as u32, 0),
        3 => (u32::MAX - rng.below(10) as u32, length),
        _ => (end + 1 - size.min(end), length),
    };
    sheet.rows[row][1] = place;
    sheet.rows[row][2] = length;
    Some(())
}

/// Data cut short, so that later spans lie outside (51).
pub fn short_data(rng: &mut Rng, sheet: &mut Sheet) -> Option<()> {
    let length = rng.below(sheet.data.len());
    sheet.data.truncate(length);
    Some(())
}

/// A bool of 2 or more (22).
pub fn not_bool(rng: &mut Rng, sheet: &mut Sheet) -> Option<()> {
    let row = sheet.pick_row(rng, |kind| kind == 1)?;
    let place = sheet.rows[row][1] as usize;
    *sheet.data.get_mut(place)? = rng.pick(&[2, 3, 0x80, 0xFF]);
    Some(())
}

/// A string that is not UTF-8 (23).
pub fn not_utf8(rng: &mut Rng, sheet: &mut Sheet) -> Option<()> {
    let row = sheet.pick_row(rng, |kind| kind == STRING)?;
    let text = bad_text(rng);
    sheet.rows[row][1] = sheet.data.len() as u32;
    sheet.rows[row][2] = text.len() as u32;
    sheet.data.extend(text);
    Some(())
}

/// Two keys of a map over the same or equal bytes (24).
pub fn repeated_key(rng: &mut Rng, sheet: &mut Sheet) -> Option<()> {
    repeat_key(rng, sheet, 2, |rng, pairs| rng.range(1, pairs - 1))
}

/// One of the last keys of a map of many pairs that is an earlier one again
/// (24).
pub fn repeated_late_key(rng: &mut Rng, sheet: &mut Sheet) -> Option<()> {
    repeat_key(rng, sheet, 32, |rng, pairs| pairs - 1 - rng.below(3))
}

/// A later key of a map with at least so many pairs made an earlier one. The
/// second key of a map of leaves stands two rows after the first.
fn repeat_key(
    rng: &mut Rng,
    sheet: &mut Sheet,
    least: usize,
    later: fn(&mut Rng, usize) -> usize,
) -> Option<()> {
    let map = sheet.pick_row(rng, |kind| kind == MAP)?;
    let [_, key, value] = sheet.table.types[sheet.rows[map][0] as usize];
    let leaves = sheet.table.types[value as usize][0] < ARRAY;
    let pairs = sheet.rows[map][3] as usize;
    if pairs < least || !leaves {
        return None;
    }
    let later = later(rng, pairs);
    let earlier = map + 1 + 2 * rng.below(later);
    let later = map + 1 + 2 * later;
    if later >= sheet.rows.len() {
        return None;
    }
    let [_, place, length, _] = sheet.rows[earlier];
    let place = match rng.one_in(2) {
        true => place,
        false => {
            let content = sheet.data.get(place as usize..)?.get(..length as usize)?;
            sheet.data.extend(content.to_vec());
            sheet.data.len() as u32 - length
        }
    };
    sheet.rows[later] = [key, place, length, 0];
    Some(())
}

impl Sheet {
    /// The row after those of a value.
    fn end(&self, row: usize) -> Option<usize> {
        let count = self.rows.get(row)?[3];
        let children = match self.kind(row) {
            ARRAY | STRUCT => count,
            MAP => 2 * count,
            _ => 0,
        };
        (0..children).try_fold(row + 1, |row, _| self.end(row))
    }
}

/// A later key of a map made an earlier one, however many rows stand between
/// them (24).
pub fn repeated_far_key(rng: &mut Rng, sheet: &mut Sheet) -> Option<()> {
    let map = sheet.pick_row(rng, |kind| kind == MAP)?;
    let pairs = sheet.rows[map][3] as usize;
    if pairs < 2 {
        return None;
    }
    let mut keys = vec![map + 1];
    while keys.len() < pairs {
        let value = sheet.end(keys[keys.len() - 1])?;
        keys.push(sheet.end(value)?);
    }
    let later = rng.range(1, pairs - 1);
    let earlier = rng.below(later);
    let later = keys[rng.pick(&[later, pairs - 1])];
    let earlier = keys[rng.pick(&[earlier, 0])];
    sheet.rows[later] = sheet.rows[earlier];
    Some(())
}

/// Any cell or byte changed.
pub fn noise(rng: &mut Rng, sheet: &mut Sheet) -> Option<()> {
    for _ in 0..rng.range(1, 3) {
        let row = rng.below(sheet.rows.len());
        let cell = rng.below(4);
        let at = rng.below(sheet.data.len());
        match rng.below(4) {
            0 => sheet.rows[row][cell] = rng.below(6) as u32,
            1 => sheet.rows[row][cell] = rng.word(),
            2 => sheet.rows[row][cell] ^= 1,
            _ => sheet.data[at] = rng.byte(),
        }
    }
    Some(())
}

/// Two faults at once, so that the order of refusals shows.
pub fn twice(rng: &mut Rng, sheet: &mut Sheet) -> Option<()> {
    const ALL: &[Damage] = &[
        extra_row,
        other_type,
        other_width,
        leaf_count,
        struct_count,
        list_count,
        many_pairs,
        inner_bit,
        absent,
        not_bool,
        not_utf8,
        repeated_key,
        missing_row,
        outside,
    ];
    let first = rng.below(ALL.len());
    let second = rng.below(ALL.len());
    ALL[first.min(second)](rng, sheet)?;
    if sheet.rows.is_empty() {
        return None;
    }
    ALL[first.max(second)](rng, sheet)
}

/// An output that is too small, by one or by all (52).
pub fn write_small_output(rng: &mut Rng) -> Case {
    loop {
        let sample = sample(rng);
        let Some(sheet) = Sheet::from_sample(rng, sample) else {
            continue;
        };
        let Some(length) = sheet.length() else {
            continue;
        };
        let missing = rng.range(1, length);
        let room = length - rng.pick(&[1, 1, missing, length]);
        return Case::Write(WriteCase {
            schema: sheet.table.bytes(),
            type_number: sheet.root,
            sheet: sheet.rows.concat(),
            data: sheet.data,
            room,
        });
    }
}

/// Many spans over the same bytes, so that the output passes 16,384 (7) or
/// just reaches it.
pub fn write_long(rng: &mut Rng) -> Case {
    let mut table = Table::default();
    let text = table.add_type(rng.pick(&[STRING, BYTES]), 0, 0);
    let list = table.add_type(ARRAY, text, 0);
    let root = table.add_struct(&[[list, 0]]);
    let size = rng.range(400, 900) as u32;
    let data = [vec![1], vec![b'y'; size as usize]].concat();
    let item = size + 2;
    let room = crate::MAX_PAYLOAD as u32 - 2;
    let full = room / item;
    let mut rows = vec![[root, 0, 0, 1], [list, 0, 0, 0]];
    rows.extend(vec![[text, 1, size, 0]; full as usize]);
    let left = room - full * item;
    let last = match rng.below(3) {
        0 => left.saturating_sub(2).min(size),
        1 => left,
        _ => size,
    };
    rows.push([text, 1, last.min(size), 0]);
    rows[1][3] = rows.len() as u32 - 2;
    Case::Write(WriteCase {
        schema: table.bytes(),
        type_number: root,
        sheet: rows.concat(),
        data,
        room: rng.pick(&[0, 100, 16_384, 16_385, 20_000]),
    })
}

/// A value of so many bytes, by spans over the same bytes.
pub fn sized(rng: &mut Rng, size: usize) -> WriteCase {
    const ITEM: usize = 500;
    let mut table = Table::default();
    let text = table.add_type(rng.pick(&[STRING, BYTES]), 0, 0);
    let list = table.add_type(ARRAY, text, 0);
    let root = table.add_struct(&[[list, 0]]);
    // The bitmap and the count take a byte each, an item two besides its own.
    let mut left = size - 2;
    let mut rows = vec![[root, 0, 0, 1], [list, 0, 0, 0]];
    while left > ITEM + 2 + 130 {
        rows.push([text, 1, ITEM as u32, 0]);
        left -= ITEM + 2;
    }
    let last = left - if left > 128 { 2 } else { 1 };
    rows.push([text, 1, last as u32, 0]);
    rows[1][3] = rows.len() as u32 - 2;
    WriteCase {
        schema: table.bytes(),
        type_number: root,
        sheet: rows.concat(),
        data: [vec![1], vec![b'y'; ITEM + 132]].concat(),
        room: 0,
    }
}

/// A nest of so many levels, its rows changed or not.
pub fn write_deep(rng: &mut Rng, levels: usize, damage: Damage) -> Case {
    let table = deep_table(rng);
    let root = rng.pick(&[0, 0, 0, 6]);
    let value = deep_value(rng, &table, root, levels - 1);
    let mut sheet = Sheet::of_value(table, &value);
    if rng.one_in(4) {
        sheet.rows.truncate(levels.min(sheet.rows.len()) - 1);
    }
    damage(rng, &mut sheet);
    sheet.case(rng)
}

/// Adds the rows and contents of a value.
fn lay_out(value: &Value, sheet: &mut Sheet) {
    let place = sheet.data.len() as u32;
    let row = sheet.rows.len();
    sheet.rows.push([value.number, place, 0, 0]);
    match &value.content {
        Content::Scalar(content) | Content::Text(content) => {
            sheet.data.extend(content);
            sheet.rows[row][2] = content.len() as u32;
        }
        Content::Items(items) => {
            sheet.rows[row][3] = items.len() as u32;
            items.iter().for_each(|item| lay_out(item, sheet));
        }
        Content::Pairs(pairs) => {
            sheet.rows[row][3] = pairs.len() as u32;
            for (key, value) in pairs {
                lay_out(key, sheet);
                lay_out(value, sheet);
            }
        }
        Content::Fields {
            bits,
            width,
            fields,
        } => {
            sheet.data.extend(&bits.to_le_bytes()[..*width]);
            sheet.rows[row][3] = bits.count_ones();
            fields.iter().for_each(|field| lay_out(field, sheet));
        }
    }
}

/// Rows of small numbers over small bytes, so that some of them fit.
pub fn write_random(rng: &mut Rng) -> Case {
    let sample = sample(rng);
    let types = sample.table.types.len();
    let mut sheet = vec![sample.root, 0];
    for _ in 0..rng.below(6) {
        sheet.extend(
            [rng.below(3), rng.below(3), rng.below(types), rng.below(4)].map(|cell| cell as u32),
        );
    }
    let data = (0..rng.range(1, 8)).map(|_| rng.below(4) as u8).collect();
    Case::Write(WriteCase {
        schema: sample.table.bytes(),
        type_number: sample.root,
        sheet,
        data,
        room: rng.below(20),
    })
}

/// A type that is no struct (46).
pub fn write_no_struct(rng: &mut Rng) -> Case {
    let table = good_table(rng);
    let type_number = no_struct(rng, &table);
    Case::Write(WriteCase {
        schema: table.bytes(),
        type_number,
        sheet: vec![type_number, 0, 1, 0],
        data: vec![1],
        room: rng.below(10),
    })
}

/// A table with a fault and any sheet.
pub fn write_bad_table(rng: &mut Rng, fault: fn(&mut Rng) -> Vec<u8>) -> Case {
    let cells = rng.below(10);
    Case::Write(WriteCase {
        schema: fault(rng),
        type_number: rng.below(6) as u32,
        sheet: (0..cells).map(|_| rng.below(6) as u32).collect(),
        data: vec![1, 0],
        room: rng.below(10),
    })
}
