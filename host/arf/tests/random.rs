//! Random bytes through every wrapper, on a thread with a stack of 256 KiB:
//! nothing panics, a refusal leaves lent memory as it was, and what is not
//! written stays as it was. `ARF_RANDOM_CASES` sets how many cases there are.

use arf::{
    Call, CallTable, Calls, Draft, Header, Kind, Node, Outcome, Reading, Reason, Refusal, Role,
    Row, Schema, Side, Step, Tally, Value,
};
use std::thread;

/// Numbers by a small generator (SplitMix64), so that a seed gives a case.
struct Random(u64);

impl Random {
    fn next(&mut self) -> u64 {
        self.0 = self.0.wrapping_add(0x9E37_79B9_7F4A_7C15);
        let mut x = self.0;
        x = (x ^ (x >> 30)).wrapping_mul(0xBF58_476D_1CE4_E5B9);
        x = (x ^ (x >> 27)).wrapping_mul(0x94D0_49BB_1331_11EB);
        x ^ (x >> 31)
    }

    fn below(&mut self, n: u64) -> usize {
        (self.next() % n) as usize
    }

    fn bytes(&mut self, most: u64) -> Vec<u8> {
        let n = self.below(most + 1);
        // Small numbers more often than others: these are what counts and lengths have.
        (0..n)
            .map(|_| match self.below(3) {
                0 => self.below(4) as u8,
                1 => self.below(32) as u8,
                _ => self.next() as u8,
            })
            .collect()
    }

    fn cells(&mut self, most: u64) -> Vec<u32> {
        let n = self.below(most + 1);
        (0..n)
            .map(|_| match self.below(3) {
                0 => self.next() as u32,
                _ => self.below(12) as u32,
            })
            .collect()
    }

    /// Random bytes, or one of the two schema files of examples/, now and then
    /// with a byte changed.
    fn schema(&mut self) -> Vec<u8> {
        let mut schema = match self.below(4) {
            0 => self.bytes(200),
            1 => include_bytes!("../../../examples/priced.schema").to_vec(),
            _ => include_bytes!("../../../examples/carrier.schema").to_vec(),
        };
        if self.below(4) == 0 && !schema.is_empty() {
            let at = self.below(schema.len() as u64);
            schema[at] = self.next() as u8;
        }
        schema
    }

    /// Random bytes, or entries of a record of examples/ with a byte changed.
    fn record(&mut self) -> Vec<u8> {
        let mut record = match self.below(3) {
            0 => self.bytes(300),
            1 => include_bytes!("../../../examples/added.record").to_vec(),
            _ => include_bytes!("../../../examples/day.record").to_vec(),
        };
        for _ in 0..self.below(3) {
            if !record.is_empty() {
                let at = self.below(record.len() as u64);
                record[at] = self.next() as u8;
            }
        }
        record
    }
}

const FILL: u8 = 0xA5;
const CELL: u32 = 0xA5A5_A5A5;

/// A refusal has a reason, and words.
fn told(refusal: Refusal) {
    assert!(refusal.reason().is_some(), "{refusal:?}");
    assert!(!refusal.advice().is_empty());
}

/// What was written stands at the front, and the rest stays as it was.
fn kept(out: &[u8], result: Result<usize, Refusal>) {
    let written = result.map_err(told).unwrap_or(0);
    assert!(out[written..].iter().all(|&byte| byte == FILL));
}

fn payloads(random: &mut Random) {
    let (schema, theirs) = (random.schema(), random.schema());
    let (type_number, payload) = (random.below(12) as u32, random.bytes(120));
    for beside in [false, true] {
        let mut sheet = vec![CELL; random.below(64)];
        let reading = match beside {
            false => arf::read(&schema, type_number, &payload, &mut sheet),
            true => arf::read_beside(&schema, &theirs, type_number, &payload, &mut sheet),
        };
        let rows = reading.map_err(told).map_or(0, |reading| reading.rows);
        assert!(sheet[4 * rows..].iter().all(|&cell| cell == CELL));
        let Ok(reading) = reading else { continue };
        let value = Schema::new(&schema)
            .unwrap()
            .shown(&payload, &sheet, reading);
        let nodes: Vec<_> = value.rows().collect();
        assert_eq!(nodes.len(), reading.rows);
        for node in &nodes {
            assert_eq!(node.scalar().is_ok(), !node.kind.is_composite());
            assert!(node.kind != Kind::String || node.text().is_some());
        }
        if !beside {
            let mut out = vec![FILL; payload.len() + 1];
            let (place, length) = (reading.tail_place, reading.tail_length);
            let rows = value.cells();
            let relayed = arf::forward(
                &schema,
                type_number,
                rows,
                &payload,
                place,
                length,
                &mut out,
            );
            assert_eq!(relayed, Ok(payload.len()));
            assert_eq!(out[..payload.len()], payload);
            drafted(&value, &payload);
        }
        descended(&nodes);
    }
}

/// Rows that show no value are gone through all the same.
fn no_values(random: &mut Random) {
    let (file, sheet, payload) = (random.schema(), random.cells(60), random.bytes(60));
    let Ok(schema) = Schema::new(&file) else {
        return;
    };
    let mut number = || random.next() as usize >> random.below(64);
    let reading = Reading {
        rows: number(),
        tail_place: number(),
        tail_length: number(),
        comparisons: number(),
    };
    let value = schema.shown(&payload, &sheet, reading);
    assert!(value.tail().len() <= payload.len());
    assert!(value.rows().count() <= sheet.len() / 4);
    for node in value.rows() {
        let _ = node.scalar().map_err(told);
        assert!(node.text().unwrap_or_default().len() <= payload.len());
        assert!(node.children().count() <= sheet.len() / 4);
        assert!(node.present().count() <= 64);
    }
}

/// A value put together from what the rows show is written as the rows are.
fn drafted(value: &Value, payload: &[u8]) {
    let schema = value.schema().bytes();
    let type_number = value.root().unwrap().row.type_number;
    let mut plain = vec![FILL; payload.len()];
    let written = arf::write(schema, type_number, value.cells(), payload, &mut plain);

    let rows = value.reading().rows;
    let (mut sheet, mut bytes) = (vec![CELL; 4 * rows], vec![FILL; 1000 + 8 * rows]);
    let mut draft = Draft::new(&mut sheet, &mut bytes);
    for node in value.rows() {
        let (ty, count) = (node.row.type_number, node.row.count);
        match node.kind {
            Kind::Struct => draft.structure(ty, node.present()),
            Kind::Array => draft.array(ty, count),
            Kind::Map => draft.map(ty, count),
            _ => draft.value(ty, node.bytes()),
        };
    }
    let (sheet, bytes) = (draft.sheet(), draft.bytes());
    let mut out = vec![FILL; payload.len()];
    assert_eq!(
        arf::write(schema, type_number, sheet, bytes, &mut out),
        written
    );
    assert_eq!(out, plain);
}

/// Children of children of the root are all rows, in order.
fn descended(nodes: &[Node]) {
    fn below(node: Node, all: &mut Vec<(Row, Role, usize)>) {
        all.push((node.row, node.role, node.depth));
        node.children().for_each(|child| below(child, all));
    }
    let mut all = Vec::new();
    below(nodes[0], &mut all);
    let rows: Vec<_> = nodes
        .iter()
        .map(|node| (node.row, node.role, node.depth))
        .collect();
    assert_eq!(all, rows);
}

fn writers(random: &mut Random) {
    let (schema, sheet, bytes) = (random.schema(), random.cells(40), random.bytes(60));
    let type_number = random.below(12) as u32;
    let mut out = vec![FILL; random.below(80)];
    let result = arf::write(&schema, type_number, &sheet, &bytes, &mut out);
    kept(&out, result);

    let mut out = vec![FILL; random.below(80)];
    let (place, length) = (random.below(70), random.next() as usize >> random.below(64));
    let result = arf::forward(
        &schema,
        type_number,
        &sheet,
        &bytes,
        place,
        length,
        &mut out,
    );
    kept(&out, result);

    let header = Header {
        kind: random.below(10) as u32,
        package: random.next() as u32,
        service: random.next() as u32,
        method: random.next() as u32,
        correlation: random.next(),
    };
    let mut out = vec![FILL; random.below(120)];
    let result = arf::write_frame(&header, &bytes, &mut out);
    kept(&out, result);
    if let Ok(n) = result {
        let whole = arf::FrameRead::Whole {
            header,
            place: n - bytes.len(),
            length: bytes.len(),
        };
        assert_eq!(arf::read_frame(&out[..n]), Ok(whole));
    }

    let type_number = if random.below(2) == 0 {
        arf::NO_VALUE
    } else {
        type_number
    };
    let mut out = vec![FILL; random.below(120)];
    let result = arf::write_value_frame(&header, &schema, type_number, &sheet, &bytes, &mut out);
    kept(&out, result);
}

fn tables(random: &mut Random) {
    let (old, new) = (random.schema(), random.schema());
    let good = arf::check_table(&old).map_err(told).is_ok() && arf::check_table(&new).is_ok();
    assert_eq!(arf::extends(&old, &new).map_err(told).is_ok(), good);
    if let Ok(schema) = Schema::new(&old) {
        for ty in schema.types() {
            assert_eq!(schema.type_at(ty.number), Some(ty));
            assert_eq!(
                schema.fields(ty.number).len(),
                ty.field_count().unwrap_or(0)
            );
        }
        for method in schema.methods() {
            let found = schema.method(method.package, method.service, method.method);
            assert_eq!(found, Some(method));
        }
    }
    let row = Row {
        type_number: random.below(12) as u32,
        place: random.below(40) as u32,
        length: random.below(12) as u32,
        count: random.below(3) as u32 / 2,
    };
    let _ = arf::scalar(&old, row, &random.bytes(40)).map_err(told);
}

fn records(random: &mut Random) {
    let record = random.record();
    let mut copy = vec![FILL; record.len()];
    let mut spans = vec![CELL; arf::SPAN_CELLS];
    let salvaged = arf::salvage(&record, &mut copy, &mut spans).unwrap();
    let entries: Vec<_> = arf::entries(&copy[..salvaged.bytes]).collect();
    assert_eq!(entries.len(), salvaged.entries);
    assert!(entries.iter().all(|entry| entry.is_ok()));
    assert!(spans[2 * salvaged.spans..].iter().all(|&cell| cell == CELL));
    let (mut short, mut few) = (vec![FILL; random.below(60)], vec![CELL; random.below(6)]);
    if let Err(refusal) = arf::salvage(&record, &mut short, &mut few) {
        told(refusal);
        assert!(short.iter().all(|&byte| byte == FILL) && few.iter().all(|&cell| cell == CELL));
    }
    let good = arf::entries(&record)
        .take_while(|entry| entry.is_ok())
        .count();
    assert!(good <= salvaged.entries);
}

fn calls(random: &mut Random) {
    let (schema, record) = (random.schema(), random.record());
    // Any records: good ones, and ones that are not.
    let mut table = CallTable::from_calls(&std::array::from_fn(|_| {
        let marks = random.next() >> random.below(64);
        Call {
            open: marks & 1 == 1,
            correlation: random.below(4) as u64,
            method: random.below(3) as u32,
            response: marks & 2 == 2,
            input_closed: marks & 4 == 4,
            output_closed: marks & 8 == 8,
            cancelled: marks & 16 == 16,
            input_elements: (marks >> 5) as u16 & 3,
            output_elements: (marks >> 7) as u16 & 3,
        }
    }));
    let methods = Schema::new(&schema).map_or(0, |schema| schema.methods().len());
    for table in [&mut table, &mut CallTable::fresh()] {
        let mut tallies = tallies(random, methods);
        let (mut sheet, mut rest) = (vec![CELL; 256], &record[..]);
        while let [side, bytes @ ..] = rest {
            let before = (*table, tallies.clone());
            let received = table.receive(&schema, *side, bytes, &mut sheet, &mut tallies);
            if let Outcome::Refused(refusal) = received.outcome {
                told(refusal);
            }
            if received.used == 0 {
                assert_eq!((*table, tallies.clone()), before);
                break;
            }
            rest = &bytes[received.used..];
        }
        let before = (*table, tallies.clone());
        let released = table.release(&schema, random.below(4) as u64, &mut tallies);
        if let Err(refusal) = released.outcome {
            told(refusal);
            assert_eq!((*table, tallies), before);
        }
    }
}

/// Mostly one row for each method, with figures that may be full.
fn tallies(random: &mut Random, methods: usize) -> Vec<Tally> {
    let rows = match random.below(4) {
        0 => random.below(4),
        _ => methods,
    };
    let mut figure = || u32::MAX >> random.below(40).min(31);
    let row = |_| Tally {
        opened: figure(),
        completed: figure(),
        errored: figure(),
        cancelled: figure(),
        failed: figure(),
    };
    (0..rows).map(row).collect()
}

fn indexes(random: &mut Random) {
    let (schema, record) = (random.schema(), random.record());
    let mut index = vec![FILL; random.below(200)];
    let result = arf::make_index(&schema, &record, &mut index);
    kept(&index, result);
    let mut index = vec![FILL; arf::MAX_INDEX];
    let Ok(length) = arf::make_index(&schema, &record, &mut index) else {
        return;
    };
    index.truncate(length);
    let mut rows = 0;
    for correlation in 0..20 {
        let found = arf::look_up(&index, &record, correlation).unwrap();
        rows += found.len();
        for row in found {
            let entry = arf::entry_at(&record, row.place).unwrap();
            assert_eq!(entry.header.correlation, correlation);
            let reason = Reason::from_number(row.answer);
            assert!(row.answer == 0 || reason.is_some());
        }
    }
    assert!(16 * rows + 16 <= length);

    // A byte of it changed, or none, and a text with much room or little.
    let at = random.below(index.len() as u64);
    index[at] = random.next() as u8;
    let correlation = random.below(10) as u64;
    let found = arf::look_up(&index, &record, correlation).map_err(told);
    let mut out = vec![FILL; random.below(600)];
    let text = arf::look_up_text(&index, &record, correlation, &mut out);
    let refused = text.outcome.err().and_then(|refusal| refusal.reason());
    if refused != Some(Reason::OutputTooShort) {
        let lines = out[..text.length].iter().filter(|&&byte| byte == b'\n');
        assert_eq!(lines.count(), found.map_or(0, |rows| rows.len()) + 2);
    }
    assert!(out[text.length..].iter().all(|&byte| byte == FILL));
}

fn connections(random: &mut Random) {
    let (schema, record) = (random.schema(), random.record());
    let Ok(schema) = Schema::new(&schema) else {
        return;
    };
    let mut connection = Calls::new(schema);
    let mut sheet = vec![CELL; 4 * random.below(40)];
    for entry in arf::entries(&record).map_while(Result::ok) {
        match connection.receive(entry.side, entry.frame, &mut sheet) {
            Step::Frame(frame) => {
                assert_eq!(
                    (frame.used, frame.header),
                    (entry.frame.len(), entry.header)
                );
                assert_eq!(&entry.frame[frame.payload], entry.payload);
                if let Some(reading) = frame.outcome.ok().filter(|reading| reading.rows > 0) {
                    let value = schema.shown(entry.payload, &sheet, reading);
                    drafted(&value, entry.payload);
                    descended(&value.rows().collect::<Vec<_>>());
                }
            }
            Step::Stopped { refusal, whole } => {
                assert_eq!(refusal.reason(), Some(Reason::SheetTooShort));
                assert_eq!(whole, Some(entry.frame.len()));
            }
            Step::More => panic!("an entry's frame is whole"),
        }
        let cut = &entry.frame[..entry.frame.len() - 1];
        assert_eq!(
            connection.receive(Side::Client, cut, &mut sheet),
            Step::More
        );
        for (method, row) in connection.tallies().iter().enumerate() {
            let open = connection.open_calls();
            let open = open.filter(|call| call.method as usize == method).count();
            assert_eq!(u64::from(row.opened), row.ended() + open as u64);
        }
    }
}

#[test]
fn any_bytes_are_answered_with_little_stack() {
    let cases = std::env::var("ARF_RANDOM_CASES").ok();
    let cases: u64 = cases.and_then(|cases| cases.parse().ok()).unwrap_or(4000);
    let run = move || {
        for seed in 0..cases {
            let random = &mut Random(seed);
            tables(random);
            payloads(random);
            no_values(random);
            writers(random);
            records(random);
            indexes(random);
            calls(random);
            connections(random);
        }
    };
    let thread = thread::Builder::new().stack_size(256 * 1024).spawn(run);
    thread.unwrap().join().unwrap();
}
