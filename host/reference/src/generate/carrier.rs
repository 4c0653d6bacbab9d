//! A carrier of notices, as an example: its schema file and some records of
//! what went over its line, with their listings.
//!
//! The carrier sends a notice to a telephone number, answers with a ticket, and
//! later streams receipts, in batches, that say what became of each ticket.

use super::frames::frame_bytes;
use super::listings::worked_example;
use super::table::{Table, ARRAY, STRING};
use super::value::varuint;
use crate::frame::{Header, Kind};
use crate::list;
use crate::schema::NO_TYPE;

const BOOL: u32 = 1;
const UINT8: u32 = 6;
const UINT64: u32 = 9;

/// A file's name and its bytes.
type NamedFile = (String, Vec<u8>);

/// A method of the carrier: its package, service and method number.
type Method = [u32; 3];

/// A notice in, a ticket out.
const SEND: Method = [7, 1, 1];
/// A span of time in, a ticket out, then batches of receipts.
const RECEIPTS: Method = [7, 1, 2];

/// The outcomes of a notice.
const READ_OUT: u8 = 1;
const NO_ANSWER: u8 = 2;
const NUMBER_UNKNOWN: u8 = 3;

/// The schema file.
fn schema() -> Vec<u8> {
    let mut table = Table::default();
    let text = table.add_type(STRING, 0, 0);
    let long = table.add_type(UINT64, 0, 0);
    let byte = table.add_type(UINT8, 0, 0);
    let flag = table.add_type(BOOL, 0, 0);
    // number, text, language
    let notice = table.add_struct(&[[text, 0], [text, 0], [text, 1]]);
    // ticket, remark
    let accepted = table.add_struct(&[[long, 0], [text, 1]]);
    // ticket, outcome, time, remark
    let receipt = table.add_struct(&[[long, 0], [byte, 0], [long, 0], [text, 1]]);
    let receipts = table.add_type(ARRAY, receipt, 0);
    // receipts, whether more follow
    let batch = table.add_struct(&[[receipts, 0], [flag, 1]]);
    // from, to
    let span = table.add_struct(&[[long, 0], [long, 0]]);
    let method = |[package, service, number]: Method, form, output_stream| {
        let input = if number == SEND[2] { notice } else { span };
        [
            package,
            service,
            number,
            form,
            input,
            accepted,
            NO_TYPE,
            output_stream,
        ]
    };
    table.methods = vec![method(SEND, 12, NO_TYPE), method(RECEIPTS, 13, batch)];
    table.bytes()
}

fn string(text: &str) -> Vec<u8> {
    let mut bytes = varuint(text.len() as u64);
    bytes.extend(text.as_bytes());
    bytes
}

fn notice(number: &str, text: &str) -> Vec<u8> {
    [vec![0b011], string(number), string(text)].concat()
}

fn ticket(number: u64) -> Vec<u8> {
    [vec![0b01], number.to_le_bytes().to_vec()].concat()
}

fn span(from: u64, to: u64) -> Vec<u8> {
    let times = [from, to].map(u64::to_le_bytes);
    [vec![0b11], times.concat()].concat()
}

/// A receipt whose fields are those of the schema.
fn receipt(ticket: u64, outcome: u8, time: u64) -> Vec<u8> {
    let ticket = ticket.to_le_bytes().to_vec();
    [
        vec![0b0111],
        ticket,
        vec![outcome],
        time.to_le_bytes().to_vec(),
    ]
    .concat()
}

/// A receipt with a fifth field, the price, which the schema does not have.
fn priced(ticket: u64, outcome: u8, time: u64, price: u8) -> Vec<u8> {
    let mut bytes = receipt(ticket, outcome, time);
    bytes[0] |= 0b1_0000;
    bytes.push(price);
    bytes
}

fn batch(receipts: &[Vec<u8>], more: bool) -> Vec<u8> {
    let mut bytes = vec![0b11];
    bytes.extend(varuint(receipts.len() as u64));
    bytes.extend(receipts.concat());
    bytes.push(more.into());
    bytes
}

/// A record in the making: entries of a side byte and a frame.
#[derive(Default)]
struct Record {
    bytes: Vec<u8>,
}

impl Record {
    /// An entry from the side that its kind belongs to.
    fn add(self, kind: Kind, method: Method, call: u64, payload: &[u8]) -> Record {
        self.add_from(kind.side(), kind, method, call, payload)
    }

    fn add_from(
        mut self,
        side: u8,
        kind: Kind,
        method: Method,
        call: u64,
        payload: &[u8],
    ) -> Record {
        let header = Header {
            kind: kind as u32,
            identifiers: method,
            correlation: call,
        };
        self.bytes.push(side);
        self.bytes.extend(frame_bytes(&header, payload));
        self
    }
}

/// Two notices, and the receipts of a morning in two batches.
fn day() -> Record {
    let first = [
        receipt(501, READ_OUT, 1_700_000_120),
        receipt(502, NO_ANSWER, 1_700_000_190),
        receipt(503, READ_OUT, 1_700_000_260),
    ];
    let second = [receipt(504, NUMBER_UNKNOWN, 1_700_000_300)];
    Record::default()
        .add(
            Kind::Invoke,
            SEND,
            1,
            &notice("+4930123", "Your parcel is at the shop."),
        )
        .add(Kind::Response, SEND, 1, &ticket(501))
        .add(
            Kind::Invoke,
            SEND,
            2,
            &notice("+4930124", "Please call back."),
        )
        .add(
            Kind::Invoke,
            RECEIPTS,
            3,
            &span(1_700_000_000, 1_700_003_600),
        )
        .add(Kind::Response, RECEIPTS, 3, &ticket(900))
        .add(Kind::OutStream, RECEIPTS, 3, &batch(&first, true))
        .add(Kind::Response, SEND, 2, &ticket(502))
        .add(Kind::OutStream, RECEIPTS, 3, &batch(&second, false))
        .add(Kind::OutClose, RECEIPTS, 3, &[])
}

/// A client that has seen enough receipts; one more batch is on its way. The
/// carrier's ERROR ends the call, and its number is used again.
fn cancelled() -> Record {
    let some = [receipt(501, READ_OUT, 1_700_000_120)];
    Record::default()
        .add(
            Kind::Invoke,
            RECEIPTS,
            4,
            &span(1_700_000_000, 1_700_086_400),
        )
        .add(Kind::Response, RECEIPTS, 4, &ticket(901))
        .add(Kind::OutStream, RECEIPTS, 4, &batch(&some, true))
        .add(Kind::Cancel, RECEIPTS, 4, &[])
        .add(Kind::OutStream, RECEIPTS, 4, &batch(&some, true))
        .add(
            Kind::Invoke,
            RECEIPTS,
            4,
            &span(1_700_086_400, 1_700_172_800),
        )
        .add(Kind::Error, RECEIPTS, 4, b"cancelled")
        .add(
            Kind::Invoke,
            RECEIPTS,
            4,
            &span(1_700_086_400, 1_700_172_800),
        )
}

/// A notice whose text is no UTF-8, and a record that ends within a frame.
fn damaged() -> Record {
    let mut bad = notice("+4930125", "Good morning.");
    if let Some(last) = bad.last_mut() {
        *last = 0xFF;
    }
    let mut record = Record::default()
        .add(Kind::Invoke, SEND, 5, &notice("+4930125", "Good morning."))
        .add(Kind::Response, SEND, 5, &ticket(505))
        .add(Kind::Invoke, SEND, 6, &bad)
        .add(Kind::Response, SEND, 6, &ticket(506))
        .add(Kind::Invoke, SEND, 7, &notice("+4930126", "Good evening."));
    record.bytes.truncate(record.bytes.len() - 9);
    record
}

/// The carrier has added a price to its receipts and said nothing of it.
fn added() -> Record {
    let plain = [receipt(501, READ_OUT, 1_700_000_120)];
    let mixed = [
        receipt(502, READ_OUT, 1_700_000_190),
        priced(503, READ_OUT, 1_700_000_260, 12),
    ];
    Record::default()
        .add(
            Kind::Invoke,
            RECEIPTS,
            8,
            &span(1_700_000_000, 1_700_003_600),
        )
        .add(Kind::Response, RECEIPTS, 8, &ticket(902))
        .add(Kind::OutStream, RECEIPTS, 8, &batch(&plain, true))
        .add(Kind::OutStream, RECEIPTS, 8, &batch(&mixed, true))
        .add(Kind::OutStream, RECEIPTS, 8, &batch(&plain, false))
        .add(Kind::OutClose, RECEIPTS, 8, &[])
}

/// Frames that come too early, twice, from the wrong side, or for no method;
/// then a side that is neither C nor S.
fn disorder() -> Record {
    let some = [receipt(501, READ_OUT, 1_700_000_120)];
    let hello = notice("+4930127", "Hello.");
    Record::default()
        .add(
            Kind::Invoke,
            RECEIPTS,
            9,
            &span(1_700_000_000, 1_700_003_600),
        )
        .add(Kind::OutStream, RECEIPTS, 9, &batch(&some, false))
        .add(Kind::Response, RECEIPTS, 9, &ticket(903))
        .add(Kind::Response, RECEIPTS, 9, &ticket(903))
        .add(Kind::Invoke, SEND, 9, &hello)
        .add_from(b'S', Kind::Invoke, SEND, 10, &hello)
        .add(Kind::Invoke, [7, 1, 4], 11, &hello)
        .add(Kind::OutStream, SEND, 9, &batch(&some, false))
        .add(Kind::OutClose, RECEIPTS, 9, b"bye")
        .add_from(b'X', Kind::Invoke, SEND, 12, &hello)
}

/// A record and its listing.
fn add_record(files: &mut Vec<NamedFile>, name: &str, schema: &[u8], record: Vec<u8>) {
    let listing = list(schema, &record).into_bytes();
    files.push((format!("{name}.record"), record));
    files.push((format!("{name}.listing"), listing));
}

/// Every file of the examples with its name: the carrier's, and those of the
/// worked example of the rules.
pub fn files() -> Vec<NamedFile> {
    let schema = schema();
    let records = [
        ("day", day()),
        ("cancelled", cancelled()),
        ("damaged", damaged()),
        ("added", added()),
        ("disorder", disorder()),
    ];
    let mut files = vec![("carrier.schema".to_string(), schema.clone())];
    for (name, record) in records {
        add_record(&mut files, name, &schema, record.bytes);
    }
    let example = worked_example();
    files.push(("worked.schema".to_string(), example.schema.clone()));
    add_record(&mut files, "worked", &example.schema, example.record);
    files
}
