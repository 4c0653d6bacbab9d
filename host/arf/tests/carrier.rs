//! The carrier of `examples/` has added a price to its receipts. By our schema
//! file alone such a receipt is refused where it stands inside a batch; with the
//! carrier's new file beside ours the batch is shown without the prices.

use std::fs;
use std::path::Path;

/// The type number of a batch of receipts, in both files.
const BATCH: u32 = 8;

fn example(name: &str) -> Vec<u8> {
    let folder = Path::new(env!("CARGO_MANIFEST_DIR")).join("../../examples");
    fs::read(folder.join(name)).expect("the example is there")
}

/// The payloads of a record's frames of a kind: an entry is a side byte and a
/// frame.
fn payloads(mut record: &[u8], of_kind: u32) -> Vec<Vec<u8>> {
    let mut found = Vec::new();
    while let Some((_, bytes)) = record.split_first() {
        let Ok(arf::FrameRead::Whole {
            header,
            place,
            length,
        }) = arf::read_frame(bytes)
        else {
            panic!("the record has whole frames");
        };
        if header.kind == of_kind {
            found.push(bytes[place..place + length].to_vec());
        }
        record = &bytes[place + length..];
    }
    found
}

#[test]
fn prices_are_left_out_and_nothing_else() {
    let (ours, theirs) = (example("carrier.schema"), example("priced.schema"));
    assert_eq!(arf::extends(&ours, &theirs), Ok(true));
    let batches = payloads(&example("added.record"), 4);
    let priced = &batches[1];

    let mut sheet = [0; 64];
    let refused = arf::read(&ours, BATCH, priced, &mut sheet).unwrap_err();
    assert_eq!((refused.number, refused.place), (26, 20));
    assert_eq!(sheet, [0; 64]);

    // By the carrier's own file the second receipt has a row more, its price.
    let mut all = [0; 64];
    let reading = arf::read(&theirs, BATCH, priced, &mut all).unwrap();
    assert_eq!((reading.rows, reading.tail_length), (12, 0));
    assert_eq!(all[40..44], [2, 38, 1, 0]);

    let reading = arf::read_beside(&ours, &theirs, BATCH, priced, &mut sheet).unwrap();
    assert_eq!((reading.rows, reading.tail_length), (11, 0));
    let rows: Vec<_> = sheet.chunks(4).take(11).collect();
    // The second receipt is as long as it was written, and counts three fields.
    let receipts: Vec<_> = rows.iter().filter(|row| row[0] == 6).collect();
    assert_eq!(receipts[0][1..], [2, 18, 3]);
    assert_eq!(receipts[1][1..], [20, 19, 3]);
    assert!(sheet[44..].iter().all(|&cell| cell == 0));

    // The plain writer by our file looks at the presence bits, and has no field
    // for the price's.
    let mut out = [0; 64];
    let refused = arf::write(&ours, BATCH, &sheet[..44], priced, &mut out).unwrap_err();
    assert_eq!((refused.number, refused.place), (50, 6));
}
