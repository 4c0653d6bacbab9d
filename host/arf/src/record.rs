//! Records: side bytes and frames, one after the other.

use crate::refusal::answer;
use crate::{ffi, read_frame, FrameRead, Header, Refusal, Side};

/// What a salvage made of a record.
#[derive(Clone, Copy, Debug, Default, PartialEq, Eq)]
pub struct Salvaged {
    /// How many entries were kept.
    pub entries: usize,
    /// How many bytes were copied, those of the entries.
    pub bytes: usize,
    /// How many spans were left out, each listed by two cells.
    pub spans: usize,
}

/// Copies every entry of a torn record that can be kept to the front of `copy`,
/// and lists the spans left out at the front of `spans`, the place and the
/// length of each. An entry is a side byte, C or S, and a whole frame. Kept
/// entries and spans are the record, in order. A refusal leaves both buffers as
/// they were.
///
/// A copy as long as the record and [`SPAN_CELLS`](crate::SPAN_CELLS) cells are enough for any
/// record of at most [`MAX_RECORD`](crate::MAX_RECORD) bytes.
///
/// ```
/// let header = arf::Header { kind: 3, ..Default::default() };
/// let mut record = vec![b'C'; 27];
/// arf::write_frame(&header, &[], &mut record[1..]).unwrap();
/// let entry = record.clone();
/// // The next entry was torn off.
/// record.extend(&entry[..9]);
///
/// let mut copy = vec![0; record.len()];
/// let mut spans = vec![0; arf::SPAN_CELLS];
/// let salvaged = arf::salvage(&record, &mut copy, &mut spans).unwrap();
/// assert_eq!((salvaged.entries, salvaged.spans), (1, 1));
/// assert_eq!(copy[..salvaged.bytes], entry);
/// assert_eq!(spans[..2], [27, 9]);
///
/// let refused = arf::salvage(&record, &mut copy, &mut []).unwrap_err();
/// assert_eq!(refused.to_string(), "53 at 0: the list of spans is too small");
/// ```
pub fn salvage(record: &[u8], copy: &mut [u8], spans: &mut [u32]) -> Result<Salvaged, Refusal> {
    let mut cells = [0; 3];
    let number = ffi::salvage(record, copy, spans, &mut cells);
    let [entries, bytes, spans] = cells.map(|cell| cell as usize);
    let salvaged = Salvaged {
        entries,
        bytes,
        spans,
    };
    answer(number, 0, salvaged)
}

/// An entry of a record.
#[derive(Clone, Copy, Debug, PartialEq, Eq)]
pub struct Entry<'a> {
    /// Where its side byte is in the record.
    pub place: usize,
    /// Who sent its frame.
    pub side: Side,
    /// The frame's header.
    pub header: Header,
    /// The frame, as [`CallTable::receive`](crate::CallTable::receive) takes it.
    pub frame: &'a [u8],
    /// The frame's payload.
    pub payload: &'a [u8],
}

/// The entries of a record, in order; see [`entries`].
#[derive(Clone, Debug)]
pub struct Entries<'a> {
    record: &'a [u8],
    at: usize,
    ended: bool,
}

/// The entries of a record, in order. Where none starts, the iterator gives a
/// refusal with the place in the record, and ends: 2 to 7 for bytes that are no
/// frame, 1 for a frame that is cut, 8 for a side byte that is neither C nor S.
///
/// ```
/// let header = arf::Header { kind: 3, correlation: 9, ..Default::default() };
/// let mut record = vec![b'C'; 27];
/// arf::write_frame(&header, &[], &mut record[1..]).unwrap();
/// record.extend(b"torn");
///
/// let mut entries = arf::entries(&record);
/// let entry = entries.next().unwrap().unwrap();
/// assert_eq!((entry.side, entry.header), (arf::Side::Client, header));
/// let refused = entries.next().unwrap().unwrap_err();
/// assert_eq!((refused.number, refused.place), (2, 27));
/// assert!(entries.next().is_none());
/// ```
pub fn entries(record: &[u8]) -> Entries<'_> {
    Entries {
        record,
        at: 0,
        ended: false,
    }
}

/// The entry at a place of a record, as a [row](crate::IndexRow) of its index
/// names it. The refusals are those of [`entries`], with that place.
///
/// ```
/// let header = arf::Header { kind: 3, correlation: 9, ..Default::default() };
/// let mut record = vec![0; 27];
/// record.push(b'C');
/// record.extend([0; 26]);
/// arf::write_frame(&header, &[], &mut record[28..]).unwrap();
///
/// let entry = arf::entry_at(&record, 27).unwrap();
/// assert_eq!((entry.place, entry.header), (27, header));
/// assert_eq!(arf::entry_at(&record, 54).unwrap_err().number, 1);
/// ```
pub fn entry_at(record: &[u8], place: usize) -> Result<Entry<'_>, Refusal> {
    let refused = |number| Refusal { number, place };
    let rest = record.get(place..).and_then(|rest| rest.split_first());
    let (&side, bytes) = rest.ok_or(refused(1))?;
    match read_frame(bytes) {
        Err(refusal) => Err(refused(refusal.number)),
        Ok(FrameRead::More) => Err(refused(1)),
        Ok(FrameRead::Whole {
            header,
            place: start,
            length,
        }) => Ok(Entry {
            place,
            side: Side::try_from(side).map_err(|_| refused(8))?,
            header,
            frame: &bytes[..start + length],
            payload: &bytes[start..start + length],
        }),
    }
}

impl<'a> Iterator for Entries<'a> {
    type Item = Result<Entry<'a>, Refusal>;

    fn next(&mut self) -> Option<Self::Item> {
        if self.ended || self.at >= self.record.len() {
            return None;
        }
        let entry = entry_at(self.record, self.at);
        match entry {
            Ok(entry) => self.at += 1 + entry.frame.len(),
            Err(_) => self.ended = true,
        }
        Some(entry)
    }
}

impl core::iter::FusedIterator for Entries<'_> {}
