//! Records with holes: every entry that is whole is kept, the rest is listed.

use std::ops::Range;

use crate::frame::{read_frame, FrameAnswer};
use crate::listing::MAX_FILE;
use crate::refusal::Reason;

/// The cells of a listed span: its place and its length.
pub const SPAN_CELLS: usize = 2;

/// What a salvage made of a record.
#[derive(Clone, Copy, Debug, Default, PartialEq, Eq)]
pub struct Salvaged {
    /// How many entries were kept.
    pub kept: usize,
    /// How many bytes were copied, those of the entries.
    pub copied: usize,
    /// How many spans were left out and listed.
    pub spans: usize,
}

/// Copies every entry of a record that can be kept and lists the spans left
/// out. A refusal leaves both buffers untouched.
pub fn salvage(record: &[u8], copy: &mut [u8], list: &mut [u32]) -> Result<Salvaged, Reason> {
    if record.len() > MAX_FILE {
        return Err(Reason::RecordTooLong);
    }
    let entries = entries(record);
    let spans = between(&entries, record.len());
    let copied = entries.iter().map(Range::len).sum();
    let copy = copy.get_mut(..copied).ok_or(Reason::OutputTooSmall)?;
    let cells = SPAN_CELLS * spans.len();
    let list = list.get_mut(..cells).ok_or(Reason::ListTooSmall)?;
    let (kept, listed) = (entries.len(), spans.len());
    let bytes = entries.into_iter().flat_map(|entry| &record[entry]);
    for (to, byte) in copy.iter_mut().zip(bytes) {
        *to = *byte;
    }
    for (row, span) in list.chunks_exact_mut(SPAN_CELLS).zip(spans) {
        row[0] = span.start as u32;
        row[1] = span.len() as u32;
    }
    Ok(Salvaged {
        kept,
        copied,
        spans: listed,
    })
}

/// The length of the entry at the front of the bytes: a side byte, C or S, and
/// a whole frame. The side need not suit the frame's kind.
fn entry_length(bytes: &[u8]) -> Option<usize> {
    let [b'C' | b'S', frame @ ..] = bytes else {
        return None;
    };
    match read_frame(frame) {
        FrameAnswer::Whole(frame) => Some(1 + frame.length()),
        FrameAnswer::MoreNeeded | FrameAnswer::Refused(_) => None,
    }
}

/// The entries that can be kept, in order. After an entry the next place is
/// its end; where none starts, the next place is one byte on.
fn entries(record: &[u8]) -> Vec<Range<usize>> {
    let mut entries = Vec::new();
    let mut place = 0;
    while place < record.len() {
        match entry_length(&record[place..]) {
            Some(length) => {
                entries.push(place..place + length);
                place += length;
            }
            None => place += 1,
        }
    }
    entries
}

/// What lies before, between and after the entries, where that is not empty.
fn between(entries: &[Range<usize>], end: usize) -> Vec<Range<usize>> {
    let starts = entries.iter().map(|entry| entry.start).chain([end]);
    let ends = [0].into_iter().chain(entries.iter().map(|entry| entry.end));
    let gaps = ends.zip(starts).map(|(from, to)| from..to);
    gaps.filter(|gap| !gap.is_empty()).collect()
}
