//! The cases of releases, and of connections with frames and releases.

use super::entries::{receive, Entry};
use super::format::{
    call_table_sum, line, put_bytes, put_call_table, put_tallies, put_words, tally_sum, Event,
    Input, MAX_CELLS,
};
use crate::calls::CallTable;
use crate::tallies::{self, Tally};

/// One release, as its line begins: number, place, open.
fn release(
    table: &mut CallTable,
    tallies: &mut [Tally],
    schema: &[u8],
    correlation: u64,
) -> Vec<u64> {
    let released = table.release(schema, tallies, correlation);
    vec![
        released.number().into(),
        released.place().into(),
        released.open as u64,
    ]
}

/// Code 10: a release against any call table.
#[derive(Clone, Debug, PartialEq, Eq)]
pub struct ReleaseCase {
    pub schema: Vec<u8>,
    pub table: Box<CallTable>,
    pub tallies: Vec<Tally>,
    pub correlation: u64,
}

impl Entry for ReleaseCase {
    fn take(input: &mut Input) -> Option<Self> {
        Some(ReleaseCase {
            schema: input.bytes()?,
            table: input.call_table()?,
            tallies: input.tallies()?,
            correlation: input.u64()?,
        })
    }

    fn put(&self, out: &mut Vec<u8>) {
        put_bytes(out, &self.schema);
        put_call_table(out, &self.table);
        put_tallies(out, &self.tallies);
        out.extend(self.correlation.to_le_bytes());
    }

    fn answer(&self, text: &mut String) {
        let mut table = self.table.clone();
        let mut tallies = self.tallies.clone();
        let mut numbers = release(&mut table, &mut tallies, &self.schema, self.correlation);
        numbers.extend([call_table_sum(&table), tally_sum(&tallies)]);
        line(text, &numbers);
    }
}

/// Code 11: frames and releases from the fresh call table.
#[derive(Clone, Debug, PartialEq, Eq)]
pub struct HistoryCase {
    pub schema: Vec<u8>,
    pub cells: usize,
    pub events: Vec<Event>,
}

impl Entry for HistoryCase {
    fn take(input: &mut Input) -> Option<Self> {
        Some(HistoryCase {
            schema: input.bytes()?,
            cells: input.limited(MAX_CELLS)?,
            events: input.events()?,
        })
    }

    fn put(&self, out: &mut Vec<u8>) {
        put_bytes(out, &self.schema);
        put_words(out, &[self.cells as u32, self.events.len() as u32]);
        for event in &self.events {
            match event {
                Event::Frame((side, data)) => {
                    out.extend([0, *side]);
                    put_bytes(out, data);
                }
                Event::Release(correlation) => {
                    out.push(1);
                    out.extend(correlation.to_le_bytes());
                }
            }
        }
    }

    fn answer(&self, text: &mut String) {
        let mut table = CallTable::fresh();
        let mut tallies = tallies::fresh(&self.schema);
        for event in &self.events {
            let mut numbers = match event {
                Event::Frame((side, data)) => {
                    let sent = (*side, &data[..]);
                    receive(&mut table, &mut tallies, &self.schema, self.cells, sent)
                }
                Event::Release(correlation) => {
                    release(&mut table, &mut tallies, &self.schema, *correlation)
                }
            };
            numbers.push(tally_sum(&tallies));
            line(text, &numbers);
        }
    }
}
