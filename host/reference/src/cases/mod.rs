//! Case files: a plain binary format of inputs, and one line of answers each.
//!
//! A case is a code byte and the inputs of one entry. Its answer is a line of
//! decimal numbers; a run has a line a frame, a history a line an event.

mod beside;
mod entries;
mod format;
mod forward;
mod histories;
mod listings;
mod records;
mod value_frame;

pub use beside::BesideCase;
pub use entries::{
    ExtendsCase, FrameCase, FrameWriteCase, ReadCase, ReceiveCase, RunCase, ScalarCase, TableCase,
    WriteCase, BYTE_FILL, CELL_FILL,
};
pub use format::{
    call_table_sum, line, sheet_sum, sum, tally_sum, Event, Sent, MAX_BYTES, MAX_CELLS, MAX_FRAMES,
    MAX_OUTPUT, MAX_TALLIES,
};

pub use forward::ForwardCase;
pub use histories::{HistoryCase, ReleaseCase};
pub use listings::{list_file, put_listings, ListingCase};
pub use records::{IndexCase, LookUpCase, SalvageCase};
pub use value_frame::ValueFrameCase;

use entries::Entry;
use format::Input;

/// One case: the inputs of one entry.
#[derive(Clone, Debug, PartialEq, Eq)]
pub enum Case {
    Table(TableCase),
    Extends(ExtendsCase),
    Read(ReadCase),
    Scalar(ScalarCase),
    Write(WriteCase),
    Frame(FrameCase),
    FrameWrite(FrameWriteCase),
    Run(RunCase),
    Receive(ReceiveCase),
    Release(ReleaseCase),
    History(HistoryCase),
    ValueFrame(ValueFrameCase),
    Beside(BesideCase),
    Forward(ForwardCase),
    Salvage(SalvageCase),
    Index(IndexCase),
    LookUp(LookUpCase),
}

impl Case {
    /// The number that stands for the entry in a case file.
    pub const fn code(&self) -> u8 {
        match self {
            Case::Table(_) => 1,
            Case::Extends(_) => 2,
            Case::Read(_) => 3,
            Case::Scalar(_) => 4,
            Case::Write(_) => 5,
            Case::Frame(_) => 6,
            Case::FrameWrite(_) => 7,
            Case::Run(_) => 8,
            Case::Receive(_) => 9,
            Case::Release(_) => 10,
            Case::History(_) => 11,
            Case::ValueFrame(_) => 15,
            Case::Beside(_) => 16,
            Case::Forward(_) => 18,
            Case::Salvage(_) => 17,
            Case::Index(_) => 19,
            Case::LookUp(_) => 20,
        }
    }

    fn entry(&self) -> &dyn Entry {
        match self {
            Case::Table(case) => case,
            Case::Extends(case) => case,
            Case::Read(case) => case,
            Case::Scalar(case) => case,
            Case::Write(case) => case,
            Case::Frame(case) => case,
            Case::FrameWrite(case) => case,
            Case::Run(case) => case,
            Case::Receive(case) => case,
            Case::Release(case) => case,
            Case::History(case) => case,
            Case::ValueFrame(case) => case,
            Case::Beside(case) => case,
            Case::Forward(case) => case,
            Case::Salvage(case) => case,
            Case::Index(case) => case,
            Case::LookUp(case) => case,
        }
    }

    /// Takes the next case, or none if it is cut, unknown or beyond a limit.
    fn take(input: &mut Input) -> Option<Case> {
        Some(match input.u8()? {
            1 => Case::Table(TableCase::take(input)?),
            2 => Case::Extends(ExtendsCase::take(input)?),
            3 => Case::Read(ReadCase::take(input)?),
            4 => Case::Scalar(ScalarCase::take(input)?),
            5 => Case::Write(WriteCase::take(input)?),
            6 => Case::Frame(FrameCase::take(input)?),
            7 => Case::FrameWrite(FrameWriteCase::take(input)?),
            8 => Case::Run(RunCase::take(input)?),
            9 => Case::Receive(ReceiveCase::take(input)?),
            10 => Case::Release(ReleaseCase::take(input)?),
            11 => Case::History(HistoryCase::take(input)?),
            15 => Case::ValueFrame(ValueFrameCase::take(input)?),
            16 => Case::Beside(BesideCase::take(input)?),
            18 => Case::Forward(ForwardCase::take(input)?),
            17 => Case::Salvage(SalvageCase::take(input)?),
            19 => Case::Index(IndexCase::take(input)?),
            20 => Case::LookUp(LookUpCase::take(input)?),
            _ => return None,
        })
    }

    /// Adds the case to a case file.
    pub fn put(&self, out: &mut Vec<u8>) {
        out.push(self.code());
        self.entry().put(out);
    }

    /// Runs the case and adds its line, or lines, to the text.
    pub fn answer(&self, text: &mut String) {
        self.entry().answer(text);
    }

    /// The number of each answer: one, or one a frame or event.
    pub fn numbers(&self) -> Vec<u32> {
        let mut text = String::new();
        self.answer(&mut text);
        let first = |line: &str| line.split(' ').next()?.parse().ok();
        text.lines().filter_map(first).collect()
    }
}

/// Reads a whole case file; none if a case is cut, unknown or beyond a limit.
pub fn read_file(bytes: &[u8]) -> Option<Vec<Case>> {
    let mut input = Input::new(bytes);
    let mut cases = Vec::new();
    while !input.is_empty() {
        cases.push(Case::take(&mut input)?);
    }
    Some(cases)
}

/// Answers a whole case file. A cut case, an unknown code or a case beyond the
/// limits gives the line `cut` and ends the answers.
pub fn answer_file(bytes: &[u8]) -> String {
    let mut input = Input::new(bytes);
    let mut text = String::new();
    while !input.is_empty() {
        let Some(case) = Case::take(&mut input) else {
            text.push_str("cut\n");
            break;
        };
        case.answer(&mut text);
    }
    text
}
