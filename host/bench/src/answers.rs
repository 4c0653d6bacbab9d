//! What a call answers and leaves behind, in numbers that all sides share, so
//! that only calls are timed of which all of them are equal.

use reference::cases::{BYTE_FILL, CELL_FILL};

use crate::measure::Room;

/// Something that is told in numbers.
pub trait Told {
    fn tell(&self, numbers: &mut Vec<u64>);
}

/// The members of a struct, in the same order for all sides.
macro_rules! told {
    ($side:ty: $($member:ident)*) => {
        impl Told for $side {
            fn tell(&self, numbers: &mut Vec<u64>) {
                numbers.extend([$(self.$member as u64),*]);
            }
        }
    };
}

/// What all sides name alike.
macro_rules! named_alike {
    ($($side:ident)*) => {
        $(
            told!($side::Reading: rows tail_place tail_length comparisons);
            told!($side::Call:
                open correlation method response input_closed output_closed cancelled
                input_elements output_elements);
        )*
    };
}

named_alike!(arf fast reference);
told!(arf::Refusal: number place);
told!(fast::Refusal: number place);
told!(arf::Salvaged: entries bytes spans);
told!(reference::Salvaged: kept copied spans);
told!(arf::Tally: opened completed errored cancelled failed);
told!(reference::Tally: opened completed errored cancelled failed);

impl Told for reference::Refusal {
    fn tell(&self, numbers: &mut Vec<u64>) {
        numbers.extend([self.number(), self.place].map(u64::from));
    }
}

/// A refusal at place 0.
impl Told for reference::Reason {
    fn tell(&self, numbers: &mut Vec<u64>) {
        numbers.extend([self.number(), 0].map(u64::from));
    }
}

impl Told for fast::Tally {
    fn tell(&self, numbers: &mut Vec<u64>) {
        numbers.extend(self.0.map(u64::from));
    }
}

impl Told for () {
    fn tell(&self, _: &mut Vec<u64>) {}
}

/// A length, a cell of a sheet, a byte.
macro_rules! number {
    ($($number:ty)*) => {
        $(impl Told for $number {
            fn tell(&self, numbers: &mut Vec<u64>) {
                numbers.push(*self as u64);
            }
        })*
    };
}

number!(usize u32 u8);

/// 0 and 0 with what is answered, or the number and the place of a refusal.
impl<A: Told, R: Told> Told for Result<A, R> {
    fn tell(&self, numbers: &mut Vec<u64>) {
        match self {
            Ok(answer) => {
                numbers.extend([0, 0]);
                answer.tell(numbers);
            }
            Err(refusal) => refusal.tell(numbers),
        }
    }
}

/// A frame's header, and the place and length of its payload.
fn tell_frame(numbers: &mut Vec<u64>, header: reference::Header, payload: [usize; 2]) {
    numbers.extend([u64::from(header.kind), header.correlation]);
    numbers.extend(header.identifiers.map(u64::from));
    numbers.extend(payload.map(|number| number as u64));
}

/// Nothing where more bytes are needed.
impl Told for arf::FrameRead {
    fn tell(&self, numbers: &mut Vec<u64>) {
        if let arf::FrameRead::Whole {
            header,
            place,
            length,
        } = *self
        {
            let header = reference::Header {
                kind: header.kind,
                identifiers: [header.package, header.service, header.method],
                correlation: header.correlation,
            };
            tell_frame(numbers, header, [place, length]);
        }
    }
}

impl Told for fast::FrameAnswer {
    fn tell(&self, numbers: &mut Vec<u64>) {
        match *self {
            fast::FrameAnswer::More => numbers.extend([0, 0]),
            fast::FrameAnswer::Refused(number) => numbers.extend([number, 0].map(u64::from)),
            fast::FrameAnswer::Whole(frame) => {
                numbers.extend([0, 0]);
                let header = reference::Header {
                    kind: frame.kind.into(),
                    identifiers: frame.identifiers,
                    correlation: frame.correlation,
                };
                tell_frame(numbers, header, [frame.place, frame.length]);
            }
        }
    }
}

impl Told for reference::FrameAnswer {
    fn tell(&self, numbers: &mut Vec<u64>) {
        match self {
            reference::FrameAnswer::MoreNeeded => numbers.extend([0, 0]),
            reference::FrameAnswer::Refused(reason) => reason.tell(numbers),
            reference::FrameAnswer::Whole(frame) => {
                numbers.extend([0, 0]);
                let payload = [frame.payload_place, frame.payload_length];
                tell_frame(numbers, frame.header, payload);
            }
        }
    }
}

/// The numbers of an answer to a frame: 0 or the refusal with its place and the
/// reading, the bytes used, and the calls open afterwards.
macro_rules! received {
    ($($side:ident $more:ident)*) => {
        $(impl Told for $side::Received {
            fn tell(&self, numbers: &mut Vec<u64>) {
                match self.outcome {
                    $side::Outcome::Accepted(reading) => {
                        numbers.extend([0, 0]);
                        reading.tell(numbers);
                    }
                    $side::Outcome::$more => numbers.extend([1, 0]),
                    $side::Outcome::Refused(refusal) => refusal.tell(numbers),
                }
                numbers.extend([self.used as u64, self.open as u64]);
            }
        })*
    };
}

received!(arf More fast More reference MoreNeeded);

/// All that one side answers to a call and leaves behind: numbers under the
/// name of what has them, the answer first.
pub struct Answer {
    side: &'static str,
    parts: Vec<(&'static str, Vec<u64>)>,
}

impl Answer {
    /// The answer of a call, and every cell and byte of what was lent to it,
    /// which is filled with something else before.
    pub fn of<A: Told>(
        side: &'static str,
        room: Room,
        call: impl FnOnce(&mut [u32], &mut [u8]) -> A,
    ) -> Self {
        let mut sheet = vec![CELL_FILL; room.cells];
        let mut output = vec![BYTE_FILL; room.bytes];
        let answer = call(&mut sheet, &mut output);
        let parts = Vec::new();
        let answers = Answer { side, parts }.with("answer", &[answer]);
        answers.with("sheet", &sheet).with("output", &output)
    }

    /// The same, with the numbers of something else that the call changes.
    pub fn with(mut self, name: &'static str, items: &[impl Told]) -> Self {
        let mut numbers = Vec::new();
        items.iter().for_each(|item| item.tell(&mut numbers));
        self.parts.push((name, numbers));
        self
    }

    /// Where another side's numbers differ, in words.
    fn difference(&self, other: &Answer) -> Option<String> {
        let parts = self.parts.iter().zip(&other.parts);
        let (part, other_part) = parts.clone().find(|(part, other)| part != other)?;
        let ((name, ours), (_, theirs)) = (part, other_part);
        let place = ours.iter().zip(theirs).position(|(a, b)| a != b);
        let place = place.unwrap_or(ours.len().min(theirs.len()));
        let number = |numbers: &[u64]| match numbers.get(place) {
            Some(number) => number.to_string(),
            None => "none".into(),
        };
        let (side, other) = (self.side, other.side);
        let (number, expected) = (number(ours), number(theirs));
        Some(format!(
            "{side} and {other} differ in number {place} of the {name}: {number} and {expected}"
        ))
    }
}

/// Holds every side's answer against the last one's, which has to be
/// accepted. What is told otherwise is the difference.
pub fn agree<const N: usize>(answers: &[Answer; N]) -> Result<(), String> {
    let [others @ .., expected] = &answers[..] else {
        return Ok(());
    };
    let number = expected
        .parts
        .first()
        .and_then(|(_, numbers)| numbers.first());
    if let Some(number @ 1..) = number {
        return Err(format!("{} answers {number}", expected.side));
    }
    let mut differences = others.iter().filter_map(|other| other.difference(expected));
    differences.next().map_or(Ok(()), Err)
}

#[cfg(test)]
mod tests {
    use super::*;

    /// A reading of one row in a sheet of two, with a call table and tally rows.
    fn answer(side: &'static str, change: impl FnOnce(&mut Parts)) -> Answer {
        let mut parts = Parts::default();
        change(&mut parts);
        let room = Room { cells: 8, bytes: 3 };
        let answer = Answer::of(side, room, |sheet, output| {
            sheet[..4].copy_from_slice(&parts.row);
            output[2] = parts.byte;
            Ok::<_, arf::Refusal>(parts.reading)
        });
        let answer = answer.with("call table", &parts.calls);
        answer.with("tally rows", &parts.tallies)
    }

    #[derive(Default)]
    struct Parts {
        reading: arf::Reading,
        row: [u32; 4],
        byte: u8,
        calls: [arf::Call; 2],
        tallies: [arf::Tally; 2],
    }

    fn told(change: impl FnOnce(&mut Parts)) -> Result<(), String> {
        agree(&[answer("library", change), answer("reference", |_| ())])
    }

    #[test]
    fn equal_answers_agree() {
        assert_eq!(told(|_| ()), Ok(()));
    }

    #[test]
    fn every_part_is_compared() {
        let differences = [
            told(|parts| parts.reading.tail_length = 9),
            told(|parts| parts.reading.comparisons = 9),
            told(|parts| parts.row[3] = 9),
            told(|parts| parts.byte = 9),
            told(|parts| parts.calls[1].output_elements = 9),
            told(|parts| parts.tallies[1].failed = 9),
        ];
        let expected = [
            "number 4 of the answer",
            "number 5 of the answer",
            "number 3 of the sheet",
            "number 2 of the output",
            "number 17 of the call table",
            "number 9 of the tally rows",
        ];
        for (difference, place) in differences.into_iter().zip(expected) {
            let words = format!("library and reference differ in {place}: 9 and 0");
            assert_eq!(difference, Err(words));
        }
    }

    #[test]
    fn cells_that_stay_are_compared() {
        let call = |row: usize| move |sheet: &mut [u32], _: &mut [u8]| sheet[4 * row] = 7;
        let room = Room { cells: 8, bytes: 0 };
        let answers =
            [("fast", 1), ("reference", 0)].map(|(side, row)| Answer::of(side, room, call(row)));
        let words =
            format!("fast and reference differ in number 0 of the sheet: {CELL_FILL} and 7");
        assert_eq!(agree(&answers), Err(words));
    }

    #[test]
    fn a_refusal_is_no_line() {
        let refused = |side| {
            let refusal = arf::Refusal {
                number: 20,
                place: 3,
            };
            Answer::of(side, Room::NONE, |_, _| Err::<(), _>(refusal))
        };
        let answers = [refused("library"), refused("reference")];
        assert_eq!(agree(&answers), Err("reference answers 20".into()));
    }
}
