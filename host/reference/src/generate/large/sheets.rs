//! Long sheets for the writers.

use super::payloads::{maybe_filled, Sample};
use super::values::{far_keys, long_sample};
use crate::cases::{Case, WriteCase};
use crate::generate::forwards::{self, TailMaker};
use crate::generate::rng::Rng;
use crate::generate::sheet::{Damage, Sheet};
use crate::generate::value_frames;

/// The sheet of a long value, changed or not.
pub fn write(rng: &mut Rng, sample: Sample, damage: Damage) -> Case {
    loop {
        let (table, value) = sample(rng);
        let mut sheet = Sheet::of_value(table, &value);
        if damage(rng, &mut sheet).is_some() {
            let case = sheet.case(rng);
            return maybe_filled(rng, case);
        }
    }
}

/// The same, with an output that is a byte too short (52).
pub fn short_output(rng: &mut Rng) -> Case {
    let (table, value) = long_sample(rng);
    let size = value.bytes().len();
    let sheet = Sheet::of_value(table, &value);
    match sheet.case(rng) {
        Case::Write(case) => Case::Write(WriteCase {
            room: size - 1,
            ..case
        }),
        other => other,
    }
}

fn long_sheet(rng: &mut Rng, damage: Damage) -> WriteCase {
    let sample = rng.pick(&[long_sample as Sample, long_sample, far_keys]);
    loop {
        if let Case::Write(case) = write(rng, sample, damage) {
            return case;
        }
    }
}

/// A header and a long sheet, changed or not.
pub fn value_frame(rng: &mut Rng, damage: Damage) -> Case {
    let sheet = long_sheet(rng, damage);
    value_frames::of_sheet(rng, sheet)
}

/// A long sheet, changed or not, and a tail.
pub fn forward(rng: &mut Rng, damage: Damage, tail: TailMaker) -> Case {
    loop {
        let sheet = long_sheet(rng, damage);
        if let Some(case) = forwards::of_sheet(rng, sheet, tail) {
            return case;
        }
    }
}

/// A type number that no table has, at the end of all numbers (46).
pub fn far_type(rng: &mut Rng, case: Case) -> Case {
    let number = rng.pick(&[255, 256, u32::MAX - 1]);
    match case {
        Case::Write(case) => Case::Write(WriteCase {
            type_number: number,
            ..case
        }),
        Case::ValueFrame(mut case) => {
            case.type_number = number;
            Case::ValueFrame(case)
        }
        Case::Forward(mut case) => {
            case.type_number = number;
            Case::Forward(case)
        }
        other => other,
    }
}
