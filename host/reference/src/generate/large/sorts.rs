//! The sorts of large case of each code, and their shares.

use super::full::filled;
use super::last_rows::{self, faulted, Fault};
use super::values::{far_keys, long_sample};
use super::{payloads, records, sheets};
use crate::cases::Case;
use crate::generate::rng::Rng;
use crate::generate::sorts::ordinary;
use crate::generate::{
    aim, any, damage, forwards, histories, indexes, line, runs, salvages, sheet, Sorts,
};
use crate::MAX_PAYLOAD;

/// The codes and their sorts.
pub(in crate::generate) const CODES: &[(u8, Sorts)] = &[
    (1, TABLE),
    (2, EXTENDS),
    (3, READ),
    (4, SCALAR),
    (5, WRITE),
    (6, FRAME),
    (7, FRAME_WRITE),
    (8, RUN),
    (9, RECEIVE),
    (10, RELEASE),
    (11, HISTORY),
    (15, VALUE_FRAME),
    (16, BESIDE),
    (17, SALVAGE),
    (18, FORWARD),
    (19, INDEX),
    (20, LOOK_UP),
];

/// A case of one of a code's ordinary sorts, with a full table.
fn full(rng: &mut Rng, code: u8) -> Case {
    loop {
        let case = ordinary(rng, code);
        if let Some(case) = filled(rng, case) {
            return case;
        }
    }
}

/// A case of one of a code's ordinary sorts, with a full table that has a fault.
fn at_fault(rng: &mut Rng, code: u8, fault: Fault) -> Case {
    loop {
        let case = ordinary(rng, code);
        if let Some(case) = faulted(rng, case, fault) {
            return case;
        }
    }
}

/// A case with a full table, where it has one.
fn or_full(rng: &mut Rng, case: Case) -> Case {
    payloads::maybe_filled(rng, case)
}

const TABLE: Sorts = &[
    any(6, |rng| full(rng, 1)),
    aim(2, 40, |rng| at_fault(rng, 1, last_rows::wrong_shape)),
    aim(2, 41, |rng| at_fault(rng, 1, last_rows::row_too_many)),
    aim(3, 42, |rng| at_fault(rng, 1, last_rows::last_type)),
    aim(3, 43, |rng| at_fault(rng, 1, last_rows::last_field)),
    aim(3, 44, |rng| at_fault(rng, 1, last_rows::last_method)),
];

const EXTENDS: Sorts = &[
    any(12, |rng| full(rng, 2)),
    aim(1, 40, |rng| at_fault(rng, 2, last_rows::wrong_shape)),
    aim(1, 41, |rng| at_fault(rng, 2, last_rows::row_too_many)),
    aim(2, 42, |rng| at_fault(rng, 2, last_rows::last_type)),
    aim(2, 43, |rng| at_fault(rng, 2, last_rows::last_field)),
    aim(2, 44, |rng| at_fault(rng, 2, last_rows::last_method)),
];

const READ: Sorts = &[
    any(12, |rng| payloads::read(rng, long_sample, damage::whole)),
    any(4, |rng| payloads::read(rng, far_keys, damage::whole)),
    aim(3, 20, |rng| payloads::read(rng, long_sample, damage::cut)),
    aim(2, 20, |rng| {
        payloads::read(rng, long_sample, damage::oversized)
    }),
    aim(1, 20, |rng| {
        payloads::read(rng, long_sample, damage::cut_size)
    }),
    aim(1, 20, |rng| {
        payloads::read(rng, long_sample, damage::short_tail)
    }),
    aim(1, 21, |rng| {
        payloads::read(rng, long_sample, damage::malformed)
    }),
    aim(2, 21, |rng| {
        payloads::read(rng, long_sample, damage::padded_size)
    }),
    aim(2, 22, |rng| {
        payloads::read(rng, long_sample, damage::not_bool)
    }),
    aim(3, 23, |rng| {
        payloads::read(rng, long_sample, damage::not_utf8)
    }),
    aim(4, 24, |rng| {
        payloads::read(rng, far_keys, damage::repeated_key)
    }),
    aim(2, 24, |rng| {
        payloads::read(rng, far_keys, damage::repeated_late_key)
    }),
    aim(2, 25, |rng| {
        payloads::read(rng, long_sample, damage::absent)
    }),
    aim(2, 26, |rng| {
        payloads::read(rng, long_sample, damage::inner_bit)
    }),
    aim(2, 27, |rng| {
        payloads::read(rng, long_sample, damage::surplus)
    }),
    aim(2, 0, |rng| payloads::read(rng, long_sample, damage::tail)),
    aim(1, 31, |rng| {
        payloads::read(rng, far_keys, damage::many_pairs)
    }),
    any(4, |rng| payloads::read(rng, long_sample, damage::noise)),
    any(3, |rng| payloads::read(rng, long_sample, damage::twice)),
    any(2, |rng| payloads::read_sized(rng, MAX_PAYLOAD)),
    any(2, |rng| payloads::read_sized(rng, MAX_PAYLOAD - 1)),
    aim(1, 7, |rng| payloads::read_sized(rng, MAX_PAYLOAD + 1)),
    aim(1, 0, |rng| payloads::read_most_rows(rng, 0)),
    aim(1, 30, |rng| payloads::read_most_rows(rng, 1)),
    any(10, |rng| full(rng, 3)),
    aim(1, 40, |rng| at_fault(rng, 3, last_rows::wrong_shape)),
    aim(1, 41, |rng| at_fault(rng, 3, last_rows::row_too_many)),
    aim(1, 42, |rng| at_fault(rng, 3, last_rows::last_type)),
    aim(1, 43, |rng| at_fault(rng, 3, last_rows::last_field)),
    aim(1, 44, |rng| at_fault(rng, 3, last_rows::last_method)),
];

const SCALAR: Sorts = &[
    any(6, payloads::scalar),
    aim(2, 23, payloads::scalar),
    aim(2, 51, payloads::scalar),
    any(6, |rng| full(rng, 4)),
    aim(1, 40, |rng| at_fault(rng, 4, last_rows::wrong_shape)),
    aim(1, 41, |rng| at_fault(rng, 4, last_rows::row_too_many)),
    aim(1, 42, |rng| at_fault(rng, 4, last_rows::last_type)),
    aim(1, 43, |rng| at_fault(rng, 4, last_rows::last_field)),
    aim(1, 44, |rng| at_fault(rng, 4, last_rows::last_method)),
];

const WRITE: Sorts = &[
    any(10, |rng| sheets::write(rng, long_sample, sheet::as_read)),
    any(4, |rng| sheets::write(rng, far_keys, sheet::as_read)),
    aim(2, 50, |rng| {
        sheets::write(rng, long_sample, sheet::missing_row)
    }),
    aim(2, 50, |rng| {
        sheets::write(rng, long_sample, sheet::extra_row)
    }),
    aim(1, 50, |rng| {
        sheets::write(rng, long_sample, sheet::other_type)
    }),
    aim(2, 50, |rng| {
        sheets::write(rng, long_sample, sheet::list_count)
    }),
    aim(1, 50, |rng| {
        sheets::write(rng, long_sample, sheet::inner_bit)
    }),
    any(1, |rng| sheets::write(rng, long_sample, sheet::presence)),
    aim(2, 51, |rng| sheets::write(rng, long_sample, sheet::outside)),
    any(1, |rng| sheets::write(rng, long_sample, sheet::short_data)),
    aim(1, 22, |rng| {
        sheets::write(rng, long_sample, sheet::not_bool)
    }),
    aim(2, 23, |rng| {
        sheets::write(rng, long_sample, sheet::not_utf8)
    }),
    aim(5, 24, |rng| {
        sheets::write(rng, far_keys, sheet::repeated_far_key)
    }),
    aim(1, 25, |rng| sheets::write(rng, long_sample, sheet::absent)),
    aim(1, 31, |rng| sheets::write(rng, far_keys, sheet::many_pairs)),
    any(3, |rng| sheets::write(rng, long_sample, sheet::noise)),
    any(3, |rng| sheets::write(rng, long_sample, sheet::twice)),
    aim(3, 52, sheets::short_output),
    aim(1, 46, |rng| {
        let case = sheets::write(rng, long_sample, sheet::as_read);
        sheets::far_type(rng, case)
    }),
    any(10, |rng| full(rng, 5)),
    aim(1, 40, |rng| at_fault(rng, 5, last_rows::wrong_shape)),
    aim(1, 41, |rng| at_fault(rng, 5, last_rows::row_too_many)),
    aim(1, 42, |rng| at_fault(rng, 5, last_rows::last_type)),
    aim(1, 43, |rng| at_fault(rng, 5, last_rows::last_field)),
    aim(1, 44, |rng| at_fault(rng, 5, last_rows::last_method)),
];

const FRAME: Sorts = &[any(1, payloads::frame)];

const FRAME_WRITE: Sorts = &[
    any(3, payloads::frame_write),
    aim(1, 52, payloads::frame_write),
];

const RUN: Sorts = &[
    any(12, |rng| {
        let case = runs::run_long(rng, line::either);
        or_full(rng, case)
    }),
    any(4, |rng| {
        let case = runs::run_long(rng, line::out_of_order);
        or_full(rng, case)
    }),
    aim(4, 20, |rng| {
        runs::run_long(rng, |rng, line| line::damaged(rng, line, damage::cut))
    }),
    aim(2, 23, |rng| {
        runs::run_long(rng, |rng, line| line::damaged(rng, line, damage::not_utf8))
    }),
    aim(2, 24, |rng| {
        runs::run_long(rng, |rng, line| {
            line::damaged(rng, line, damage::repeated_key)
        })
    }),
    aim(2, 26, |rng| {
        runs::run_long(rng, |rng, line| line::damaged(rng, line, damage::inner_bit))
    }),
    any(2, |rng| {
        runs::run_long(rng, |rng, line| line::damaged(rng, line, damage::tail))
    }),
    any(2, |rng| {
        runs::run_long(rng, |rng, line| line::damaged(rng, line, damage::noise))
    }),
    aim(3, 16, |rng| runs::run_long(rng, line::crossing)),
    aim(2, 1, |rng| runs::run_long(rng, line::cut_frame)),
    aim(2, 30, |rng| runs::run_long(rng, line::either)),
    any(8, |rng| full(rng, 8)),
    aim(1, 40, |rng| at_fault(rng, 8, last_rows::wrong_shape)),
    aim(1, 41, |rng| at_fault(rng, 8, last_rows::row_too_many)),
    aim(1, 42, |rng| at_fault(rng, 8, last_rows::last_type)),
    aim(1, 43, |rng| at_fault(rng, 8, last_rows::last_field)),
    aim(1, 44, |rng| at_fault(rng, 8, last_rows::last_method)),
];

const RECEIVE: Sorts = &[
    any(8, |rng| {
        let case = runs::receive_long(rng, line::either);
        or_full(rng, case)
    }),
    any(3, |rng| {
        let case = runs::receive_long(rng, line::element);
        or_full(rng, case)
    }),
    aim(2, 17, |rng| runs::receive_long(rng, line::element)),
    aim(2, 16, |rng| runs::receive_long(rng, line::crossing)),
    any(2, |rng| runs::receive_long(rng, line::crossing_at_fault)),
    aim(3, 20, |rng| {
        runs::receive_long(rng, |rng, line| line::damaged(rng, line, damage::cut))
    }),
    aim(2, 27, |rng| {
        runs::receive_long(rng, |rng, line| line::damaged(rng, line, damage::surplus))
    }),
    any(2, |rng| {
        runs::receive_long(rng, |rng, line| line::damaged(rng, line, damage::noise))
    }),
    aim(1, 30, |rng| runs::receive_long(rng, line::either)),
    any(10, |rng| full(rng, 9)),
    aim(1, 40, |rng| at_fault(rng, 9, last_rows::wrong_shape)),
    aim(1, 41, |rng| at_fault(rng, 9, last_rows::row_too_many)),
    aim(1, 42, |rng| at_fault(rng, 9, last_rows::last_type)),
    aim(1, 43, |rng| at_fault(rng, 9, last_rows::last_field)),
    aim(1, 44, |rng| at_fault(rng, 9, last_rows::last_method)),
];

const RELEASE: Sorts = &[
    any(14, |rng| full(rng, 10)),
    aim(1, 40, |rng| at_fault(rng, 10, last_rows::wrong_shape)),
    aim(1, 41, |rng| at_fault(rng, 10, last_rows::row_too_many)),
    aim(1, 42, |rng| at_fault(rng, 10, last_rows::last_type)),
    aim(1, 43, |rng| at_fault(rng, 10, last_rows::last_field)),
    aim(1, 44, |rng| at_fault(rng, 10, last_rows::last_method)),
];

const HISTORY: Sorts = &[
    any(8, |rng| {
        let case = histories::long_mixed(rng, line::either);
        or_full(rng, case)
    }),
    aim(6, 16, |rng| histories::long_mixed(rng, line::crossing)),
    any(4, |rng| histories::long_mixed(rng, line::crossing_at_fault)),
    any(3, |rng| {
        histories::long_mixed(rng, |rng, line| line::damaged(rng, line, damage::noise))
    }),
    any(8, |rng| full(rng, 11)),
    aim(1, 40, |rng| at_fault(rng, 11, last_rows::wrong_shape)),
    aim(1, 41, |rng| at_fault(rng, 11, last_rows::row_too_many)),
    aim(1, 42, |rng| at_fault(rng, 11, last_rows::last_type)),
    aim(1, 43, |rng| at_fault(rng, 11, last_rows::last_field)),
    aim(1, 44, |rng| at_fault(rng, 11, last_rows::last_method)),
];

const VALUE_FRAME: Sorts = &[
    any(8, |rng| sheets::value_frame(rng, sheet::as_read)),
    aim(2, 52, |rng| sheets::value_frame(rng, sheet::as_read)),
    aim(2, 50, |rng| sheets::value_frame(rng, sheet::missing_row)),
    aim(1, 50, |rng| sheets::value_frame(rng, sheet::extra_row)),
    aim(2, 24, |rng| {
        sheets::value_frame(rng, sheet::repeated_far_key)
    }),
    any(2, |rng| sheets::value_frame(rng, sheet::noise)),
    aim(2, 46, |rng| {
        let case = sheets::value_frame(rng, sheet::as_read);
        sheets::far_type(rng, case)
    }),
    any(8, |rng| full(rng, 15)),
    aim(1, 40, |rng| at_fault(rng, 15, last_rows::wrong_shape)),
    aim(1, 41, |rng| at_fault(rng, 15, last_rows::row_too_many)),
    aim(1, 42, |rng| at_fault(rng, 15, last_rows::last_type)),
    aim(1, 43, |rng| at_fault(rng, 15, last_rows::last_field)),
    aim(1, 44, |rng| at_fault(rng, 15, last_rows::last_method)),
];

const BESIDE: Sorts = &[
    any(8, |rng| payloads::beside(rng, damage::whole)),
    any(2, |rng| payloads::beside(rng, damage::tail)),
    aim(2, 20, |rng| payloads::beside(rng, damage::cut)),
    aim(1, 22, |rng| payloads::beside(rng, damage::not_bool)),
    aim(1, 23, |rng| payloads::beside(rng, damage::not_utf8)),
    aim(1, 24, |rng| payloads::beside(rng, damage::repeated_key)),
    aim(1, 25, |rng| payloads::beside(rng, damage::absent)),
    aim(1, 26, |rng| payloads::beside(rng, damage::inner_bit)),
    aim(1, 27, |rng| payloads::beside(rng, damage::surplus)),
    any(2, |rng| payloads::beside(rng, damage::noise)),
    any(2, |rng| payloads::beside_sized(rng, MAX_PAYLOAD)),
    any(2, |rng| payloads::beside_sized(rng, MAX_PAYLOAD - 1)),
    aim(1, 7, |rng| payloads::beside_sized(rng, MAX_PAYLOAD + 1)),
    any(10, |rng| full(rng, 16)),
    aim(2, 47, |rng| full(rng, 16)),
    aim(1, 40, |rng| at_fault(rng, 16, last_rows::wrong_shape)),
    aim(1, 41, |rng| at_fault(rng, 16, last_rows::row_too_many)),
    aim(1, 42, |rng| at_fault(rng, 16, last_rows::last_type)),
    aim(1, 43, |rng| at_fault(rng, 16, last_rows::last_field)),
    aim(1, 44, |rng| at_fault(rng, 16, last_rows::last_method)),
];

const SALVAGE: Sorts = &[
    aim(3, 0, records::salvage_whole),
    aim(2, 52, records::salvage_whole),
    aim(2, 0, records::salvage_most_spans),
    aim(1, 52, records::salvage_most_spans),
    aim(2, 53, records::salvage_most_spans),
    aim(4, 0, records::salvage_torn),
    any(2, |rng| salvages::enough(rng, salvages::longest)),
    any(1, |rng| salvages::short_copy(rng, salvages::longest)),
    aim(1, 45, salvages::too_long),
];

const FORWARD: Sorts = &[
    aim(6, 0, |rng| {
        sheets::forward(rng, sheet::as_read, forwards::right)
    }),
    aim(4, 0, |rng| {
        sheets::forward(rng, sheet::as_read, forwards::long)
    }),
    aim(3, 7, |rng| {
        sheets::forward(rng, sheet::as_read, forwards::long)
    }),
    aim(2, 50, |rng| {
        sheets::forward(rng, sheet::as_read, forwards::short)
    }),
    aim(2, 51, |rng| {
        sheets::forward(rng, sheet::as_read, forwards::outside)
    }),
    aim(2, 50, |rng| {
        sheets::forward(rng, sheet::extra_row, forwards::any_tail)
    }),
    aim(2, 24, |rng| {
        sheets::forward(rng, sheet::repeated_far_key, forwards::any_tail)
    }),
    any(2, |rng| {
        sheets::forward(rng, sheet::noise, forwards::any_tail)
    }),
    aim(2, 46, |rng| {
        let case = sheets::forward(rng, sheet::as_read, forwards::right);
        sheets::far_type(rng, case)
    }),
    any(8, |rng| full(rng, 18)),
    aim(1, 40, |rng| at_fault(rng, 18, last_rows::wrong_shape)),
    aim(1, 41, |rng| at_fault(rng, 18, last_rows::row_too_many)),
    aim(1, 42, |rng| at_fault(rng, 18, last_rows::last_type)),
    aim(1, 43, |rng| at_fault(rng, 18, last_rows::last_field)),
    aim(1, 44, |rng| at_fault(rng, 18, last_rows::last_method)),
];

const INDEX: Sorts = &[
    aim(4, 0, records::index),
    aim(2, 52, records::index),
    aim(1, 45, records::index),
    any(4, |rng| {
        let case = indexes::indexed(rng, |rng| runs::run_long(rng, line::either));
        or_full(rng, case)
    }),
    any(2, |rng| {
        indexes::indexed(rng, |rng| runs::run_long(rng, line::crossing))
    }),
    any(6, |rng| full(rng, 19)),
    aim(1, 40, |rng| at_fault(rng, 19, last_rows::wrong_shape)),
    aim(1, 41, |rng| at_fault(rng, 19, last_rows::row_too_many)),
    aim(1, 42, |rng| at_fault(rng, 19, last_rows::last_type)),
    aim(1, 43, |rng| at_fault(rng, 19, last_rows::last_field)),
    aim(1, 44, |rng| at_fault(rng, 19, last_rows::last_method)),
];

const LOOK_UP: Sorts = &[
    aim(4, 0, records::look_up_many),
    aim(3, 65, records::look_up_many),
    aim(2, 66, records::look_up_many),
    aim(2, 52, records::look_up_many),
];
