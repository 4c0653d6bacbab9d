//! The sorts of case for frames against call tables.

use crate::generate::{aim, any, damage, fault, histories, line, maps, runs, Sorts};

pub const RUN: Sorts = &[
    any(62, runs::run_good),
    any(2, runs::run_full),
    aim(6, 30, runs::run_small_sheet),
    any(5, |rng| runs::run_with(rng, line::wrong_side)),
    any(5, |rng| runs::run_with(rng, line::unknown_method)),
    any(5, |rng| runs::run_with(rng, line::already_open)),
    any(6, |rng| runs::run_with(rng, line::not_open)),
    any(6, |rng| runs::run_with(rng, line::other_identifiers)),
    any(20, |rng| runs::run_with(rng, line::out_of_order)),
    any(4, |rng| runs::run_with(rng, line::cancel)),
    aim(8, 16, |rng| runs::run_with(rng, line::crossing)),
    any(4, |rng| runs::run_with(rng, line::after_cancel)),
    any(10, |rng| runs::run_with(rng, line::unexpected_payload)),
    any(5, |rng| runs::run_with(rng, line::cut_frame)),
    aim(3, 2, |rng| runs::run_spoilt(rng, 2)),
    aim(3, 3, |rng| runs::run_spoilt(rng, 3)),
    aim(3, 4, |rng| runs::run_spoilt(rng, 4)),
    aim(3, 5, |rng| runs::run_spoilt(rng, 5)),
    aim(6, 6, |rng| runs::run_spoilt(rng, 6)),
    aim(3, 7, |rng| runs::run_spoilt(rng, 7)),
    aim(4, 20, |rng| runs::run_damaged(rng, damage::cut)),
    aim(3, 20, |rng| runs::run_with(rng, line::empty_payload)),
    aim(3, 20, |rng| runs::run_damaged(rng, damage::oversized)),
    any(5, |rng| runs::run_damaged(rng, damage::tail)),
    aim(3, 21, |rng| runs::run_damaged(rng, damage::malformed)),
    aim(12, 21, |rng| runs::run_damaged(rng, damage::padded_size)),
    aim(4, 22, |rng| runs::run_damaged(rng, damage::not_bool)),
    aim(4, 23, |rng| runs::run_damaged(rng, damage::not_utf8)),
    aim(5, 24, |rng| runs::run_damaged(rng, damage::repeated_key)),
    aim(4, 25, |rng| runs::run_damaged(rng, damage::absent)),
    aim(4, 26, |rng| runs::run_damaged(rng, damage::inner_bit)),
    aim(4, 27, |rng| runs::run_damaged(rng, damage::surplus)),
    aim(5, 28, |rng| runs::run_with(rng, line::deep)),
    any(6, |rng| runs::run_maps(rng, line::either)),
    aim(5, 31, |rng| {
        runs::run_maps(rng, |rng, line| line::mapped(rng, line, maps::excessive))
    }),
    aim(5, 31, |rng| {
        runs::run_maps(rng, |rng, line| {
            line::damaged(rng, line, damage::many_pairs)
        })
    }),
    aim(3, 24, |rng| {
        runs::run_maps(rng, |rng, line| {
            line::mapped_damaged(rng, line, damage::repeated_late_key)
        })
    }),
    aim(1, 31, |rng| {
        runs::run_maps(rng, |rng, line| line::mapped(rng, line, maps::thousand))
    }),
    any(1, runs::run_maps_of_maps),
    aim(4, 40, |rng| runs::run_bad_table(rng, fault::bad_shape)),
    aim(3, 41, |rng| runs::run_bad_table(rng, fault::too_many_rows)),
    aim(4, 42, |rng| runs::run_bad_table(rng, fault::bad_type)),
    aim(4, 43, |rng| runs::run_bad_table(rng, fault::bad_field)),
    aim(4, 44, |rng| runs::run_bad_table(rng, fault::bad_method)),
];

pub const RECEIVE: Sorts = &[
    any(10, |rng| runs::receive_with(rng, line::open)),
    any(16, |rng| runs::receive_with(rng, line::step)),
    aim(4, 0, |rng| runs::receive_with(rng, line::end)),
    aim(4, 1, |rng| runs::receive_with(rng, line::cut_frame)),
    aim(3, 2, |rng| runs::receive_spoilt(rng, 2)),
    aim(3, 3, |rng| runs::receive_spoilt(rng, 3)),
    aim(3, 4, |rng| runs::receive_spoilt(rng, 4)),
    aim(3, 5, |rng| runs::receive_spoilt(rng, 5)),
    aim(8, 6, |rng| runs::receive_spoilt(rng, 6)),
    aim(3, 7, |rng| runs::receive_spoilt(rng, 7)),
    aim(4, 8, |rng| runs::receive_with(rng, line::wrong_side)),
    aim(4, 9, |rng| runs::receive_with(rng, line::unknown_method)),
    aim(4, 10, |rng| runs::receive_with(rng, line::already_open)),
    aim(4, 11, |rng| runs::receive_with(rng, line::not_open)),
    aim(5, 12, |rng| {
        runs::receive_with(rng, line::other_identifiers)
    }),
    aim(4, 13, runs::receive_full),
    aim(12, 14, |rng| runs::receive_with(rng, line::out_of_order)),
    aim(16, 15, runs::receive_bad_calls),
    aim(4, 0, |rng| runs::receive_with(rng, line::cancel)),
    aim(4, 0, |rng| runs::receive_with(rng, line::late_error)),
    aim(8, 16, |rng| runs::receive_with(rng, line::crossing)),
    any(6, |rng| runs::receive_with(rng, line::after_cancel)),
    aim(3, 1, |rng| runs::receive_with(rng, line::crossing_at_fault)),
    aim(3, 6, |rng| runs::receive_with(rng, line::crossing_at_fault)),
    aim(3, 7, |rng| runs::receive_with(rng, line::crossing_at_fault)),
    aim(3, 8, |rng| runs::receive_with(rng, line::crossing_at_fault)),
    aim(8, 17, |rng| runs::receive_with(rng, line::element)),
    any(6, |rng| runs::receive_with(rng, line::element)),
    any(2, |rng| runs::receive_tallied(rng, line::element)),
    aim(4, 18, |rng| runs::receive_tallied(rng, line::open)),
    any(3, |rng| runs::receive_tallied(rng, line::open)),
    aim(5, 18, |rng| runs::receive_tallied(rng, line::completing)),
    any(3, |rng| runs::receive_tallied(rng, line::completing)),
    aim(4, 18, |rng| runs::receive_tallied(rng, line::end)),
    aim(3, 18, |rng| runs::receive_tallied(rng, line::late_error)),
    any(3, |rng| runs::receive_tallied(rng, line::late_error)),
    aim(4, 18, |rng| {
        runs::receive_tallied(rng, line::unexpected_payload)
    }),
    aim(4, 18, |rng| {
        runs::receive_tallied(rng, |rng, line| line::damaged(rng, line, damage::cut))
    }),
    any(4, |rng| {
        runs::receive_tallied(rng, |rng, line| line::damaged(rng, line, damage::surplus))
    }),
    any(3, |rng| runs::receive_tallied(rng, line::out_of_order)),
    aim(3, 30, |rng| runs::receive_tallied(rng, line::open)),
    aim(8, 19, runs::receive_miscounted),
    aim(3, 30, |rng| runs::receive_all_full(rng, line::open, 3)),
    aim(3, 30, |rng| {
        runs::receive_all_full(rng, line::completing, 3)
    }),
    aim(3, 20, |rng| {
        runs::receive_all_full(rng, line::unread_invoke, 400)
    }),
    aim(2, 9, |rng| runs::receive_with(rng, line::unknown_cancelled)),
    aim(3, 12, |rng| runs::receive_with(rng, line::other_cancelled)),
    aim(2, 29, |rng| {
        runs::receive_with(rng, line::cancel_with_bytes)
    }),
    aim(4, 20, |rng| runs::receive_damaged(rng, damage::cut)),
    aim(2, 21, |rng| runs::receive_damaged(rng, damage::malformed)),
    aim(8, 21, |rng| runs::receive_damaged(rng, damage::padded_size)),
    aim(3, 22, |rng| runs::receive_damaged(rng, damage::not_bool)),
    aim(3, 23, |rng| runs::receive_damaged(rng, damage::not_utf8)),
    aim(3, 24, |rng| {
        runs::receive_damaged(rng, damage::repeated_key)
    }),
    aim(3, 25, |rng| runs::receive_damaged(rng, damage::absent)),
    aim(3, 26, |rng| runs::receive_damaged(rng, damage::inner_bit)),
    aim(3, 27, |rng| runs::receive_damaged(rng, damage::surplus)),
    aim(3, 28, |rng| runs::receive_with(rng, line::deep)),
    any(4, |rng| runs::receive_maps(rng, line::either)),
    aim(3, 31, |rng| {
        runs::receive_maps(rng, |rng, line| line::mapped(rng, line, maps::excessive))
    }),
    aim(1, 31, |rng| {
        runs::receive_maps(rng, |rng, line| line::mapped(rng, line, maps::thousand))
    }),
    aim(4, 31, |rng| {
        runs::receive_maps(rng, |rng, line| {
            line::damaged(rng, line, damage::many_pairs)
        })
    }),
    aim(3, 24, |rng| {
        runs::receive_maps(rng, |rng, line| {
            line::mapped_damaged(rng, line, damage::repeated_late_key)
        })
    }),
    aim(6, 29, |rng| {
        runs::receive_with(rng, line::unexpected_payload)
    }),
    aim(4, 30, runs::receive_small_sheet),
    any(3, |rng| runs::receive_damaged(rng, damage::tail)),
    aim(3, 40, |rng| runs::receive_bad_table(rng, fault::bad_shape)),
    aim(3, 41, |rng| {
        runs::receive_bad_table(rng, fault::too_many_rows)
    }),
    aim(3, 42, |rng| runs::receive_bad_table(rng, fault::bad_type)),
    aim(3, 43, |rng| runs::receive_bad_table(rng, fault::bad_field)),
    aim(3, 44, |rng| runs::receive_bad_table(rng, fault::bad_method)),
];

pub const RELEASE: Sorts = &[
    aim(16, 0, histories::release_cancelled),
    aim(10, 11, histories::release_not_open),
    aim(10, 14, histories::release_live),
    aim(8, 18, histories::release_tallied),
    any(4, histories::release_tallied),
    aim(8, 19, histories::release_miscounted),
    aim(16, 15, histories::release_bad_calls),
    aim(3, 40, |rng| {
        histories::release_bad_table(rng, fault::bad_shape)
    }),
    aim(2, 41, |rng| {
        histories::release_bad_table(rng, fault::too_many_rows)
    }),
    aim(3, 42, |rng| {
        histories::release_bad_table(rng, fault::bad_type)
    }),
    aim(3, 43, |rng| {
        histories::release_bad_table(rng, fault::bad_field)
    }),
    aim(3, 44, |rng| {
        histories::release_bad_table(rng, fault::bad_method)
    }),
];

pub const HISTORY: Sorts = &[
    any(60, histories::cancels),
    aim(20, 16, histories::cancels),
    aim(16, 16, |rng| histories::mixed(rng, line::crossing)),
    any(10, |rng| histories::mixed(rng, line::late_error)),
    any(10, |rng| histories::mixed(rng, line::after_cancel)),
    any(5, |rng| histories::mixed(rng, line::other_cancelled)),
    any(3, |rng| histories::mixed(rng, line::unknown_cancelled)),
    any(5, |rng| histories::mixed(rng, line::cancel_with_bytes)),
    any(10, |rng| histories::mixed(rng, line::element)),
    aim(4, 1, |rng| histories::mixed(rng, line::crossing_at_fault)),
    aim(4, 6, |rng| histories::mixed(rng, line::crossing_at_fault)),
    aim(4, 7, |rng| histories::mixed(rng, line::crossing_at_fault)),
    aim(4, 8, |rng| histories::mixed(rng, line::crossing_at_fault)),
    any(10, |rng| histories::mixed(rng, line::completing)),
    any(4, |rng| histories::mixed(rng, line::wrong_side)),
    any(4, |rng| histories::mixed(rng, line::unknown_method)),
    any(4, |rng| histories::mixed(rng, line::already_open)),
    any(4, |rng| histories::mixed(rng, line::not_open)),
    any(4, |rng| histories::mixed(rng, line::other_identifiers)),
    any(6, |rng| histories::mixed(rng, line::out_of_order)),
    any(5, |rng| histories::mixed(rng, line::unexpected_payload)),
    any(4, |rng| histories::mixed(rng, line::cut_frame)),
    aim(2, 2, |rng| histories::spoilt_frame(rng, 2)),
    aim(2, 3, |rng| histories::spoilt_frame(rng, 3)),
    aim(2, 4, |rng| histories::spoilt_frame(rng, 4)),
    aim(2, 5, |rng| histories::spoilt_frame(rng, 5)),
    aim(2, 6, |rng| histories::spoilt_frame(rng, 6)),
    aim(2, 7, |rng| histories::spoilt_frame(rng, 7)),
    aim(3, 20, |rng| histories::damaged_payload(rng, damage::cut)),
    aim(3, 21, |rng| {
        histories::damaged_payload(rng, damage::padded_size)
    }),
    aim(3, 22, |rng| {
        histories::damaged_payload(rng, damage::not_bool)
    }),
    aim(3, 23, |rng| {
        histories::damaged_payload(rng, damage::not_utf8)
    }),
    aim(3, 24, |rng| {
        histories::damaged_payload(rng, damage::repeated_key)
    }),
    aim(3, 25, |rng| histories::damaged_payload(rng, damage::absent)),
    aim(3, 26, |rng| {
        histories::damaged_payload(rng, damage::inner_bit)
    }),
    aim(3, 27, |rng| {
        histories::damaged_payload(rng, damage::surplus)
    }),
    aim(3, 28, |rng| histories::mixed(rng, line::deep)),
    aim(3, 31, |rng| {
        histories::damaged_payload(rng, damage::many_pairs)
    }),
    aim(5, 30, histories::small_sheet),
    aim(2, 13, histories::full),
    aim(3, 40, |rng| histories::bad_table(rng, fault::bad_shape)),
    aim(2, 41, |rng| histories::bad_table(rng, fault::too_many_rows)),
    aim(3, 42, |rng| histories::bad_table(rng, fault::bad_type)),
    aim(3, 43, |rng| histories::bad_table(rng, fault::bad_field)),
    aim(3, 44, |rng| histories::bad_table(rng, fault::bad_method)),
];
