//! The sorts of case for the writers of sheets.

use crate::generate::{aim, any, damage, fault, forwards, maps, sheet, table, value_frames, Sorts};

pub const WRITE: Sorts = &[
    any(52, |rng| sheet::write_any(rng, sheet::as_read)),
    any(30, |rng| sheet::write_any(rng, sheet::made_up)),
    aim(10, 0, |rng| {
        sheet::write_holding(rng, table::MAP, sheet::made_up)
    }),
    aim(10, 50, |rng| sheet::write_any(rng, sheet::missing_row)),
    aim(8, 50, |rng| sheet::write_any(rng, sheet::extra_row)),
    aim(10, 50, |rng| sheet::write_any(rng, sheet::other_type)),
    aim(8, 50, |rng| sheet::write_any(rng, sheet::other_width)),
    aim(8, 50, |rng| sheet::write_any(rng, sheet::leaf_count)),
    aim(8, 50, |rng| sheet::write_any(rng, sheet::struct_count)),
    aim(10, 50, |rng| sheet::write_sized(rng, sheet::list_count)),
    any(12, |rng| sheet::write_any(rng, sheet::presence)),
    aim(10, 50, |rng| {
        sheet::write_holding(rng, table::STRUCT, sheet::inner_bit)
    }),
    aim(14, 25, |rng| sheet::write_any(rng, sheet::absent)),
    aim(18, 51, |rng| sheet::write_any(rng, sheet::outside)),
    any(8, |rng| sheet::write_any(rng, sheet::short_data)),
    aim(14, 22, |rng| sheet::write_holding(rng, 1, sheet::not_bool)),
    aim(16, 23, |rng| {
        sheet::write_holding(rng, table::STRING, sheet::not_utf8)
    }),
    aim(18, 24, |rng| {
        sheet::write_holding(rng, table::MAP, sheet::repeated_key)
    }),
    any(6, |rng| sheet::write_deep(rng, 15, sheet::as_read)),
    any(8, |rng| sheet::write_deep(rng, 16, sheet::as_read)),
    aim(12, 28, |rng| sheet::write_deep(rng, 17, sheet::as_read)),
    any(3, |rng| sheet::write_deep(rng, 16, sheet::many_pairs)),
    any(3, |rng| sheet::write_deep(rng, 17, sheet::many_pairs)),
    aim(8, 0, |rng| {
        sheet::write_map(rng, maps::allowed, sheet::made_up)
    }),
    aim(5, 31, |rng| {
        sheet::write_map(rng, maps::excessive, sheet::as_read)
    }),
    aim(1, 31, |rng| {
        sheet::write_map(rng, maps::thousand, sheet::few_rows)
    }),
    aim(14, 31, |rng| {
        sheet::write_holding(rng, table::MAP, sheet::many_pairs)
    }),
    aim(5, 50, |rng| {
        sheet::write_holding(rng, table::MAP, sheet::many_pairs_other_type)
    }),
    aim(7, 24, |rng| {
        sheet::write_map(rng, maps::most, sheet::repeated_late_key)
    }),
    any(3, |rng| sheet::write_map(rng, maps::most, sheet::noise)),
    aim(10, 7, sheet::write_long),
    any(4, sheet::write_long),
    aim(14, 52, sheet::write_small_output),
    any(40, |rng| sheet::write_any(rng, sheet::noise)),
    any(24, |rng| sheet::write_any(rng, sheet::twice)),
    any(8, |rng| sheet::write_sized(rng, sheet::twice)),
    any(8, sheet::write_random),
    aim(5, 40, |rng| sheet::write_bad_table(rng, fault::bad_shape)),
    aim(3, 41, |rng| {
        sheet::write_bad_table(rng, fault::too_many_rows)
    }),
    aim(5, 42, |rng| sheet::write_bad_table(rng, fault::bad_type)),
    aim(5, 43, |rng| sheet::write_bad_table(rng, fault::bad_field)),
    aim(5, 44, |rng| sheet::write_bad_table(rng, fault::bad_method)),
    aim(8, 46, sheet::write_no_struct),
];

pub const VALUE_FRAME: Sorts = &[
    any(70, |rng| value_frames::value_frame(rng, None)),
    aim(60, 0, |rng| value_frames::value_frame(rng, None)),
    aim(12, 22, |rng| value_frames::value_frame(rng, Some(22))),
    aim(12, 23, |rng| value_frames::value_frame(rng, Some(23))),
    aim(12, 24, |rng| value_frames::value_frame(rng, Some(24))),
    aim(12, 25, |rng| value_frames::value_frame(rng, Some(25))),
    aim(12, 28, |rng| value_frames::value_frame(rng, Some(28))),
    aim(12, 31, |rng| value_frames::value_frame(rng, Some(31))),
    aim(12, 46, |rng| value_frames::value_frame(rng, Some(46))),
    aim(30, 50, |rng| value_frames::value_frame(rng, Some(50))),
    aim(12, 51, |rng| value_frames::value_frame(rng, Some(51))),
    aim(30, 52, value_frames::small_output),
    any(14, value_frames::at_a_limit),
    aim(10, 7, value_frames::too_long),
    aim(14, 4, |rng| value_frames::bad_kind(rng, None)),
    aim(6, 4, |rng| value_frames::bad_kind(rng, Some(46))),
    aim(6, 4, |rng| value_frames::bad_kind(rng, Some(50))),
    aim(3, 4, |rng| value_frames::bad_kind(rng, Some(7))),
    aim(3, 40, |rng| value_frames::bad_kind(rng, Some(40))),
    aim(2, 41, |rng| value_frames::bad_kind(rng, Some(41))),
    aim(3, 42, |rng| value_frames::bad_kind(rng, Some(42))),
    aim(3, 43, |rng| value_frames::bad_kind(rng, Some(43))),
    aim(3, 44, |rng| value_frames::bad_kind(rng, Some(44))),
    aim(5, 40, |rng| value_frames::value_frame(rng, Some(40))),
    aim(4, 41, |rng| value_frames::value_frame(rng, Some(41))),
    aim(5, 42, |rng| value_frames::value_frame(rng, Some(42))),
    aim(5, 43, |rng| value_frames::value_frame(rng, Some(43))),
    aim(5, 44, |rng| value_frames::value_frame(rng, Some(44))),
    aim(24, 0, value_frames::empty),
    aim(12, 50, value_frames::empty_with_rows),
    aim(10, 52, value_frames::empty_small_output),
    aim(8, 4, value_frames::empty_bad_kind),
    any(8, |rng| {
        value_frames::empty_bad_table(rng, fault::any_fault)
    }),
];

pub const FORWARD: Sorts = &[
    aim(60, 0, |rng| forwards::as_read(rng, damage::tail)),
    aim(14, 0, |rng| forwards::as_read(rng, damage::whole)),
    aim(24, 0, forwards::relayed),
    aim(40, 0, |rng| forwards::sheet(rng, None, forwards::right)),
    any(60, |rng| forwards::sheet(rng, None, forwards::any_tail)),
    aim(14, 0, |rng| forwards::sheet(rng, Some(0), forwards::longer)),
    aim(24, 50, |rng| forwards::sheet(rng, Some(0), forwards::short)),
    aim(20, 50, |rng| {
        forwards::sheet(rng, Some(0), forwards::without_bits)
    }),
    aim(30, 51, |rng| {
        forwards::sheet(rng, Some(0), forwards::outside)
    }),
    aim(14, 51, |rng| {
        forwards::sheet(rng, Some(0), forwards::empty_beyond)
    }),
    aim(12, 22, |rng| {
        forwards::sheet(rng, Some(22), forwards::any_tail)
    }),
    aim(12, 23, |rng| {
        forwards::sheet(rng, Some(23), forwards::any_tail)
    }),
    aim(12, 24, |rng| {
        forwards::sheet(rng, Some(24), forwards::any_tail)
    }),
    aim(12, 25, |rng| {
        forwards::sheet(rng, Some(25), forwards::any_tail)
    }),
    aim(12, 28, |rng| {
        forwards::sheet(rng, Some(28), forwards::any_tail)
    }),
    aim(12, 31, |rng| {
        forwards::sheet(rng, Some(31), forwards::any_tail)
    }),
    aim(12, 46, |rng| {
        forwards::sheet(rng, Some(46), forwards::any_tail)
    }),
    aim(20, 50, |rng| {
        forwards::sheet(rng, Some(50), forwards::any_tail)
    }),
    aim(16, 50, |rng| {
        forwards::sheet(rng, Some(50), forwards::right)
    }),
    aim(12, 51, |rng| {
        forwards::sheet(rng, Some(51), forwards::any_tail)
    }),
    aim(12, 50, forwards::inner_bits),
    aim(30, 52, forwards::small_output),
    any(14, forwards::at_the_limit),
    aim(12, 7, forwards::too_long),
    any(6, forwards::too_long),
    aim(7, 40, |rng| {
        forwards::sheet(rng, Some(40), forwards::any_tail)
    }),
    aim(6, 41, |rng| {
        forwards::sheet(rng, Some(41), forwards::any_tail)
    }),
    aim(7, 42, |rng| {
        forwards::sheet(rng, Some(42), forwards::any_tail)
    }),
    aim(7, 43, |rng| {
        forwards::sheet(rng, Some(43), forwards::any_tail)
    }),
    aim(7, 44, |rng| {
        forwards::sheet(rng, Some(44), forwards::any_tail)
    }),
];
