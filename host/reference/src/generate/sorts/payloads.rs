//! The sorts of case for the readers of payloads.

use crate::generate::{
    aim, any, besides, damage, extensions, fault, maps, reading, scalars, table, Sorts,
};

pub const READ: Sorts = &[
    any(84, |rng| reading::read_any(rng, damage::whole)),
    any(48, |rng| reading::read_sized(rng, damage::whole)),
    any(24, |rng| reading::read_any(rng, damage::tail)),
    any(20, |rng| reading::read_across(rng, true)),
    aim(8, 26, |rng| reading::read_across(rng, true)),
    any(10, |rng| reading::read_across(rng, false)),
    aim(18, 20, |rng| reading::read_any(rng, damage::cut)),
    aim(6, 20, |rng| reading::read_sized(rng, damage::cut)),
    aim(18, 20, |rng| reading::read_sized(rng, damage::oversized)),
    aim(8, 20, |rng| reading::read_any(rng, damage::short_tail)),
    aim(8, 20, |rng| reading::read_sized(rng, damage::cut_size)),
    aim(12, 21, |rng| reading::read_sized(rng, damage::malformed)),
    aim(40, 21, |rng| reading::read_sized(rng, damage::padded_size)),
    aim(6, 21, |rng| {
        reading::read_holding(rng, table::MAP, damage::padded_key)
    }),
    aim(14, 22, |rng| {
        reading::read_holding(rng, 1, damage::not_bool)
    }),
    aim(22, 23, |rng| {
        reading::read_holding(rng, table::STRING, damage::not_utf8)
    }),
    aim(22, 24, |rng| {
        reading::read_holding(rng, table::MAP, damage::repeated_key)
    }),
    aim(18, 25, |rng| reading::read_any(rng, damage::absent)),
    aim(18, 26, |rng| {
        reading::read_holding(rng, table::STRUCT, damage::inner_bit)
    }),
    aim(14, 27, |rng| reading::read_any(rng, damage::surplus)),
    any(6, |rng| reading::read_deep(rng, 15, damage::whole)),
    aim(8, 0, |rng| reading::read_deep(rng, 16, damage::whole)),
    aim(12, 28, |rng| reading::read_deep(rng, 17, damage::whole)),
    any(6, |rng| reading::read_deep(rng, 17, damage::cut)),
    any(4, |rng| reading::read_deep(rng, 18, damage::noise)),
    aim(18, 30, reading::read_small_sheet),
    any(30, |rng| reading::read_any(rng, damage::noise)),
    any(10, |rng| reading::read_sized(rng, damage::noise)),
    any(16, |rng| reading::read_any(rng, damage::twice)),
    any(8, |rng| reading::read_sized(rng, damage::twice)),
    any(10, reading::read_random),
    aim(5, 40, |rng| reading::read_bad_table(rng, fault::bad_shape)),
    aim(4, 41, |rng| {
        reading::read_bad_table(rng, fault::too_many_rows)
    }),
    aim(5, 42, |rng| reading::read_bad_table(rng, fault::bad_type)),
    aim(5, 43, |rng| reading::read_bad_table(rng, fault::bad_field)),
    aim(5, 44, |rng| reading::read_bad_table(rng, fault::bad_method)),
    aim(8, 46, reading::read_no_struct),
    aim(4, 7, reading::read_too_long),
    aim(1, 0, |rng| reading::read_long(rng, crate::MAX_PAYLOAD)),
    aim(16, 0, |rng| {
        reading::read_map(rng, maps::allowed, damage::whole)
    }),
    aim(14, 31, |rng| {
        reading::read_map(rng, maps::excessive, damage::whole)
    }),
    aim(1, 31, |rng| {
        reading::read_map(rng, maps::thousands, damage::whole)
    }),
    aim(10, 31, |rng| {
        reading::read_holding(rng, table::MAP, damage::many_pairs)
    }),
    any(4, |rng| reading::read_deep(rng, 16, damage::many_pairs)),
    any(4, |rng| reading::read_deep(rng, 17, damage::many_pairs)),
    aim(6, 20, |rng| {
        reading::read_holding(rng, table::MAP, damage::many_pairs_cut)
    }),
    aim(6, 21, |rng| {
        reading::read_holding(rng, table::MAP, damage::padded_pairs)
    }),
    aim(12, 24, |rng| {
        reading::read_map(rng, maps::most, damage::repeated_late_key)
    }),
    any(8, |rng| reading::read_map(rng, maps::most, damage::noise)),
    any(1, reading::read_maps_of_maps),
];

/// Payloads of one table read by another that extends it, or that it extends.
pub const ACROSS: Sorts = &[
    any(12, |rng| reading::read_across(rng, true)),
    aim(2, 26, |rng| reading::read_across(rng, true)),
    any(5, |rng| reading::read_across(rng, false)),
];

pub const SCALAR: Sorts = &[
    aim(60, 0, scalars::scalar_good),
    aim(40, 50, scalars::scalar_misfit),
    any(20, scalars::scalar_outside),
    aim(24, 51, scalars::scalar_outside),
    aim(12, 22, scalars::scalar_not_bool),
    aim(24, 23, scalars::scalar_not_utf8),
    any(20, scalars::scalar_random),
    aim(4, 40, |rng| {
        scalars::scalar_bad_table(rng, fault::bad_shape)
    }),
    aim(3, 41, |rng| {
        scalars::scalar_bad_table(rng, fault::too_many_rows)
    }),
    aim(4, 42, |rng| scalars::scalar_bad_table(rng, fault::bad_type)),
    aim(4, 43, |rng| {
        scalars::scalar_bad_table(rng, fault::bad_field)
    }),
    aim(4, 44, |rng| {
        scalars::scalar_bad_table(rng, fault::bad_method)
    }),
];

pub const BESIDE: Sorts = &[
    aim(80, 0, |rng| {
        besides::beside(rng, besides::widened, damage::whole)
    }),
    aim(30, 0, |rng| {
        besides::beside(rng, besides::extended, damage::whole)
    }),
    any(16, |rng| besides::beside(rng, besides::same, damage::whole)),
    aim(24, 0, |rng| {
        besides::beside_added(rng, table::MAP, damage::whole)
    }),
    aim(12, 0, |rng| {
        besides::beside_added(rng, table::STRUCT, damage::whole)
    }),
    aim(24, 0, |rng| {
        besides::beside(rng, besides::widened, damage::tail)
    }),
    aim(8, 0, |rng| {
        besides::beside(rng, besides::extended, damage::tail)
    }),
    aim(8, 20, |rng| {
        besides::beside(rng, besides::widened, damage::short_tail)
    }),
    aim(14, 20, |rng| {
        besides::beside(rng, besides::widened, damage::cut)
    }),
    aim(8, 20, |rng| besides::beside_sized(rng, damage::oversized)),
    aim(6, 20, |rng| besides::beside_sized(rng, damage::cut_size)),
    aim(6, 21, |rng| besides::beside_sized(rng, damage::malformed)),
    aim(12, 21, |rng| {
        besides::beside_sized(rng, damage::padded_size)
    }),
    aim(6, 21, |rng| {
        besides::beside(rng, besides::widened, damage::padded_size)
    }),
    aim(10, 22, |rng| {
        besides::beside_added(rng, 1, damage::not_bool)
    }),
    aim(6, 22, |rng| {
        besides::beside(rng, besides::widened, damage::not_bool)
    }),
    aim(10, 23, |rng| {
        besides::beside_added(rng, table::STRING, damage::not_utf8)
    }),
    aim(6, 23, |rng| {
        besides::beside(rng, besides::widened, damage::not_utf8)
    }),
    aim(12, 24, |rng| {
        besides::beside_added(rng, table::MAP, damage::repeated_key)
    }),
    aim(6, 24, |rng| {
        besides::beside(rng, besides::widened, damage::repeated_key)
    }),
    aim(12, 25, |rng| {
        besides::beside(rng, besides::widened, damage::absent)
    }),
    aim(6, 25, |rng| {
        besides::beside_added(rng, table::STRUCT, damage::absent)
    }),
    aim(14, 26, |rng| {
        besides::beside(rng, besides::widened, damage::inner_bit)
    }),
    aim(12, 26, |rng| {
        besides::beside_added(rng, table::STRUCT, damage::inner_bit)
    }),
    aim(14, 27, |rng| {
        besides::beside(rng, besides::widened, damage::surplus)
    }),
    aim(8, 0, |rng| besides::beside_deep(rng, 16, damage::whole)),
    aim(14, 28, |rng| besides::beside_deep(rng, 17, damage::whole)),
    any(6, |rng| besides::beside_deep(rng, 17, damage::cut)),
    aim(20, 30, besides::small_sheet),
    aim(8, 0, |rng| {
        besides::beside_map(rng, maps::allowed, damage::whole)
    }),
    aim(8, 31, |rng| {
        besides::beside_map(rng, maps::excessive, damage::whole)
    }),
    aim(8, 31, |rng| {
        besides::beside_added(rng, table::MAP, damage::many_pairs)
    }),
    aim(4, 24, |rng| {
        besides::beside_map(rng, maps::most, damage::repeated_late_key)
    }),
    any(1, besides::hidden_maps_of_maps),
    any(20, |rng| {
        besides::beside(rng, besides::widened, damage::noise)
    }),
    any(8, |rng| besides::beside_sized(rng, damage::noise)),
    any(12, |rng| {
        besides::beside(rng, besides::widened, damage::twice)
    }),
    any(8, |rng| besides::beside_sized(rng, damage::twice)),
    any(8, besides::random_payload),
    aim(20, 46, besides::beside_no_struct),
    aim(12, 47, |rng| {
        besides::of_pair(rng, extensions::changed_types)
    }),
    aim(16, 47, |rng| {
        besides::of_pair(rng, extensions::changed_fields)
    }),
    any(12, |rng| besides::of_pair(rng, extensions::changed_fields)),
    aim(12, 47, |rng| {
        besides::of_pair(rng, extensions::changed_methods)
    }),
    aim(6, 47, |rng| {
        besides::of_pair(rng, extensions::unrelated_pair)
    }),
    any(10, |rng| besides::of_pair(rng, extensions::good_pair)),
    any(10, |rng| besides::of_pair(rng, extensions::bad_pair)),
    aim(6, 40, |rng| {
        besides::of_pair(rng, |rng| {
            extensions::pair_with_fault(rng, fault::bad_shape)
        })
    }),
    aim(6, 41, |rng| {
        besides::of_pair(rng, |rng| {
            extensions::pair_with_fault(rng, fault::too_many_rows)
        })
    }),
    aim(6, 42, |rng| {
        besides::of_pair(rng, |rng| extensions::pair_with_fault(rng, fault::bad_type))
    }),
    aim(6, 43, |rng| {
        besides::of_pair(rng, |rng| {
            extensions::pair_with_fault(rng, fault::bad_field)
        })
    }),
    aim(6, 44, |rng| {
        besides::of_pair(rng, |rng| {
            extensions::pair_with_fault(rng, fault::bad_method)
        })
    }),
    aim(5, 7, besides::beside_too_long),
    aim(1, 0, |rng| besides::beside_long(rng, crate::MAX_PAYLOAD)),
];
