//! The sorts of case about tables alone.

use crate::cases::{Case, TableCase};
use crate::generate::{aim, any, extensions, fault, table, Sorts};

pub const TABLE: Sorts = &[
    aim(60, 0, |rng| table_case(table::good_table(rng).bytes())),
    aim(1, 0, |rng| table_case(table::large_table(rng).bytes())),
    aim(30, 40, |rng| table_case(fault::bad_shape(rng))),
    aim(3, 41, |rng| table_case(fault::too_many_rows(rng))),
    aim(40, 42, |rng| table_case(fault::bad_type(rng))),
    aim(24, 43, |rng| table_case(fault::bad_field(rng))),
    aim(36, 44, |rng| table_case(fault::bad_method(rng))),
    any(4, |rng| {
        let length = rng.below(80);
        table_case(rng.bytes(length))
    }),
];

pub const EXTENDS: Sorts = &[
    aim(48, 0, extensions::good_pair),
    aim(32, 0, extensions::changed_types),
    aim(40, 0, extensions::changed_fields),
    aim(28, 0, extensions::changed_methods),
    aim(10, 0, extensions::unrelated_pair),
    any(16, extensions::bad_pair),
    aim(6, 40, |rng| {
        extensions::pair_with_fault(rng, fault::bad_shape)
    }),
    aim(3, 41, |rng| {
        extensions::pair_with_fault(rng, fault::too_many_rows)
    }),
    aim(6, 42, |rng| {
        extensions::pair_with_fault(rng, fault::bad_type)
    }),
    aim(6, 43, |rng| {
        extensions::pair_with_fault(rng, fault::bad_field)
    }),
    aim(6, 44, |rng| {
        extensions::pair_with_fault(rng, fault::bad_method)
    }),
];

fn table_case(schema: Vec<u8>) -> Case {
    Case::Table(TableCase { schema })
}
