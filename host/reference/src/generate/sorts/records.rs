//! The sorts of case for whole records.

use crate::generate::{aim, any, damage, fault, indexes, line, runs, salvages, Sorts};

pub const SALVAGE: Sorts = &[
    aim(20, 0, |rng| salvages::enough(rng, salvages::whole)),
    aim(22, 0, |rng| salvages::enough(rng, salvages::torn)),
    aim(22, 0, |rng| salvages::enough(rng, salvages::blotted)),
    aim(16, 0, |rng| salvages::enough(rng, salvages::inserted)),
    aim(16, 0, |rng| salvages::enough(rng, salvages::crumbs)),
    aim(22, 0, |rng| salvages::enough(rng, salvages::cut)),
    aim(6, 0, |rng| salvages::enough(rng, salvages::cut_length)),
    aim(10, 0, |rng| salvages::enough(rng, salvages::nested)),
    aim(18, 0, |rng| salvages::enough(rng, salvages::nested_spoilt)),
    aim(14, 0, |rng| salvages::enough(rng, salvages::nested_cut)),
    aim(20, 0, |rng| salvages::enough(rng, salvages::swallowing)),
    aim(22, 0, |rng| salvages::enough(rng, salvages::spoilt)),
    aim(12, 0, |rng| salvages::enough(rng, salvages::wrong_side)),
    aim(14, 0, |rng| salvages::enough(rng, salvages::letters_alone)),
    aim(14, 0, |rng| salvages::enough(rng, salvages::noise)),
    aim(6, 52, |rng| salvages::short_copy(rng, salvages::whole)),
    aim(14, 52, |rng| salvages::short_copy(rng, salvages::crumbs)),
    aim(6, 52, |rng| salvages::short_copy(rng, salvages::blotted)),
    aim(12, 53, |rng| salvages::short_list(rng, salvages::crumbs)),
    aim(8, 53, |rng| salvages::short_list(rng, salvages::spoilt)),
    aim(6, 53, |rng| {
        salvages::short_list(rng, salvages::letters_alone)
    }),
    any(1, |rng| salvages::enough(rng, salvages::longest)),
    any(1, |rng| salvages::short_list(rng, salvages::longest)),
    aim(2, 45, salvages::too_long),
];

pub const INDEX: Sorts = &[
    any(40, |rng| indexes::indexed(rng, runs::run_good)),
    aim(40, 0, indexes::taking_turns),
    any(8, |rng| indexes::indexed_with(rng, line::wrong_side)),
    any(8, |rng| indexes::indexed_with(rng, line::unknown_method)),
    any(8, |rng| indexes::indexed_with(rng, line::already_open)),
    any(8, |rng| indexes::indexed_with(rng, line::not_open)),
    any(8, |rng| indexes::indexed_with(rng, line::other_identifiers)),
    any(8, |rng| indexes::indexed_with(rng, line::out_of_order)),
    any(12, |rng| indexes::indexed_with(rng, line::crossing)),
    any(8, |rng| {
        indexes::indexed_with(rng, line::unexpected_payload)
    }),
    any(8, |rng| indexes::indexed_with(rng, line::empty_payload)),
    any(8, |rng| indexes::indexed_with(rng, line::cut_frame)),
    any(8, |rng| {
        indexes::indexed_with(rng, |rng, line| {
            let number = rng.range(2, 7) as u32;
            line::spoilt(rng, line, number)
        })
    }),
    any(12, |rng| {
        indexes::indexed_with(rng, |rng, line| {
            let damages = [
                damage::cut,
                damage::absent,
                damage::surplus,
                damage::not_utf8,
            ];
            let damage = rng.pick(&damages);
            line::damaged(rng, line, damage)
        })
    }),
    aim(10, 0, indexes::no_rows),
    aim(20, 52, indexes::short_room),
    any(1, |rng| indexes::indexed(rng, runs::run_full)),
    any(1, indexes::stopped_at_30),
    aim(1, 0, indexes::longest),
    aim(1, 45, indexes::too_long),
    aim(6, 40, |rng| indexes::bad_table(rng, fault::bad_shape)),
    aim(4, 41, |rng| indexes::bad_table(rng, fault::too_many_rows)),
    aim(6, 42, |rng| indexes::bad_table(rng, fault::bad_type)),
    aim(6, 43, |rng| indexes::bad_table(rng, fault::bad_field)),
    aim(6, 44, |rng| indexes::bad_table(rng, fault::bad_method)),
];

pub const LOOK_UP: Sorts = &[
    aim(40, 0, indexes::found),
    aim(80, 0, indexes::drafted),
    aim(40, 66, indexes::other_record),
    aim(60, 65, indexes::wrong_shape),
    aim(50, 65, indexes::wrong_order),
    any(1, indexes::long_record),
    aim(16, 52, |rng| indexes::short_text(rng, indexes::drafted)),
    aim(8, 52, |rng| indexes::short_text(rng, indexes::other_record)),
    aim(8, 52, |rng| indexes::short_text(rng, indexes::wrong_shape)),
];
