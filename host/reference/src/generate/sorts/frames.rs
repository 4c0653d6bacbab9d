//! The sorts of case for frames alone.

use crate::generate::{aim, any, frames, Sorts};

pub const FRAME: Sorts = &[
    aim(44, 0, frames::frame_good),
    aim(30, 1, frames::frame_cut),
    aim(8, 1, frames::frame_cut_length),
    aim(12, 2, |rng| frames::frame_spoilt(rng, 2)),
    aim(10, 3, |rng| frames::frame_spoilt(rng, 3)),
    aim(10, 4, |rng| frames::frame_spoilt(rng, 4)),
    aim(10, 5, |rng| frames::frame_spoilt(rng, 5)),
    aim(36, 6, |rng| frames::frame_spoilt(rng, 6)),
    aim(12, 7, |rng| frames::frame_spoilt(rng, 7)),
    any(10, |rng| frames::frame_spoilt(rng, 7)),
    any(14, frames::frame_random),
];

pub const FRAME_WRITE: Sorts = &[
    aim(90, 0, frames::frame_write_good),
    aim(1, 0, frames::frame_write_longest),
    aim(55, 4, frames::frame_write_kind),
    aim(6, 7, frames::frame_write_long),
    aim(60, 52, frames::frame_write_small),
];
