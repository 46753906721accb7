//! Several refusals at once, of which the lowest is given; and damage, which comes before any refusal.
use super::{case, filled, Case};
use crate::history::history;
use crate::records::{APPEND, MARK};
use crate::shape::INT4;

pub fn all() -> Vec<Case> {
    vec![
        case(
            "lowest_of_1_and_2",
            filled().open(INT4, [128, 64, 48, 4096]).report(),
        ),
        case("lowest_of_1_and_4", history().append(9, 4).truncate(9, 0)),
        case("lowest_of_1_and_7", history().append(0, 3)),
        case("lowest_of_4_and_7", filled().append(2, 3).report()),
        case("lowest_of_4_and_9", filled().append(2, 16).report()),
        case("lowest_of_4_7_and_9", filled().append(2, 17).report()),
        case("lowest_of_7_and_9", filled().append(0, 13).report()),
        case("bad_before_1", history().raw(&over_512(0))),
        case("bad_before_4", filled().raw(&over_512(2)).report()),
        case("bad_cut_before_1", history().raw(&over_512(0)[..4])),
    ]
}

/// An append of 513 numbers a side, all of which are there.
pub fn over_512(layer: u8) -> Vec<u8> {
    let start = [MARK[0], MARK[1], APPEND, layer, 0, 1, 2];
    [&start[..], &[0; 8 * 513]].concat()
}
