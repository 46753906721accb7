//! The parts of the comparison.
mod bf16;
pub mod codes;
pub mod groups;
pub mod heads;
pub mod needs;
mod reading;
pub mod scales;
pub mod store;
pub mod undo;

use crate::part::{Part, Reach};

/// Every part, in the order in which they are run.
pub fn all(reach: Reach) -> Vec<Part> {
    [
        codes::parts(reach),
        scales::parts(reach),
        groups::parts(reach),
        reading::parts(reach),
        bf16::parts(reach),
        needs::parts(reach),
        store::parts(reach),
        heads::parts(reach),
        undo::parts(reach),
    ]
    .into_iter()
    .flatten()
    .collect()
}
