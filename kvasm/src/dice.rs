//! The dice of each file.
pub use dice::Dice;

use dice::mixed;

/// The seed where none is given.
pub const SEED: u64 = 7_737_262_893_161_997_156;

/// The dice of one file: the same file on any number of threads.
pub fn of(seed: u64, file: u64) -> Dice {
    Dice::new(mixed(mixed(seed) ^ file))
}
