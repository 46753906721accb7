//! Holds the static library's answers to those of the lifted Rust.
mod boundary;
mod calls;
pub mod dice;
mod differences;
mod draws;
pub mod fuzz;
mod game;
mod heads;
pub mod histories;
mod mishaps;
mod ours;
pub mod part;
pub mod parts;
mod patterns;
mod record;
mod replies;
mod rows;
mod rules;
#[allow(dead_code, clippy::needless_range_loop)]
mod rust;
#[allow(clippy::needless_range_loop)]
mod rust_heads;
#[allow(dead_code, unknown_lints, clippy::needless_range_loop)]
#[allow(clippy::upper_case_acronyms, clippy::manual_checked_ops)]
mod rust_store;
mod shapes;
pub mod speed;
mod summands;
mod survivors;
pub mod tally;
pub mod vectors;
mod wanted;
mod words;

/// The name of the archive that is judged.
pub const ARCHIVE: &str = env!("ORACLE_ARCHIVE");
