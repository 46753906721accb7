//! Call files: their records, a text that a person can write, and a model of the program that plays them.
//!
//! docs/PAPER.md decides, in its sections on shape and room, replies, calls and the call file. What stands here was
//! read from that page alone, so that the program and this model are two readings of it.
pub mod back;
pub mod dice;
pub mod draws;
pub mod folder;
pub mod fuzz;
pub mod history;
pub mod judge;
pub mod list;
pub mod model;
pub mod numbers;
pub mod records;
pub mod runs;
pub mod shape;
pub mod tally;
pub mod text;
