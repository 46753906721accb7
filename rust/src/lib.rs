//! A key/value cache for a text predictor, whose undo is proved.
//!
//! A [`Store`] holds, for each layer of a predictor, the keys and values of the tokens so far, in F32, BF16, INT8 or
//! INT4. An undo cuts a layer back to an earlier token, and nothing of what was cut is left: after any calls both
//! buffers and all lengths are those of a newly opened store into which the surviving rows are appended. Scores and
//! weighted sums over a stored head are there in F32 and INT4; the softmax between them is the host's.
//!
//! ```
//! use karonjeenu::{Format, Refusal, Shape, Store};
//!
//! let shape = Shape { format: Format::Int4, layers: 1, heads: 1, head_size: 32, capacity: 8 };
//! let mut store = Store::open(shape)?;
//!
//! let mut row = [0.0; 32];
//! (row[0], row[16]) = (7.0, -7.0);
//! store.append(0, &row, &row)?;
//! store.advance_seq_len(1)?;
//!
//! let mut query = [0.0; 32];
//! (query[0], query[16]) = (2.0, 3.0);
//! let mut scores = [0.0; 1];
//! store.scores(0, 0, &query, 0.5, &mut scores)?;
//! assert_eq!(scores, [-3.5]);
//!
//! let mut sums = [0.0; 32];
//! store.sums(0, 0, &[0.25], &mut sums)?;
//! assert_eq!((sums[0], sums[16]), (1.75, -1.75));
//!
//! store.truncate_to(0, 0)?;
//! assert!(store.cells().iter().all(|cell| *cell == 0));
//! assert_eq!(store.scores(0, 0, &query, 0.5, &mut scores), Err(Refusal::Position));
//! # Ok::<(), Refusal>(())
//! ```
//!
//! # What is proved
//!
//! Every call is one function of a static library. Its source is proved, for all inputs, to do what the paper
//! (`docs/PAPER.md`) says, bit for bit, a NaN made by arithmetic being written as 7FC00000, or to give the one [`Refusal`]
//! that the paper names and change no bit; and the undo is a theorem over the same definitions.
//!
//! # What is assumed
//!
//! That the back end of the toolchain turns the proved source into what it says, that `kv-sys` declares the functions
//! as the archive has them, and that the processor rounds to nearest and keeps subnormals, as it does unless a program
//! sets it otherwise. This crate's own lines hand slices over and turn numbers into a [`Refusal`]; they are not proved.
//! They and the declarations are tested.
#![warn(missing_docs)]
#![deny(unsafe_op_in_unsafe_fn)]
#![deny(unsafe_code)]

#[allow(unsafe_code)]
mod boundary;
pub mod codes;
mod refusal;
mod shape;
mod store;

#[cfg(doctest)]
#[doc = include_str!("../../README.md")]
struct Readme;

pub use refusal::Refusal;
pub use shape::{Format, Need, Shape, Side};
pub use store::Store;
