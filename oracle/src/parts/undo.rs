//! Undo is real: after any calls a store is the one that its surviving rows alone make.
//!
//! The library is held to itself: nothing here is computed by the lifted Rust.
mod fresh;
mod questions;
mod trial;
mod turns;

use crate::calls::{Call, Step};
use crate::dice::Dice;
use crate::part::{Part, Reach};
use crate::record::Shape;
use crate::shapes::Size;
use crate::tally::Tally;
use trial::Trial;
use turns::turn;

/// Sequences of a sweep, and of a slice.
const SWEEP: u64 = 32_768;
const SLICE: u64 = 1_024;
/// A sequence ends with the turn that brings it to so many calls.
const CALLS: u64 = 64;
/// Positions of a layer that are many for an undo.
const MANY: u32 = 256;
/// The most bytes of both buffers that a store with a size at its limit is given.
const MOST_BYTES: u128 = 1 << 19;

/// Sequences of calls on stores of every format.
pub fn parts(reach: Reach) -> Vec<Part> {
    let sequences = reach.pick(SWEEP, SLICE);
    vec![Part::new("undo against fresh stores", sequences, sequence)]
}

/// One sequence, up to its first difference.
fn sequence(piece: u64, tally: &mut Tally) {
    play(piece, &mut Dice::of("undo", piece), tally)
}

/// The sequence that the dice make.
pub fn play(piece: u64, dice: &mut Dice, tally: &mut Tally) {
    let (mut trial, mut steps) = start(piece, dice);
    while trial.calls == 0 || (trial.calls < CALLS && dice.goes_on()) {
        if !steps.iter().all(|step| trial.step(step, tally)) {
            return;
        }
        steps = turn(&trial.played.holdings, dice);
    }
    if trial.call(&Call::MemoryBytes, true, tally) {
        trial.ask_all(dice, tally);
    }
}

/// A sequence on a random store, and the step that opens it.
fn start(piece: u64, dice: &mut Dice) -> (Trial, Vec<Step>) {
    let shape = shape(dice);
    let open = vec![Step::Call(Call::Open(shape))];
    (Trial::new(piece, &shape, dice), open)
}

/// A shape of any kind, now and then a small one but for its many positions.
fn shape(dice: &mut Dice) -> Shape {
    match dice.below(16) {
        0 => Shape {
            capacity: 16 + dice.below(MANY),
            ..Size::Small.shape(MOST_BYTES, dice)
        },
        _ => Size::drawn(dice).shape(MOST_BYTES, dice),
    }
}

#[cfg(test)]
mod tests {
    use super::*;
    use crate::calls::kind;
    use crate::record::{Record, LENGTHS};
    use crate::replies;
    use std::collections::BTreeSet;

    /// Plays the slice, and shows each call with its reply and the record before and after it.
    fn each_call(mut show: impl FnMut(&Call, u32, &Record, &Record)) {
        for piece in 0..SLICE {
            let mut dice = Dice::of("undo", piece);
            let (mut trial, mut steps) = start(piece, &mut dice);
            while trial.calls < CALLS {
                for step in &steps {
                    let before = trial.played.holdings.record;
                    match step {
                        Step::Change(change) => trial.played.holdings.make(*change),
                        Step::Call(call) => {
                            let reply = trial.play(call);
                            show(call, reply, &before, &trial.played.holdings.record);
                        }
                    }
                }
                steps = turn(&trial.played.holdings, &mut dice);
            }
        }
    }

    /// Whether a reply is possible: 1 and 3 want a record changed by hand, an open's refusals a second open.
    fn is_possible(kind: u32, reply: u32) -> bool {
        match kind {
            1 => reply == 0,
            _ => reply != 1 && reply != 3,
        }
    }

    #[test]
    fn every_call_gives_each_reply_that_a_store_left_alone_can_give() {
        let mut seen = BTreeSet::new();
        each_call(|call, reply, _, _| {
            seen.insert((kind(call), reply));
        });
        let mut possible = replies::each();
        possible.retain(|&(kind, reply)| is_possible(kind, reply));
        assert_eq!(seen, possible);
    }

    /// The greatest length that each layer has had, and what was done below it.
    #[derive(Clone, Copy)]
    struct Undone {
        reached: [u32; LENGTHS],
        removed: u32,
        written_over: u32,
        cut_apart: u32,
    }

    impl Undone {
        const NOTHING: Undone = Undone {
            reached: [0; LENGTHS],
            removed: 0,
            written_over: 0,
            cut_apart: 0,
        };

        /// Takes in a layer's length before and after a call.
        fn take(&mut self, layer: usize, before: u32, after: u32) {
            let reached = self.reached[layer];
            self.removed += before.saturating_sub(after);
            self.written_over += after.min(reached).saturating_sub(before);
            self.reached[layer] = reached.max(after);
        }

        /// Takes in the lengths of a store, of which several may be cut and not yet filled again.
        fn take_cuts(&mut self, lengths: &[u32]) {
            let cut = lengths.iter().zip(&self.reached);
            let cut = cut.filter(|(length, reached)| length < reached);
            let apart: BTreeSet<u32> = cut.map(|(length, _)| *length).collect();
            self.cut_apart += u32::from(apart.len() > 1);
        }
    }

    #[test]
    fn rows_are_removed_and_written_over_in_each_format() {
        let mut undone = [Undone::NOTHING; 4];
        each_call(|call, _, before, after| {
            let undone = &mut undone[after.shape().format as usize];
            if let Call::Open(_) = call {
                undone.reached = [0; LENGTHS];
                return;
            }
            for layer in 0..after.shape().layers {
                undone.take(layer as usize, before.length(layer), after.length(layer));
            }
            undone.take_cuts(after.lengths());
        });
        for (format, undone) in undone.iter().enumerate() {
            assert!(undone.removed > 1_000, "format {format}");
            assert!(undone.written_over > 1_000, "format {format}");
            assert!(undone.cut_apart > 1_000, "format {format}");
        }
    }

    #[test]
    fn sizes_at_both_ends_are_drawn() {
        let mut shapes: Vec<Shape> = Vec::new();
        each_call(|call, _, _, _| {
            if let Call::Open(shape) = call {
                shapes.push(*shape);
            }
        });
        let ends: [fn(&Shape) -> bool; 6] = [
            |shape| shape.layers == 128,
            |shape| shape.heads == 64,
            |shape| shape.head_size == 1,
            |shape| shape.head_size == 256,
            |shape| shape.capacity == 1,
            |shape| shape.capacity == 4096,
        ];
        for (number, end) in ends.iter().enumerate() {
            assert!(shapes.iter().any(end), "end {number}");
        }
    }
}
