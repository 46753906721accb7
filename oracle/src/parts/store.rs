//! Random sequences of calls, against the paper's table of replies and the lifted `KvStore`.
//!
//! Both sides hold a record and two buffers, dirty at first and longer than what is lent.
mod largest;
mod turns;

use crate::calls::Call;
use crate::dice::Dice;
use crate::game::Game;
use crate::part::{Part, Reach};
use crate::tally::Tally;
use turns::Script;

/// Sequences of a sweep, and of a slice.
const SWEEP: u64 = 98_304;
const SLICE: u64 = 640;
/// A sequence ends with the turn that brings it to so many calls.
const CALLS: u64 = 64;

/// Sequences of calls on stores of every format; in a sweep some on the largest store too.
pub fn parts(reach: Reach) -> Vec<Part> {
    let sequences = reach.pick(SWEEP, SLICE);
    let mut parts = vec![Part::new("calls in random sequences", sequences, sequence)];
    if let Reach::Sweep = reach {
        parts.push(Part::new("calls on the largest store", 1, |_, tally| {
            on_the_largest(tally)
        }));
    }
    parts
}

/// One sequence, up to its first difference.
fn sequence(piece: u64, tally: &mut Tally) {
    play(piece, &mut Dice::of("calls", piece), tally)
}

/// The sequence that the dice make.
pub fn play(piece: u64, dice: &mut Dice, tally: &mut Tally) {
    let script = Script::new(dice);
    let mut game = Game::new(piece, script.holdings(dice));
    while game.calls < CALLS && dice.goes_on() {
        let steps = script.turn(&game.wanted.holdings, dice);
        if !game.steps(&steps, tally) {
            return;
        }
    }
    game.call(&Call::MemoryBytes, true, tally);
}

/// Calls on the largest store, up to the first difference.
fn on_the_largest(tally: &mut Tally) {
    let mut game = Game::new(0, largest::holdings());
    largest::calls()
        .iter()
        .all(|call| game.call(call, true, tally));
}
