//! Scores and sums of heads, against the paper's table of replies and the lifted halves of the Rust's attention.
//!
//! Most stores hold more positions than the Rust's small context, so that its columns and its rows are both judges.
mod stores;
#[cfg(test)]
pub mod wrong;

use crate::calls::{Call, Change, Holdings, Step};
use crate::dice::Dice;
use crate::draws::heads::call;
use crate::game::Game;
use crate::mishaps::{damaged, with_wrong_room};
use crate::part::{Part, Reach};
use crate::summands;
use crate::tally::Tally;
use stores::{start, Start};

/// Stores of a sweep, and of a slice.
const SWEEP: u64 = 16_384;
const SLICE: u64 = 128;
/// Turns on one store, each with a call on a head or two.
const TURNS: u64 = 64;
/// The most cells, and the most scale words, that are changed by hand at once.
const CHANGES: u32 = 3;

/// Calls on heads of many stores.
pub fn parts(reach: Reach) -> Vec<Part> {
    let stores = reach.pick(SWEEP, SLICE);
    vec![Part::new("scores and sums of heads", stores, store)]
}

/// Calls on one store, up to the first difference.
fn store(piece: u64, tally: &mut Tally) {
    play(piece, &mut Dice::of("heads", piece), tally)
}

/// Calls that the dice make.
pub fn play(piece: u64, dice: &mut Dice, tally: &mut Tally) {
    let Start { holdings, steps } = start(dice);
    let mut game = Game::new(piece, holdings);
    if !game.steps(&steps, tally) {
        return;
    }
    for _ in 0..TURNS {
        if !dice.goes_on() {
            break;
        }
        let steps = turn(&game.wanted.holdings, dice);
        if !game.steps(&steps, tally) {
            return;
        }
    }
    game.call(&Call::MemoryBytes, true, tally);
}

/// The next steps: a call on a head, sometimes after something went wrong.
fn turn(holdings: &Holdings, dice: &mut Dice) -> Vec<Step> {
    match dice.below(32) {
        0 => with_wrong_room(holdings, call, dice),
        1 | 2 => damaged(&holdings.record, call, dice),
        3 => after_changes(holdings, dice),
        _ => vec![Step::Call(call(&holdings.record, dice))],
    }
}

/// A call after some cells and scale words were changed by hand; a store without scale words has one behind them.
fn after_changes(holdings: &Holdings, dice: &mut Dice) -> Vec<Step> {
    let mut steps = Vec::new();
    for _ in 0..1 + dice.below(CHANGES) {
        let (cell, byte) = (dice.place(holdings.lent.cells), dice.word() as u8);
        let (scale, word) = (dice.place(holdings.lent.scales), summands::rare(dice));
        steps.push(Step::Change(Change::CellByte(cell, byte)));
        steps.push(Step::Change(Change::ScaleWord(scale, word)));
    }
    steps.push(Step::Call(call(&holdings.record, dice)));
    steps
}

#[cfg(test)]
mod tests {
    use super::*;
    use crate::calls::{kind, Answer, Told};
    use crate::replies;
    use crate::wanted::Wanted;
    use crate::words::numbers;
    use std::collections::{BTreeMap, BTreeSet};

    /// The number of the first kind of calls on heads.
    const FIRST_KIND: u32 = 12;

    /// Plays the slice, and shows each call on a head, its answer, and what the caller holds.
    fn each_answer(mut show: impl FnMut(&Call, &Answer, &mut Wanted)) {
        for piece in 0..SLICE {
            let mut dice = Dice::of("heads", piece);
            let Start { holdings, steps } = start(&mut dice);
            let mut wanted = Wanted::new(holdings);
            show_steps(&steps, &mut wanted, &mut show);
            for _ in 0..TURNS {
                let steps = turn(&wanted.holdings, &mut dice);
                show_steps(&steps, &mut wanted, &mut show);
            }
        }
    }

    /// Plays some steps, and shows each call on a head.
    fn show_steps(
        steps: &[Step],
        wanted: &mut Wanted,
        show: &mut impl FnMut(&Call, &Answer, &mut Wanted),
    ) {
        for step in steps {
            match step {
                Step::Change(change) => wanted.make(*change),
                Step::Call(call) => {
                    let answer = wanted.play(call);
                    if kind(call) >= FIRST_KIND {
                        show(call, &answer, wanted);
                    }
                }
            }
        }
    }

    /// The positions that a call on a head reads when it is done.
    fn positions(call: &Call) -> usize {
        match call {
            Call::Scores { lent, .. } => *lent,
            Call::Sums { weights, .. } => weights.len(),
            _ => unreachable!("no call on a head"),
        }
    }

    /// The words that a call on a head has made.
    fn made(call: &Call, answer: &Answer) -> Vec<u32> {
        match (call, &answer.told) {
            (Call::Scores { lent, .. } | Call::Sums { lent, .. }, Told::Output(output)) => {
                output[..*lent].to_vec()
            }
            _ => unreachable!("no call on a head"),
        }
    }

    #[test]
    fn both_calls_give_each_of_their_replies() {
        let mut seen = BTreeSet::new();
        each_answer(|call, answer, _| {
            seen.insert((kind(call), answer.reply));
        });
        let of_heads = replies::each()
            .into_iter()
            .filter(|(kind, _)| *kind >= FIRST_KIND);
        assert_eq!(seen, of_heads.collect());
    }

    #[test]
    fn both_sides_of_the_threshold_are_reached() {
        let mut done: BTreeMap<(u32, u32), BTreeSet<usize>> = BTreeMap::new();
        each_answer(|call, answer, wanted| {
            if answer.reply == 0 {
                let format = wanted.holdings.record.shape().format;
                let counts = done.entry((format, kind(call))).or_default();
                counts.insert(positions(call));
            }
        });
        assert_eq!(done.len(), 4);
        for (way, counts) in done {
            let wanted = [0, 1, 62, 63, 64, 65, 66];
            assert!(wanted.iter().all(|count| counts.contains(count)), "{way:?}");
            assert!(counts.last() > Some(&300), "{way:?}");
        }
    }

    #[test]
    fn most_of_what_is_made_is_finite_and_not_zero() {
        let (mut plain, mut all) = (0, 0);
        each_answer(|call, answer, _| {
            if answer.reply == 0 {
                let made = numbers(&made(call, answer));
                plain += made.iter().filter(|x| x.is_finite() && **x != 0.0).count();
                all += made.len();
            }
        });
        assert!(plain * 2 > all, "{plain} of {all}");
    }

    #[test]
    fn a_wrong_order_shows_in_many_calls() {
        let mut told: BTreeMap<&str, u32> = BTreeMap::new();
        each_answer(|call, answer, wanted| {
            if answer.reply == 0 {
                for name in wrong::told_apart(call, &made(call, answer), wanted) {
                    *told.entry(name).or_default() += 1;
                }
            }
        });
        assert_eq!(told.len(), wrong::names().count());
        assert!(told.values().all(|calls| *calls > 100), "{told:?}");
    }
}
