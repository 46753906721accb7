//! One comparison whose choices a fuzzer makes.
use crate::dice::Dice;
use crate::parts::{codes, groups, heads, needs, scales, store, undo};
use crate::tally::Tally;

/// Plays what the bytes say, the first of which names the part; the first difference, where there is one.
pub fn difference(bytes: &[u8]) -> Option<String> {
    let (part, tape) = bytes.split_first()?;
    let mut tally = Tally::default();
    play(*part, &mut Dice::on_tape(tape), &mut tally);
    let first = tally.shown().next().map(String::from);
    first
}

/// One piece of a part; the calls on stores have most of the numbers.
fn play(part: u8, dice: &mut Dice, tally: &mut Tally) {
    match part % 16 {
        0 => codes::play(dice, tally),
        1 => scales::play(dice, tally),
        2 => groups::play(dice, tally),
        3 => needs::play(dice, tally),
        4..=7 => heads::play(0, dice, tally),
        8..=10 => undo::play(0, dice, tally),
        _ => store::play(0, dice, tally),
    }
}
