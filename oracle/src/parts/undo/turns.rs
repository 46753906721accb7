//! What a sequence of undos does next.
use crate::calls::{Call, Holdings, Step};
use crate::dice::Dice;
use crate::draws::{any_call, append_to, filled_layer};
use crate::mishaps::with_wrong_room;
use crate::record::{Record, LENGTHS};

/// The most layers that are cut one after the other.
const CUTS: usize = 6;
/// The most appends over removed places.
const APPENDS: u32 = 3;

/// The next steps: undos and appends, and every other call between them. No record or buffer is changed by hand.
pub fn turn(holdings: &Holdings, dice: &mut Dice) -> Vec<Step> {
    let record = &holdings.record;
    match dice.below(16) {
        0 => with_wrong_room(holdings, any_call, dice),
        1..=3 => written_over(record, dice),
        4 => cuts(record, dice),
        5..=7 => vec![Step::Call(append_to(layer(record, dice), record, dice))],
        _ => vec![Step::Call(any_call(record, dice))],
    }
}

/// A truncation below a layer's length, and appends to the removed places, drawn as if each were the first.
fn written_over(record: &Record, dice: &mut Dice) -> Vec<Step> {
    let layer = filled_layer(record, dice);
    let to = dice.below(record.length(layer));
    let mut cut = *record;
    cut.set_length(layer as usize, to as usize);
    let mut steps = vec![Step::Call(Call::Truncate { layer, to })];
    for _ in 0..1 + dice.below(APPENDS) {
        steps.push(Step::Call(append_to(layer, &cut, dice)));
    }
    steps
}

/// Truncations of several layers, each to a length of its own.
fn cuts(record: &Record, dice: &mut Dice) -> Vec<Step> {
    let layers = record.shape().layers.min(LENGTHS as u32);
    let first = dice.below(layers);
    let cut = |layer| {
        let to = dice.below(record.length(layer).saturating_add(1));
        Step::Call(Call::Truncate { layer, to })
    };
    (first..layers).take(CUTS).map(cut).collect()
}

/// Any layer that is there.
fn layer(record: &Record, dice: &mut Dice) -> u32 {
    dice.below(record.shape().layers)
}
