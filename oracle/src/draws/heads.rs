//! Random scores and sums on the store of a record.
use super::{filled_layer, GUARD, MOST_PLACES};
use crate::calls::Call;
use crate::dice::Dice;
use crate::record::Record;
use crate::replies::Head;
use crate::rust_heads::DECODE_ATTN_SMALL_CONTEXT_THRESHOLD;
use crate::{summands, words};

/// What a call on a head names and lends: a query or sums of so many numbers, scores or weights of so many positions.
struct Ask {
    head: Head,
    row: usize,
    positions: usize,
}

/// Scores or sums, mostly of what is there.
pub fn call(record: &Record, dice: &mut Dice) -> Call {
    let right = right(record, dice);
    let ask = match dice.below(5) {
        0 => spoiled(&right, record, dice),
        _ => right,
    };
    let ask = limited(ask);
    match dice.below(2) {
        0 => scores(&ask, dice),
        _ => sums(&ask, dice),
    }
}

/// Scores and sums of all positions of a head that is there.
pub fn of_all_positions(head: Head, record: &Record, dice: &mut Dice) -> [Call; 2] {
    let ask = Ask {
        head,
        row: record.shape().head_size as usize,
        positions: record.length(head.layer) as usize,
    };
    [scores(&ask, dice), sums(&ask, dice)]
}

/// What is asked, as far as it is not too much.
fn limited(ask: Ask) -> Ask {
    Ask {
        head: ask.head,
        row: ask.row.min(MOST_PLACES),
        positions: ask.positions.min(MOST_PLACES),
    }
}

/// A query for scores into an output of NaN.
fn scores(ask: &Ask, dice: &mut Dice) -> Call {
    Call::Scores {
        head: ask.head,
        query: summands::run(ask.row, dice),
        scale: summands::factor(dice),
        output: words::nans(ask.positions + GUARD, dice),
        lent: ask.positions,
    }
}

/// Weights for sums into an output of NaN.
fn sums(ask: &Ask, dice: &mut Dice) -> Call {
    Call::Sums {
        head: ask.head,
        weights: summands::run(ask.positions, dice),
        output: words::nans(ask.row + GUARD, dice),
        lent: ask.row,
    }
}

/// A head that is there, mostly of a layer with positions, and lengths that fit it.
fn right(record: &Record, dice: &mut Dice) -> Ask {
    let shape = record.shape();
    let layer = match dice.below(8) {
        0 => dice.below(shape.layers),
        _ => filled_layer(record, dice),
    };
    Ask {
        head: Head {
            layer,
            head: dice.below(shape.heads),
        },
        row: shape.head_size as usize,
        positions: positions(record.length(layer) as usize, dice),
    }
}

/// No position, one, all, some, or nearly as many as the Rust's small context has.
fn positions(length: usize, dice: &mut Dice) -> usize {
    let near = DECODE_ATTN_SMALL_CONTEXT_THRESHOLD - 2 + dice.place(5);
    match dice.below(8) {
        0 => dice.place(2).min(length),
        1 | 2 => length,
        3 | 4 => near.min(length),
        _ => dice.place(length.saturating_add(1)),
    }
}

/// The same with about every third thing wrong, so that several refusals apply at once.
fn spoiled(right: &Ask, record: &Record, dice: &mut Dice) -> Ask {
    let shape = record.shape();
    let Head { layer, head } = right.head;
    Ask {
        head: Head {
            layer: spoil(layer, &beyond(shape.layers, 128), dice),
            head: spoil(head, &beyond(shape.heads, 64), dice),
        },
        row: spoil(right.row, &beside(right.row), dice),
        positions: spoil(right.positions, &too_many(record, layer), dice),
    }
}

/// A thing, or one time of three one of the wrong ones.
fn spoil<T: Copy>(right: T, wrong: &[T], dice: &mut Dice) -> T {
    match dice.below(3) {
        0 => wrong[dice.place(wrong.len())],
        _ => right,
    }
}

/// Numbers that are not below a bound: the first ones, those at the limit of such bounds, and the last one.
fn beyond(bound: u32, limit: u32) -> [u32; 5] {
    [bound, bound.saturating_add(1), limit - 1, limit, u32::MAX]
}

/// Lengths that are not so many.
fn beside(row: usize) -> [usize; 4] {
    [0, row.saturating_sub(1), row + 1, 2 * row]
}

/// Counts of positions past a layer's length, mostly: one more, all that another layer or the store could have.
fn too_many(record: &Record, layer: u32) -> [usize; 4] {
    let length = record.length(layer) as usize;
    let lengths = record.lengths().iter().copied();
    let longest = lengths.max().unwrap_or(0) as usize;
    [
        length + 1,
        length + 2,
        longest,
        record.shape().capacity as usize,
    ]
}
