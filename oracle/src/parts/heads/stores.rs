//! Stores whose heads are asked for scores and sums.
use crate::calls::{Call, Holdings, Step};
use crate::dice::Dice;
use crate::record::{Record, Shape, BF16, F32, INT4, INT8};
use crate::{summands, words};

/// A store of more numbers than this gets fewer heads and layers, as far as it has some to give.
const MANY: u64 = 1 << 18;

/// What a caller holds at first, and the steps that fill its store.
pub struct Start {
    pub holdings: Holdings,
    pub steps: Vec<Step>,
}

/// What draws a run of numbers.
type Run = fn(usize, &mut Dice) -> Vec<u32>;

/// A store that calls open and fill, or one that lies in its buffers without any call.
pub fn start(dice: &mut Dice) -> Start {
    let shape = shape(dice);
    let run: Run = match dice.below(8) {
        0 => words::run,
        1 | 2 => summands::run,
        _ => summands::plain_run,
    };
    match dice.below(2) {
        0 => Start {
            holdings: Holdings::dirty(&shape, dice),
            steps: filled(&shape, run, dice),
        },
        _ => Start {
            holdings: made_by_hand(&shape, run, dice),
            steps: Vec::new(),
        },
    }
}

/// A shape of which scores and sums are mostly given.
fn shape(dice: &mut Dice) -> Shape {
    let format = match dice.below(16) {
        0 => BF16,
        1 => INT8,
        2..=8 => F32,
        _ => INT4,
    };
    let most = [16, 64, 256][dice.place(3)];
    let head_size = match format {
        INT4 => 32 * (1 + dice.below(8)),
        _ => 1 + dice.below(most),
    };
    let mut shape = Shape {
        format,
        layers: 1 + dice.below(3),
        heads: 1 + dice.below(4),
        head_size,
        capacity: capacity(dice),
    };
    while numbers(&shape) > MANY && shape.layers * shape.heads > 1 {
        shape.layers = shape.layers.div_ceil(2);
        shape.heads = shape.heads.div_ceil(2);
    }
    shape
}

/// Few positions, somewhat more than the Rust's small context, or several hundred.
fn capacity(dice: &mut Dice) -> u32 {
    match dice.below(16) {
        0 | 1 => 1 + dice.below(8),
        2..=11 => 66 + dice.below(12),
        12..=14 => 80 + dice.below(80),
        _ => 200 + dice.below(400),
    }
}

/// The numbers of a full store.
fn numbers(shape: &Shape) -> u64 {
    2 * u64::from(shape.layers) * u64::from(shape.capacity) * shape.position_numbers()
}

/// An open, and two appends to each layer, of which one may have no positions.
fn filled(shape: &Shape, run: Run, dice: &mut Dice) -> Vec<Step> {
    let mut calls = vec![Call::Open(*shape)];
    for layer in 0..shape.layers {
        let length = length(shape, dice);
        let first = dice.below(length + 1);
        for positions in [first, length - first] {
            let mut side = || rows(positions * shape.heads, shape.head_size, run, dice);
            calls.push(Call::Append {
                layer,
                keys: side(),
                values: side(),
            });
        }
    }
    calls.into_iter().map(Step::Call).collect()
}

/// The length of a layer: mostly all that it can have.
fn length(shape: &Shape, dice: &mut Dice) -> u32 {
    match dice.below(3) {
        0 => dice.below(shape.capacity + 1),
        _ => shape.capacity,
    }
}

/// Holdings whose cells and scale words nobody computed, under a record that says they are a store.
fn made_by_hand(shape: &Shape, run: Run, dice: &mut Dice) -> Holdings {
    let mut holdings = Holdings::dirty(shape, dice);
    holdings.record = Record::opened(shape);
    for layer in 0..shape.layers as usize {
        let length = length(shape, dice) as usize;
        holdings.record.set_length(layer, length);
    }
    if shape.format == F32 && dice.below(4) != 0 {
        let all = holdings.lent.cells as u32 / (4 * shape.head_size);
        let cells = rows(all, shape.head_size, run, dice);
        for (cell, word) in holdings.cells.chunks_exact_mut(4).zip(cells) {
            cell.copy_from_slice(&word.to_le_bytes());
        }
    }
    if shape.format == INT4 {
        let groups = shape.row_scales() as u32;
        let scales = rows(holdings.lent.scales as u32 / groups, groups, run, dice);
        holdings.scales[..scales.len()].copy_from_slice(&scales);
    }
    holdings
}

/// So many runs of so many numbers, one after the other.
fn rows(count: u32, size: u32, run: Run, dice: &mut Dice) -> Vec<u32> {
    (0..count).flat_map(|_| run(size as usize, dice)).collect()
}
