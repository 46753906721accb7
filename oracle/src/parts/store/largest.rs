//! The largest store, P10's: 1 GiB of cells.
use crate::calls::{Call, Holdings};
use crate::dice::Dice;
use crate::record::{Lent, Record, Shape, F32};
use crate::replies::{Head, Place};
use crate::summands;

/// The shape that P10 says is taken.
const SHAPE: Shape = Shape {
    format: F32,
    layers: 2,
    heads: 64,
    head_size: 256,
    capacity: 4096,
};
/// Places behind what is lent.
const GUARD: usize = 64;

/// Dirty holdings, of which exactly what the store needs is lent.
pub fn holdings() -> Holdings {
    let cells = SHAPE.cells() as usize;
    Holdings {
        record: Record::NONE,
        cells: vec![0xA5; cells + GUARD],
        scales: vec![0xA5A5_A5A5; GUARD],
        lent: Lent { cells, scales: 0 },
    }
}

/// Calls that write, read, score, sum and clear rows of the first head and of the last one.
pub fn calls() -> Vec<Call> {
    let mut dice = Dice::of("largest", 0);
    let mut calls = vec![Call::Open(SHAPE)];
    for layer in [0, 1] {
        calls.push(Call::Append {
            layer,
            keys: summands::plain_run(SHAPE.position_numbers() as usize, &mut dice),
            values: summands::plain_run(SHAPE.position_numbers() as usize, &mut dice),
        });
        calls.push(Call::ReadRow {
            place: Place {
                layer,
                side: layer,
                head: 63 * layer,
                position: 0,
            },
            output: vec![0; SHAPE.head_size as usize],
            lent: SHAPE.head_size as usize,
        });
        calls.extend(of_head(layer, 63 * layer, &mut dice));
    }
    calls.extend([
        Call::MemoryBytes,
        Call::Truncate { layer: 1, to: 0 },
        Call::Open(Shape { layers: 3, ..SHAPE }),
    ]);
    calls
}

/// The score and the sums of the one position of a head.
fn of_head(layer: u32, head: u32, dice: &mut Dice) -> [Call; 2] {
    let head = Head { layer, head };
    let row = SHAPE.head_size as usize;
    [
        Call::Scores {
            head,
            query: summands::plain_run(row, dice),
            scale: 0.0625f32.to_bits(),
            output: vec![0; 1],
            lent: 1,
        },
        Call::Sums {
            head,
            weights: summands::plain_run(1, dice),
            output: vec![0; row],
            lent: row,
        },
    ]
}
