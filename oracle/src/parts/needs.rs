//! What a shape needs, against the paper's products.
use crate::dice::Dice;
use crate::part::{Part, Reach};
use crate::record::Shape;
use crate::shapes::{huge, spoiled, Size, LIMITS};
use crate::tally::Tally;
use crate::{boundary, replies};

/// Random shapes in one piece.
const SHAPES: u64 = 1 << 12;
/// Formats that are tried: those that are there, and two more.
const FORMATS: u64 = 6;
/// The most bytes of both buffers that a shape at its limits needs.
const MOST_BYTES: u128 = 1 << 30;

/// Every size at and beside each limit, crossed, and random shapes.
pub fn parts(reach: Reach) -> Vec<Part> {
    vec![
        Part::new("needs beside the limits", FORMATS, crossed),
        Part::new("needs of random shapes", reach.pick(1024, 16), random),
    ]
}

/// The sizes at and beside a limit, and those that decide about whole groups.
fn beside(limit: u32) -> [u32; 10] {
    [0, 1, 2, 31, 32, 33, limit / 2, limit - 1, limit, limit + 1]
}

/// Every shape of one format with such sizes.
fn crossed(piece: u64, tally: &mut Tally) {
    let [layers, heads, head_sizes, capacities] = LIMITS.map(beside);
    for layers in layers {
        for heads in heads {
            for head_size in head_sizes {
                for capacity in capacities {
                    let format = piece as u32;
                    need(
                        &Shape {
                            format,
                            layers,
                            heads,
                            head_size,
                            capacity,
                        },
                        tally,
                    );
                }
            }
        }
    }
}

/// Random shapes, inside the limits or not.
fn random(piece: u64, tally: &mut Tally) {
    let mut dice = Dice::of("needs", piece);
    for _ in 0..SHAPES {
        play(&mut dice, tally);
    }
}

/// The need of a shape that the dice make.
pub fn play(dice: &mut Dice, tally: &mut Tally) {
    let shape = match dice.below(3) {
        0 => huge(dice),
        _ => Size::drawn(dice).shape(MOST_BYTES, dice),
    };
    let shape = match dice.below(4) {
        0 => spoiled(&shape, dice),
        _ => shape,
    };
    need(&shape, tally);
}

/// Compares the reply and both counts of a shape.
fn need(shape: &Shape, tally: &mut Tally) {
    let reply = replies::need(shape);
    let (cells, scales) = match reply {
        boundary::DONE => (shape.cells(), shape.scales()),
        _ => (0, 0),
    };
    let (our_reply, ours) = boundary::need(shape);
    let ours = (our_reply, ours.cells as u128, ours.scales as u128);
    tally.equal((reply, cells, scales), ours, || {
        format!("need of {shape:?}")
    });
}
