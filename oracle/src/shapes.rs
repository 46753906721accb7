//! Shapes of random stores.
use crate::dice::Dice;
use crate::record::{Shape, INT4};
use crate::replies::MOST_CELLS;

/// The limits of layers, heads, head size and capacity.
pub const LIMITS: [u32; 4] = [128, 64, 256, 4096];

/// The kinds of shapes.
#[derive(Clone, Copy, PartialEq)]
pub enum Size {
    /// All sizes are small.
    Small,
    /// Every head size.
    Wide,
    /// One or two sizes are at their limit.
    Limit,
}

impl Size {
    /// A kind, mostly small.
    pub fn drawn(dice: &mut Dice) -> Size {
        match dice.below(40) {
            0 | 1 => Size::Limit,
            2..=7 => Size::Wide,
            _ => Size::Small,
        }
    }

    /// A shape of the kind; one at a limit has at most so many bytes of buffers.
    pub fn shape(self, most_bytes: u128, dice: &mut Dice) -> Shape {
        let format = dice.below(4);
        match self {
            Size::Small => {
                let head_size = [1 + dice.below(12), 32 + 32 * dice.below(2)];
                let head_size = head_size[usize::from(format == INT4)];
                made(
                    format,
                    [
                        1 + dice.below(4),
                        1 + dice.below(4),
                        head_size,
                        1 + dice.below(8),
                    ],
                )
            }
            Size::Wide => {
                let head_size = [1 + dice.below(256), 32 + 32 * dice.below(8)];
                let head_size = head_size[usize::from(format == INT4)];
                made(
                    format,
                    [
                        1 + dice.below(2),
                        1 + dice.below(2),
                        head_size,
                        1 + dice.below(4),
                    ],
                )
            }
            Size::Limit => at_limits(format, most_bytes, dice),
        }
    }
}

/// A shape from its format and its sizes.
fn made(format: u32, sizes: [u32; 4]) -> Shape {
    let [layers, heads, head_size, capacity] = sizes;
    Shape {
        format,
        layers,
        heads,
        head_size,
        capacity,
    }
}

/// A shape with one or two sizes at their limit, whose buffers are not too large.
fn at_limits(format: u32, most_bytes: u128, dice: &mut Dice) -> Shape {
    loop {
        let mut sizes = [
            1 + dice.below(3),
            1 + dice.below(3),
            1 + dice.below(40),
            1 + dice.below(4),
        ];
        if format == INT4 {
            sizes[2] = 32;
        }
        for _ in 0..2 {
            let place = dice.place(4);
            sizes[place] = LIMITS[place];
        }
        let shape = made(format, sizes);
        if shape.cells() + 4 * shape.scales() <= most_bytes {
            return shape;
        }
    }
}

/// A shape inside each single limit that needs more than anybody lends here.
pub fn huge(dice: &mut Dice) -> Shape {
    match dice.below(2) {
        0 => near_all_limits(dice),
        _ => at_cell_total(dice),
    }
}

/// A shape with every size at its limit or a little below, mostly with too many cells.
fn near_all_limits(dice: &mut Dice) -> Shape {
    let format = dice.below(4);
    let mut sizes = LIMITS;
    for (size, limit) in sizes.iter_mut().zip(LIMITS) {
        if dice.below(3) == 0 {
            *size = limit - dice.below(4);
        }
    }
    if format == INT4 {
        sizes[2] = LIMITS[2];
    }
    made(format, sizes)
}

/// A shape whose cells are exactly as many as a store may have, or whose layers are one too many for that.
fn at_cell_total(dice: &mut Dice) -> Shape {
    loop {
        let format = dice.below(4);
        let sizes = LIMITS.map(|limit| 1 << dice.below(limit.ilog2() + 1));
        let mut shape = made(format, sizes);
        let whole_groups = format != INT4 || shape.head_size >= 32;
        if shape.cells() == MOST_CELLS && whole_groups {
            shape.layers += dice.below(2) * u32::from(shape.layers < LIMITS[0]);
            return shape;
        }
    }
}

/// The same shape with one word outside its limits.
pub fn spoiled(shape: &Shape, dice: &mut Dice) -> Shape {
    let mut shape = *shape;
    let word = |limit: u32, dice: &mut Dice| [0, limit + 1, u32::MAX][dice.place(3)];
    match dice.below(6) {
        0 => shape.format = [4, 5, u32::MAX][dice.place(3)],
        1 => shape.layers = word(LIMITS[0], dice),
        2 => shape.heads = word(LIMITS[1], dice),
        3 => shape.head_size = word(LIMITS[2], dice),
        4 => shape.capacity = word(LIMITS[3], dice),
        _ => {
            shape.format = INT4;
            shape.head_size = 1 + dice.below(63);
        }
    }
    shape
}
