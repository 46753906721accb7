//! Random shapes: those that an open accepts, and those that it refuses.
use crate::dice::Dice;
use crate::shape::{Shape, BF16, F32, INT4, INT8, LIMITS};

/// A shape that an open accepts.
pub fn at_hand(dice: &mut Dice) -> Shape {
    loop {
        let shape = match dice.below(10) {
            0 if dice.one_of(2) => edge(0, dice),
            0 => brim(dice),
            1 => drawn([2, 2, 256, 4], dice),
            2 => drawn([2, 1, 3, 4096], dice),
            3 => drawn([128, 2, 4, 4], dice),
            4 => drawn([2, 64, 6, 4], dice),
            _ => drawn([4, 3, 8, 6], dice),
        };
        if is_accepted(&shape) {
            return shape;
        }
    }
}

/// A shape that an open refuses, nearly or by far.
pub fn refused(dice: &mut Dice) -> Shape {
    loop {
        let shape = match dice.below(8) {
            0 | 1 => spoiled(at_hand(dice), dice),
            2 => spoiled(drawn(LIMITS, dice), dice),
            3 => past_brim(dice),
            4 => edge(1, dice),
            5 => drawn(LIMITS, dice),
            6 => about_most_cells(dice),
            _ => torn_groups(dice),
        };
        if !is_accepted(&shape) {
            return shape;
        }
    }
}

fn is_accepted(shape: &Shape) -> bool {
    shape.is_within_limits() && shape.is_at_hand()
}

/// A shape of any format with sizes up to these, sometimes just these; in INT4 a head has whole groups.
fn drawn(most: [u16; 4], dice: &mut Dice) -> Shape {
    let format = dice.below(4) as u8;
    let mut sizes = most.map(|most| match dice.below(8) {
        0 => most,
        _ => up_to(most, dice),
    });
    if format == INT4 {
        sizes[2] = 32 * up_to((most[2] / 32).max(1), dice);
    }
    Shape::new(format, sizes)
}

/// A random size from 1 to `most`.
fn up_to(most: u16, dice: &mut Dice) -> u16 {
    1 + dice.below(most.into()) as u16
}

/// A shape with as many positions as there is room for.
fn brim(dice: &mut Dice) -> Shape {
    loop {
        let shape = drawn([8, 4, 64, 1], dice);
        let with = |capacity| Shape { capacity, ..shape };
        let most = (1..=LIMITS[3]).rev().map(with).find(is_accepted);
        if let Some(shape) = most {
            return shape;
        }
    }
}

/// The same with one position more.
fn past_brim(dice: &mut Dice) -> Shape {
    let shape = brim(dice);
    Shape {
        capacity: shape.capacity + 1,
        ..shape
    }
}

/// A shape that needs all cell bytes or scale words at hand, or `more` than that by as little as its format allows.
fn edge(more: u32, dice: &mut Dice) -> Shape {
    // A side has half of it: so many numbers of 4, 2 and 1 bytes, or so many scale words.
    match dice.below(5) {
        0 => Shape::new(F32, sizes_of(4096 + more, LIMITS, dice)),
        1 => Shape::new(BF16, sizes_of(8192 + more, LIMITS, dice)),
        2 => Shape::new(INT8, sizes_of(16_384 + more, LIMITS, dice)),
        3 => {
            // With so few numbers to a head the cell bytes are enough.
            let [layers, heads, _, capacity] = sizes_of(1024 + more, [128, 64, 1, 4096], dice);
            Shape::new(INT8, [layers, heads, up_to(15, dice), capacity])
        }
        _ => {
            let [layers, heads, groups, capacity] = sizes_of(1024 + more, [128, 64, 8, 4096], dice);
            Shape::new(INT4, [layers, heads, 32 * groups, capacity])
        }
    }
}

/// Random sizes up to these with this product.
fn sizes_of(product: u32, most: [u16; 4], dice: &mut Dice) -> [u16; 4] {
    loop {
        let (mut sizes, mut rest) = (most, product);
        for size in &mut sizes[..3] {
            let divides = |size: &u16| rest % u32::from(*size) == 0;
            let divisors: Vec<u16> = (1..=*size).filter(divides).collect();
            *size = dice.pick(&divisors);
            rest /= u32::from(*size);
        }
        if rest <= most[3].into() {
            sizes[3] = rest as u16;
            return sizes;
        }
    }
}

/// A shape with powers of two as sizes, about as many cells as any store may have.
fn about_most_cells(dice: &mut Dice) -> Shape {
    let format = dice.below(4) as u8;
    let sizes = LIMITS.map(|limit| (limit >> dice.below(3)) - u16::from(dice.one_of(8)));
    Shape::new(format, sizes)
}

/// An INT4 shape whose heads have no whole groups.
fn torn_groups(dice: &mut Dice) -> Shape {
    let rest = dice.pick(&[1, 8, 16, 16, 24, 31]);
    Shape {
        format: INT4,
        head_size: 32 * dice.below(8) as u16 + rest,
        ..drawn([2, 2, 1, 4], dice)
    }
}

/// A shape with one field outside its limits.
fn spoiled(shape: Shape, dice: &mut Dice) -> Shape {
    let mut sizes = shape.sizes();
    let place = dice.place(5);
    if place == 4 {
        let format = dice.pick(&[4, 5, 16, 128, u8::MAX]);
        return Shape { format, ..shape };
    }
    let same_low_byte = sizes[place] % 256 + 256 * 17;
    sizes[place] = dice.pick(&[0, LIMITS[place] + 1, same_low_byte, u16::MAX]);
    Shape::new(dice.pick(&[shape.format, F32, INT8]), sizes)
}
