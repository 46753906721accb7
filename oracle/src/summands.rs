//! Numbers to multiply and add up: mostly such that the sum is a number too, whose last bits tell how it was made.
use crate::dice::Dice;
use crate::words::{self, filled, moderate, nan, signed, subnormal, INFINITY, SIGN};

/// The most rare words that stand among ordinary ones.
const RARE: u32 = 3;

/// A run of summands of one kind.
pub fn run(length: usize, dice: &mut Dice) -> Vec<u32> {
    match dice.below(16) {
        0..=9 => plain_run(length, dice),
        10 | 11 => with_rare_ones(length, dice),
        12 => filled(length, huge, dice),
        13 => filled(length, subnormal, dice),
        14 => vec![signed(0, dice); length],
        _ => words::run(length, dice),
    }
}

/// A run without a NaN, infinities, or numbers near the ends of the range.
pub fn plain_run(length: usize, dice: &mut Dice) -> Vec<u32> {
    match dice.below(10) {
        0..=3 => filled(length, moderate, dice),
        4 | 5 => filled(length, step, dice),
        6 | 7 => filled(length, moderate_or_step, dice),
        8 => filled(length, small_whole, dice),
        _ => of_one_sign(length, dice),
    }
}

/// What scores are multiplied by at the end: mostly a moderate number.
pub fn factor(dice: &mut Dice) -> u32 {
    match dice.below(16) {
        0 => words::any(dice),
        1 => rare(dice),
        2 => 1.0f32.to_bits(),
        _ => moderate(dice),
    }
}

/// A word that changes what comes of a whole sum: a NaN, an infinity, a huge number, a subnormal, a zero.
pub fn rare(dice: &mut Dice) -> u32 {
    match dice.below(5) {
        0 => nan(dice),
        1 => signed(INFINITY, dice),
        2 => huge(dice),
        3 => subnormal(dice),
        _ => signed(0, dice),
    }
}

/// A plain run with some rare words in it, where it has a place for them.
fn with_rare_ones(length: usize, dice: &mut Dice) -> Vec<u32> {
    let mut run = plain_run(length, dice);
    if length > 0 {
        for _ in 0..1 + dice.below(RARE) {
            run[dice.place(length)] = rare(dice);
        }
    }
    run
}

/// Moderate numbers of one sign. Beside zeros of one sign every product is a zero of the same sign.
fn of_one_sign(length: usize, dice: &mut Dice) -> Vec<u32> {
    let sign = dice.word() & SIGN;
    let run = filled(length, moderate, dice);
    run.into_iter().map(|word| word & !SIGN | sign).collect()
}

/// A power of two, of one of five sizes far apart. Products of such numbers cancel often, and the order of additions
/// decides which smaller ones are lost beside them.
fn step(dice: &mut Dice) -> u32 {
    signed((103 + 12 * dice.below(5)) << 23, dice)
}

/// A moderate number as often as a power of two.
fn moderate_or_step(dice: &mut Dice) -> u32 {
    match dice.below(2) {
        0 => moderate(dice),
        _ => step(dice),
    }
}

/// A whole number from -8 to 8, zeros of both signs among them.
fn small_whole(dice: &mut Dice) -> u32 {
    let word = f32::from(dice.below(9) as u16).to_bits();
    signed(word, dice)
}

/// A number from 2^94 on, whose products overflow.
fn huge(dice: &mut Dice) -> u32 {
    let exponent = 221 + dice.below(34);
    exponent << 23 | dice.word() >> 9 | dice.word() & SIGN
}
