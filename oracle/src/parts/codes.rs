//! The code of a number under a scale, against `quantize_i8` and `quantize_i4`.
use crate::dice::Dice;
use crate::part::{Part, Reach};
use crate::patterns::each_pattern;
use crate::tally::Tally;
use crate::words::{any, moderate, signed, special, specials, subnormal, tiny};
use crate::{boundary, rust};
use std::hint::black_box;

/// Random pairs in one piece.
const PAIRS: u64 = 1 << 18;
/// The largest whole number below a half that is tried as a quotient.
const LAST_WHOLE: i32 = 130;

/// Every pattern at scale 1.0, the specials crossed, and random pairs.
pub fn parts(reach: Reach) -> Vec<Part> {
    let one = black_box(1.0f32).to_bits();
    vec![
        each_pattern(
            "codes of each pattern at scale 1.0",
            reach,
            move |word, tally| codes(word, one, tally),
        ),
        Part::new(
            "codes of specials crossed",
            specials().len() as u64,
            crossed,
        ),
        Part::new("codes of random pairs", reach.pick(256, 16), random_pairs),
    ]
}

/// Compares both codes of a number under a scale.
#[inline]
fn codes(word: u32, scale_word: u32, tally: &mut Tally) {
    let (number, scale) = (f32::from_bits(word), f32::from_bits(scale_word));
    tally.equal(
        rust::quantize_i8(number, scale) as u8,
        boundary::quantize_i8(word, scale),
        || format!("int8 number {word:08x} scale {scale_word:08x}"),
    );
    tally.equal(
        rust::quantize_i4(number, scale),
        boundary::quantize_i4(word, scale),
        || format!("int4 number {word:08x} scale {scale_word:08x}"),
    );
}

/// Every special number under one special scale.
fn crossed(piece: u64, tally: &mut Tally) {
    let scale = specials()[piece as usize];
    for &word in specials() {
        codes(word, scale, tally);
    }
}

/// Random pairs of a number and a scale.
fn random_pairs(piece: u64, tally: &mut Tally) {
    let mut dice = Dice::of("pairs", piece);
    for _ in 0..PAIRS {
        let (word, scale) = pair(&mut dice);
        codes(word, scale, tally);
    }
}

/// Both codes of a pair that the dice make.
pub fn play(dice: &mut Dice, tally: &mut Tally) {
    let (word, scale) = pair(dice);
    codes(word, scale, tally);
}

/// A number and a scale, often with a quotient near a half.
fn pair(dice: &mut Dice) -> (u32, u32) {
    match dice.below(8) {
        0 => (dice.word(), dice.word()),
        1 => (any(dice), any(dice)),
        2 => (special(dice), any(dice)),
        3 => (tiny(dice), tiny(dice)),
        4 => (subnormal(dice), subnormal(dice)),
        5 => exact_half(dice),
        6 => near_half(dice),
        _ => near_range(dice),
    }
}

/// A quotient of a whole number and a half exactly, or from a number one step beside.
fn exact_half(dice: &mut Dice) -> (u32, u32) {
    let unit = power_of_two(dice.between(-148, 103));
    let digits = f64::from(1 + dice.below(1 << 15));
    let scale = (digits * unit) as f32;
    let number = (half(dice) * digits * unit) as f32;
    (beside(number, 1, dice), signed(scale.to_bits(), dice))
}

/// A quotient near a whole number and a half, under any normal scale.
fn near_half(dice: &mut Dice) -> (u32, u32) {
    let scale = signed((1 + dice.below(245)) << 23 | dice.word() >> 9, dice);
    let number = half(dice) * f64::from(f32::from_bits(scale));
    (beside(number as f32, 2, dice), scale)
}

/// A quotient in and somewhat outside the range of the codes.
fn near_range(dice: &mut Dice) -> (u32, u32) {
    let scale = moderate(dice);
    let quotient = f64::from(dice.between(-1_600_000, 1_600_000)) / 10_000.0;
    let number = quotient * f64::from(f32::from_bits(scale));
    ((number as f32).to_bits(), scale)
}

/// A whole number and a half, of either sign.
fn half(dice: &mut Dice) -> f64 {
    f64::from(dice.between(-LAST_WHOLE - 1, LAST_WHOLE)) + 0.5
}

/// The word of a number, or one at most so many steps beside.
fn beside(number: f32, steps: i32, dice: &mut Dice) -> u32 {
    number
        .to_bits()
        .wrapping_add_signed(dice.between(-steps, steps))
}

/// Two to a power of normal range.
fn power_of_two(exponent: i32) -> f64 {
    f64::from_bits(((1023 + exponent) as u64) << 52)
}

#[cfg(test)]
mod tests {
    use super::*;

    /// Whether the exact quotient is a whole number and a half.
    fn is_half((word, scale): (u32, u32)) -> bool {
        let quotient = f64::from(f32::from_bits(word)) / f64::from(f32::from_bits(scale));
        (quotient * 2.0) % 2.0 != 0.0 && (quotient * 2.0).fract() == 0.0
    }

    #[test]
    fn exact_halves_are_exact_when_not_stepped_beside() {
        let mut dice = Dice::of("test", 0);
        let exact = (0..3000).filter(|_| is_half(exact_half(&mut dice))).count();
        assert!(exact >= 900);
    }
}
