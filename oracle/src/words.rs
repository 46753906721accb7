//! Numbers worth trying, as words.
use crate::dice::Dice;
use std::sync::OnceLock;

/// The bit of a word that is its sign.
pub const SIGN: u32 = 0x8000_0000;
/// The word of infinity, the largest that is no NaN.
pub const INFINITY: u32 = 0x7F80_0000;

/// Magnitudes at which a rule changes, or one of its neighbours does.
const EDGES: [u32; 16] = [
    0x0000_0000,
    0x0040_0000,
    0x0080_0000,
    0x0100_0000,
    0x3F00_0000,
    0x3F80_0000,
    0x4B00_0000,
    0x4B80_0000,
    0x4F00_0000,
    0x5F00_0000,
    0x7E80_0000,
    0x7F00_0000,
    0x7F7F_8000,
    INFINITY,
    0x7FC0_0000,
    0x7FFF_FFFF,
];
/// The last whole number around which every half is tried.
const LAST_WHOLE: u16 = 130;
/// Counts of smallest subnormals at which a scale or a code changes.
const SUBNORMALS: [u32; 14] = [2, 3, 4, 7, 10, 11, 53, 62, 63, 64, 127, 190, 191, 255];

/// The words around which a code, a scale or a half changes, both signs.
pub fn landmarks() -> Vec<u32> {
    let wholes = (1..=LAST_WHOLE).map(|n| f32::from(n).to_bits());
    let halves = (0..=LAST_WHOLE).map(|n| (f32::from(n) + 0.5).to_bits());
    EDGES
        .into_iter()
        .chain(SUBNORMALS)
        .chain(wholes)
        .chain(halves)
        .flat_map(|word| [word, word | SIGN])
        .collect()
}

/// Every landmark and the words one before and one after it.
pub fn specials() -> &'static [u32] {
    static SPECIALS: OnceLock<Vec<u32>> = OnceLock::new();
    SPECIALS.get_or_init(|| {
        let around = |word: u32| [word.wrapping_sub(1), word, word.wrapping_add(1)];
        let mut words: Vec<u32> = landmarks().into_iter().flat_map(around).collect();
        words.sort_unstable();
        words.dedup();
        words
    })
}

/// The word with a random sign.
pub fn signed(word: u32, dice: &mut Dice) -> u32 {
    word & !SIGN | dice.word() & SIGN
}

/// A random special.
pub fn special(dice: &mut Dice) -> u32 {
    let specials = specials();
    specials[dice.place(specials.len())]
}

/// A few of the smallest subnormals, or none.
pub fn tiny(dice: &mut Dice) -> u32 {
    let most = [4, 5, 8, 64, 65, 256][dice.place(6)];
    let count = dice.below(most);
    signed(count, dice)
}

/// Any subnormal, or a zero.
pub fn subnormal(dice: &mut Dice) -> u32 {
    signed(dice.word() >> 9, dice)
}

/// Any NaN, quiet or signalling.
pub fn nan(dice: &mut Dice) -> u32 {
    signed(INFINITY + 1 + dice.below(0x7F_FFFF), dice)
}

/// So many NaN, none of them the one of arithmetic: what an output holds before a call, so that one that is settled shows.
pub fn nans(count: usize, dice: &mut Dice) -> Vec<u32> {
    let words = dice.words(count).into_iter();
    words.map(|word| word | INFINITY | 1).collect()
}

/// A number from about 2^-17 to 2^16.
pub fn moderate(dice: &mut Dice) -> u32 {
    let exponent = 110 + dice.below(33);
    signed(exponent << 23 | dice.word() >> 9, dice)
}

/// A word of any kind, the rare ones often.
pub fn any(dice: &mut Dice) -> u32 {
    match dice.below(10) {
        0..=2 => dice.word(),
        3 | 4 => special(dice),
        5 => tiny(dice),
        6 => subnormal(dice),
        7 => nan(dice),
        _ => moderate(dice),
    }
}

/// A run of numbers of one kind.
pub fn run(length: usize, dice: &mut Dice) -> Vec<u32> {
    match dice.below(10) {
        0 => dice.words(length),
        1 => filled(length, nan, dice),
        2 => filled(length, |dice| signed(0, dice), dice),
        3 => filled(length, tiny, dice),
        4 => filled(length, subnormal, dice),
        5 => filled(length, special, dice),
        6 => with_an_infinity(length, dice),
        7 => filled(length, moderate_or_nan, dice),
        8 => filled(length, moderate, dice),
        _ => filled(length, any, dice),
    }
}

/// A run whose numbers are drawn one by one.
pub fn filled(length: usize, draw: fn(&mut Dice) -> u32, dice: &mut Dice) -> Vec<u32> {
    (0..length).map(|_| draw(dice)).collect()
}

/// A moderate number as often as a NaN.
fn moderate_or_nan(dice: &mut Dice) -> u32 {
    match dice.below(2) {
        0 => moderate(dice),
        _ => nan(dice),
    }
}

/// Moderate numbers with one infinity, where the run has a place for it.
fn with_an_infinity(length: usize, dice: &mut Dice) -> Vec<u32> {
    let mut run = filled(length, moderate, dice);
    if length > 0 {
        run[dice.place(length)] = signed(INFINITY, dice);
    }
    run
}

/// The numbers of a run of words.
pub fn numbers(run: &[u32]) -> Vec<f32> {
    run.iter().copied().map(f32::from_bits).collect()
}

/// The numbers of a run of which the Rust takes a scale.
pub fn measured(run: &[u32]) -> Vec<f32> {
    run.iter().copied().map(f32::from_bits).map(quiet).collect()
}

/// A number that the Rust's `max` treats alike on every machine: on Arm it answers a NaN where one of the two is signalling, and so
/// forgets the largest number before it, where it skips a quiet one.
pub fn quiet(number: f32) -> f32 {
    if cfg!(target_arch = "aarch64") && number.is_nan() {
        f32::NAN
    } else {
        number
    }
}

#[cfg(test)]
mod tests {
    use super::*;
    use crate::rules::word_of;

    #[test]
    fn a_settled_nan_of_an_output_shows() {
        let nans = nans(1000, &mut Dice::of("outputs", 0));
        assert!(nans.iter().all(|&nan| f32::from_bits(nan).is_nan()));
        assert!(nans.iter().all(|&nan| word_of(f32::from_bits(nan)) != nan));
        let quiet = |nan: &u32| nan & 0x0040_0000 != 0;
        for (sign, payload) in [(0, true), (0, false), (SIGN, true), (SIGN, false)] {
            assert!(nans
                .iter()
                .any(|nan| nan & SIGN == sign && quiet(nan) == payload));
        }
    }
}
