//! Random numbers as a predictor has them, and at the edges of the formats.
use dice::Dice;

/// Numbers at the edges: zeros, subnormals, the least normal, the greatest, infinities, and NaN quiet and signalling.
pub const EDGES: [u32; 13] = [
    0x0000_0000,
    0x8000_0000,
    0x0000_0001,
    0x8000_0003,
    0x007F_FFFF,
    0x0080_0000,
    0x7F7F_FFFF,
    0xFF7F_FFFF,
    0x7F80_0000,
    0xFF80_0000,
    0x7FC0_0001,
    0x7F80_0001,
    0xFFFF_FFFF,
];

/// A number as a predictor has them, from -8 to 8.
fn plain(word: u32) -> f32 {
    word as i32 as f32 / (1 << 28) as f32
}

/// A number at an edge, of any pattern, or plain.
fn wild(dice: &mut Dice) -> f32 {
    match dice.below(8) {
        0 => f32::from_bits(dice.pick(&EDGES)),
        1 => f32::from_bits(dice.word()),
        _ => plain(dice.word()),
    }
}

/// Plain numbers.
pub fn plains(dice: &mut Dice, count: usize) -> Vec<f32> {
    dice.words(count).into_iter().map(plain).collect()
}

/// Plain numbers, or wild ones just as often.
pub fn any(dice: &mut Dice, count: usize) -> Vec<f32> {
    if dice.one_of(2) {
        plains(dice, count)
    } else {
        (0..count).map(|_| wild(dice)).collect()
    }
}
