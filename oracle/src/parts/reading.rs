//! What an INT8 code reads as, against its number times the scale.
//!
//! INT4 codes are read by unpacking a group.
use crate::dice::Dice;
use crate::part::{Part, Reach};
use crate::tally::Tally;
use crate::words::{any, specials};
use crate::{boundary, rules};

/// Random scales in one piece.
const SCALES: u64 = 1 << 10;

/// Every byte at every special scale and at random ones.
pub fn parts(reach: Reach) -> Vec<Part> {
    let pieces = reach.pick(1024, 16);
    vec![
        Part::new(
            "int8 codes read at specials",
            specials().len() as u64,
            |piece, tally| each_code(specials()[piece as usize], tally),
        ),
        Part::new("int8 codes read at random scales", pieces, random_scales),
    ]
}

/// Every byte at random scales.
fn random_scales(piece: u64, tally: &mut Tally) {
    let mut dice = Dice::of("reading", piece);
    for _ in 0..SCALES {
        each_code(any(&mut dice), tally);
    }
}

/// Compares every byte at one scale.
fn each_code(scale_word: u32, tally: &mut Tally) {
    let scale = f32::from_bits(scale_word);
    for code in 0..=255 {
        tally.equal(
            rules::read_i8(code, scale),
            boundary::dequantize_i8(code, scale),
            || format!("int8 code {code:02x} scale {scale_word:08x}"),
        );
    }
}
