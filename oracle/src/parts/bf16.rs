//! BF16 both ways, against the paper's rule: the body of `f32_to_bf16` is not in the Rust's text.
use crate::part::{Part, Reach};
use crate::patterns::each_pattern;
use crate::tally::Tally;
use crate::{boundary, rules};

/// Every pattern by the rule and by distance, and every half read.
pub fn parts(reach: Reach) -> Vec<Part> {
    vec![
        each_pattern("bf16 of each pattern by the sum", reach, by_rule),
        each_pattern("bf16 of each number by distance", reach, by_distance),
        Part::new("bf16 halves read", 1, |_, tally| each_half(tally)),
    ]
}

/// Compares a half with the rule's.
#[inline]
fn by_rule(word: u32, tally: &mut Tally) {
    tally.equal(
        rules::bf16_by_rule(word),
        boundary::f32_to_bf16(word),
        || format!("bf16 of {word:08x}"),
    );
}

/// Compares a half with the nearest one, where the word is no NaN.
#[inline]
fn by_distance(word: u32, tally: &mut Tally) {
    if let Some(nearest) = rules::bf16_by_distance(word) {
        tally.equal(nearest, boundary::f32_to_bf16(word), || {
            format!("bf16 nearest to {word:08x}")
        });
    }
}

/// Compares what every half reads as.
fn each_half(tally: &mut Tally) {
    for half in 0..=u16::MAX {
        tally.equal(rules::read_bf16(half), boundary::bf16_to_f32(half), || {
            format!("bf16 half {half:04x} read")
        });
    }
}
