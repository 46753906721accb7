//! What the paper decides beside the Rust: reading, words of arithmetic, BF16, byte counts of any record.
use crate::record::Record;
use crate::rust::{unpack_i4_group, INT4_GROUP_SIZE};

/// The word that a NaN made by arithmetic is written as.
const ARITHMETIC_NAN: u32 = 0x7FC0_0000;
/// The number after the largest BF16, whose half is infinity's.
const AFTER_LARGEST: f64 = (1u128 << 127) as f64 * 2.0;

/// The word of a number made by arithmetic.
pub fn word_of(number: f32) -> u32 {
    if number.is_nan() {
        ARITHMETIC_NAN
    } else {
        number.to_bits()
    }
}

/// The word that an INT8 code reads as; 80 hex counts as -128.
pub fn read_i8(code: u8, scale: f32) -> u32 {
    word_of((code as i8) as f32 * scale)
}

/// The words that 16 packed bytes read as.
pub fn read_i4_group(packed: &[u8], scale: f32) -> [u32; INT4_GROUP_SIZE] {
    let mut numbers = [0.0; INT4_GROUP_SIZE];
    unpack_i4_group(packed, scale, &mut numbers);
    numbers.map(word_of)
}

/// The BF16 half of a word: the pattern, 32,767 and bit 16 added modulo 2^32, the upper 16 bits.
pub fn bf16_by_rule(word: u32) -> u16 {
    let pattern = u64::from(word);
    let sum = pattern + 32_767 + (pattern >> 16) % 2;
    ((sum % (1 << 32)) >> 16) as u16
}

/// The word that a BF16 half reads as.
pub fn read_bf16(half: u16) -> u32 {
    u32::from(half) * 65_536
}

/// The byte count of a record inside the limits: the sum over layers of length · 2H(B + 4S).
pub fn byte_count(record: &Record) -> u64 {
    let shape = record.shape();
    let row = shape.row_bytes() + 4 * shape.row_scales();
    let position = 2 * u64::from(shape.heads) * row;
    let positions: u64 = record
        .lengths()
        .iter()
        .map(|length| u64::from(*length))
        .sum();
    positions * position
}

/// The BF16 half nearest to a number, the even one of two equally near; none of a NaN.
/// A number at least as near to 2^128 as to the largest BF16 goes to infinity.
pub fn bf16_by_distance(word: u32) -> Option<u16> {
    let number = f32::from_bits(word);
    let inner = (word >> 16) as u16;
    if number.is_nan() {
        return None;
    }
    if number.is_infinite() {
        return Some(inner);
    }
    let outer = inner + 1;
    let magnitude = f64::from(number.abs());
    let inwards = magnitude - bf16_magnitude(inner);
    let outwards = bf16_magnitude(outer) - magnitude;
    let to_inner = inwards < outwards || (inwards == outwards && inner % 2 == 0);
    Some(if to_inner { inner } else { outer })
}

/// The magnitude of a BF16 half, that of infinity taken as 2^128.
fn bf16_magnitude(half: u16) -> f64 {
    let number = f32::from_bits(read_bf16(half)).abs();
    if number.is_infinite() {
        AFTER_LARGEST
    } else {
        f64::from(number)
    }
}

#[cfg(test)]
mod tests {
    use super::*;

    #[test]
    fn halves_go_to_the_even_neighbour() {
        for (word, half) in [
            (0x3F80_8000, 0x3F80),
            (0x3F81_8000, 0x3F82),
            (0x7F7F_FFFF, 0x7F80),
        ] {
            assert_eq!(bf16_by_rule(word), half);
            assert_eq!(bf16_by_distance(word), Some(half));
        }
    }

    #[test]
    fn the_sum_wraps() {
        assert_eq!(bf16_by_rule(0xFFFF_FFFF), 0);
        assert_eq!(bf16_by_distance(0xFFFF_FFFF), None);
    }

    #[test]
    fn the_byte_80_reads_as_minus_128() {
        assert_eq!(read_i8(0x80, 1.0), (-128.0f32).to_bits());
    }

    #[test]
    fn infinity_times_a_zero_code_is_the_one_nan() {
        assert_eq!(read_i8(0, f32::INFINITY), ARITHMETIC_NAN);
    }
}
