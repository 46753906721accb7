//! The paper's rules for codes, rows, scores and sums, computed plainly.
use karonjeenu::Format;

/// The numbers of a group.
const GROUP: usize = 32;

/// The largest magnitude, NaN skipped, by a divisor; 1 where it is 0.
fn scale(run: &[f32], by: f32) -> f32 {
    let larger = |most: f32, x: &f32| if x.abs() > most { x.abs() } else { most };
    let largest = run.iter().fold(0.0, larger);
    if largest == 0.0 {
        1.0
    } else {
        largest / by
    }
}

pub fn int8_scale(run: &[f32]) -> f32 {
    scale(run, 127.0)
}

pub fn int4_scale(run: &[f32]) -> f32 {
    scale(run, 7.0)
}

/// The nearest whole quotient, halves away from zero, from `least` to `most`; 0 for a NaN.
fn nearest(x: f32, scale: f32, least: f32, most: f32) -> f32 {
    let quotient = (x / scale).round();
    if quotient.is_nan() {
        0.0
    } else {
        quotient.clamp(least, most)
    }
}

pub fn code8(x: f32, scale: f32) -> i8 {
    nearest(x, scale, -127.0, 127.0) as i8
}

pub fn code4(x: f32, scale: f32) -> u8 {
    (nearest(x, scale, -8.0, 7.0) + 8.0) as u8
}

pub fn bf16(x: f32) -> u16 {
    let bits = x.to_bits();
    let sum = bits.wrapping_add(32_767).wrapping_add((bits >> 16) & 1);
    (sum >> 16) as u16
}

pub fn from_bf16(half: u16) -> f32 {
    f32::from_bits(u32::from(half) << 16)
}

/// The bytes of a group: byte i is the code of number i, plus 16 times the code of number i + 16.
pub fn packed(group: &[f32], scale: f32) -> Vec<u8> {
    let byte = |i| code4(group[i], scale) + 16 * code4(group[i + 16], scale);
    (0..GROUP / 2).map(byte).collect()
}

/// A stored group: its scale, and its codes less 8.
struct Group {
    scale: f32,
    codes: Vec<f32>,
}

/// The groups of a row in INT4.
fn groups(row: &[f32]) -> Vec<Group> {
    let group = |numbers: &[f32]| {
        let scale = int4_scale(numbers);
        let code = |x: &f32| f32::from(code4(*x, scale)) - 8.0;
        Group {
            scale,
            codes: numbers.iter().map(code).collect(),
        }
    };
    row.chunks(GROUP).map(group).collect()
}

/// A row as it reads after it was stored.
pub fn read(format: Format, row: &[f32]) -> Vec<f32> {
    match format {
        Format::F32 => row.to_vec(),
        Format::Bf16 => row.iter().map(|x| from_bf16(bf16(*x))).collect(),
        Format::Int8 => {
            let scale = int8_scale(row);
            let number = |x: &f32| f32::from(code8(*x, scale)) * scale;
            row.iter().map(number).collect()
        }
        Format::Int4 => {
            let numbers =
                |group: Group| group.codes.into_iter().map(move |code| code * group.scale);
            groups(row).into_iter().flat_map(numbers).collect()
        }
        other => panic!("{other:?} is not in the paper"),
    }
}

/// The score of a key under a query.
pub fn score(format: Format, query: &[f32], key: &[f32], scale: f32) -> f32 {
    let mut total = 0.0;
    if format == Format::F32 {
        for (q, k) in query.iter().zip(key) {
            total += q * k;
        }
    } else {
        for (part, group) in query.chunks(GROUP).zip(groups(key)) {
            let mut sum = 0.0;
            for i in 0..GROUP / 2 {
                sum += part[i] * group.codes[i];
                sum += part[i + 16] * group.codes[i + 16];
            }
            total += sum * group.scale;
        }
    }
    total * scale
}

/// The sums of values under their weights.
pub fn sums(format: Format, weights: &[f32], values: &[&[f32]], head_size: usize) -> Vec<f32> {
    let mut sums = vec![0.0; head_size];
    for (weight, value) in weights.iter().zip(values) {
        if format == Format::F32 {
            for (sum, v) in sums.iter_mut().zip(*value) {
                *sum += weight * v;
            }
        } else {
            for (part, group) in sums.chunks_mut(GROUP).zip(groups(value)) {
                for (sum, code) in part.iter_mut().zip(&group.codes) {
                    *sum += (weight * group.scale) * code;
                }
            }
        }
    }
    sums
}
