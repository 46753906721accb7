//! Codes and scales: how one number, a run or a group is stored, and how it is read.
use crate::boundary;
use crate::Refusal;

/// The scale of an INT8 head: the largest magnitude, NaN skipped, by 127, or 1 where that is 0.
///
/// ```
/// use karonjeenu::codes::int8_scale;
///
/// let smallest = f32::from_bits(1);
/// assert_eq!(int8_scale(&[127.0, 0.5, -0.5, -2.5]), 1.0);
/// assert_eq!(int8_scale(&[63.0 * smallest]), 0.0);
/// assert_eq!(int8_scale(&[64.0 * smallest]), smallest);
/// assert_eq!(int8_scale(&[]), 1.0);
/// ```
#[must_use]
pub fn int8_scale(run: &[f32]) -> f32 {
    boundary::int8_scale(run)
}

/// The scale of an INT4 group: the largest magnitude, NaN skipped, by 7, or 1 where that is 0.
///
/// ```
/// use karonjeenu::codes::int4_scale;
///
/// let smallest = f32::from_bits(1);
/// assert_eq!(int4_scale(&[3.0 * smallest]), 0.0);
/// assert_eq!(int4_scale(&[4.0 * smallest]), smallest);
/// assert_eq!(int4_scale(&[f32::NAN; 32]), 1.0);
/// assert_eq!(int4_scale(&[1.0, f32::INFINITY]), f32::INFINITY);
/// ```
#[must_use]
pub fn int4_scale(run: &[f32]) -> f32 {
    boundary::int4_scale(run)
}

/// The INT8 code of a number, -127 to 127; a store's byte is the same in two's complement.
///
/// ```
/// use karonjeenu::codes::quantize_i8;
///
/// let coded = [127.0, 0.5, -0.5, -2.5].map(|x| quantize_i8(x, 1.0));
/// assert_eq!(coded, [127, 1, -1, -3]);
/// assert_eq!(quantize_i8(f32::from_bits(0x3EFF_FFFF), 1.0), 0);
/// ```
#[must_use]
pub fn quantize_i8(x: f32, scale: f32) -> i8 {
    boundary::kv_quantize_i8(x.to_bits(), scale) as i8
}

/// The INT4 code of a number, 0 to 15 for -8 to 7.
///
/// ```
/// use karonjeenu::codes::quantize_i4;
///
/// // Under a scale of 0 a quotient is infinite, or a NaN for 0.
/// assert_eq!([1.0, -1.0, 0.0].map(|x| quantize_i4(x, 0.0)), [15, 0, 8]);
/// ```
#[must_use]
pub fn quantize_i4(x: f32, scale: f32) -> u8 {
    boundary::kv_quantize_i4(x.to_bits(), scale)
}

/// The number that an INT8 code reads as: code times scale, a NaN being the word 7FC00000.
///
/// ```
/// use karonjeenu::codes::dequantize_i8;
///
/// assert_eq!(dequantize_i8(-3, 0.5), -1.5);
/// ```
#[must_use]
pub fn dequantize_i8(code: i8, scale: f32) -> f32 {
    f32::from_bits(boundary::kv_dequantize_i8(code as u8, scale))
}

/// Codes the first 32 numbers into the first 16 bytes: byte i has number i, and 16 times number i + 16.
///
/// # Errors
///
/// [`Refusal::Size`] under 32 numbers or 16 bytes.
///
/// ```
/// use karonjeenu::codes::{int4_scale, pack_i4_group};
///
/// let mut group = [0.0; 32];
/// (group[0], group[16]) = (7.0, -7.0);
/// let scale = int4_scale(&group);
/// let mut packed = [0; 16];
/// pack_i4_group(&group, scale, &mut packed)?;
/// assert_eq!(scale, 1.0);
/// assert_eq!((packed[0], &packed[1..]), (0x1F, &[0x88; 15][..]));
/// # Ok::<(), karonjeenu::Refusal>(())
/// ```
pub fn pack_i4_group(src: &[f32], scale: f32, dst: &mut [u8]) -> Result<(), Refusal> {
    boundary::pack_i4_group(src, scale, dst)
}

/// Reads the first 16 bytes into the first 32 numbers: code less 8, times scale, a NaN being the word 7FC00000.
///
/// # Errors
///
/// [`Refusal::Size`] under 16 bytes or 32 numbers.
///
/// ```
/// use karonjeenu::codes::unpack_i4_group;
///
/// let mut group = [0.0; 32];
/// unpack_i4_group(&[0x1F; 16], 0.5, &mut group)?;
/// assert_eq!((group[0], group[16]), (3.5, -3.5));
/// unpack_i4_group(&[0x88; 16], f32::INFINITY, &mut group)?;
/// assert!(group.iter().all(|x| x.is_nan()));
/// # Ok::<(), karonjeenu::Refusal>(())
/// ```
pub fn unpack_i4_group(packed: &[u8], scale: f32, dst: &mut [f32]) -> Result<(), Refusal> {
    boundary::unpack_i4_group(packed, scale, dst)
}

/// The BF16 pattern of a number.
///
/// ```
/// use karonjeenu::codes::f32_to_bf16;
///
/// let patterns = [0x3F80_8000, 0x3F81_8000, 0x7F7F_FFFF];
/// assert_eq!(patterns.map(|bits| f32_to_bf16(f32::from_bits(bits))), [0x3F80, 0x3F82, 0x7F80]);
/// ```
#[must_use]
pub fn f32_to_bf16(x: f32) -> u16 {
    boundary::kv_f32_to_bf16(x.to_bits())
}

/// The number of a BF16 pattern: 16 zero bits are put below it.
///
/// ```
/// use karonjeenu::codes::bf16_to_f32;
///
/// assert_eq!(bf16_to_f32(0x3F82).to_bits(), 0x3F82_0000);
/// ```
#[must_use]
pub fn bf16_to_f32(half: u16) -> f32 {
    f32::from_bits(boundary::kv_bf16_to_f32(half))
}
