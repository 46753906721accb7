// Lifted from xigh/herbert-rs 1192c3f072, crates/backends/backend_common/src/kv_cache.rs,
// MIT licence, see NOTICE.

#[inline]
pub fn compute_int8_scale(head: &[f32]) -> f32 {
    let max_abs = head.iter().copied().fold(0.0f32, |a, x| a.max(x.abs()));
    if max_abs == 0.0 {
        1.0
    } else {
        max_abs / 127.0
    }
}

#[inline]
pub fn quantize_i8(x: f32, scale: f32) -> i8 {
    (x / scale).round().clamp(-127.0, 127.0) as i8
}

/// Group size for INT4 quantization (number of elements per scale).
pub const INT4_GROUP_SIZE: usize = 32;

/// Compute scale for a group of elements: symmetric, scale = max_abs / 7.0.
#[inline]
pub fn compute_int4_scale(group: &[f32]) -> f32 {
    let max_abs = group.iter().copied().fold(0.0f32, |a, x| a.max(x.abs()));
    if max_abs == 0.0 {
        1.0
    } else {
        max_abs / 7.0
    }
}

/// Number of groups for a given head_dim.
#[inline]
pub fn int4_num_groups(head_dim: usize) -> usize {
    head_dim / INT4_GROUP_SIZE
}

/// Quantize a single f32 value to 4-bit signed [-8, +7], returned as u8 [0, 15].
#[inline]
pub fn quantize_i4(x: f32, scale: f32) -> u8 {
    let q = (x / scale).round().clamp(-8.0, 7.0) as i8;
    (q + 8) as u8 // unsigned [0, 15]
}

/// Pack a group of 32 f32 elements into 16 bytes using half-split layout.
/// byte[i] = elem[i] | (elem[i+16] << 4) for i in 0..16.
#[inline]
pub fn pack_i4_group(src: &[f32], scale: f32, dst: &mut [u8]) {
    debug_assert!(src.len() >= 32);
    debug_assert!(dst.len() >= 16);
    for i in 0..16 {
        let lo = quantize_i4(src[i], scale);
        let hi = quantize_i4(src[i + 16], scale);
        dst[i] = lo | (hi << 4);
    }
}

/// Unpack a group of 16 packed bytes into 32 f32 values (half-split layout).
#[inline]
pub fn unpack_i4_group(packed: &[u8], scale: f32, dst: &mut [f32]) {
    debug_assert!(packed.len() >= 16);
    debug_assert!(dst.len() >= 32);
    for i in 0..16 {
        let byte = packed[i];
        let lo = (byte & 0x0F) as i32 - 8;
        let hi = (byte >> 4) as i32 - 8;
        dst[i] = lo as f32 * scale;
        dst[i + 16] = hi as f32 * scale;
    }
}
