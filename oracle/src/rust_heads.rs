// Lifted from xigh/herbert-rs 1192c3f072, crates/backends/backend_common/src/attention_common.rs,
// MIT licence, see NOTICE. Each attention kernel is cut at its softmax, which is left behind: its scores are what stands
// before, its sums what stands after, each with the arguments that it reads. Also left behind are the SIMD branches, and
// the kernels of BF16 and INT8, of which the paper refuses scores and sums.

pub const DECODE_ATTN_SMALL_CONTEXT_THRESHOLD: usize = 64;

/// F32 decode attention kernel (no conversion, pure Rust).
#[inline]
pub fn decode_head_attention_f32_scores(
    q_head: &[f32],
    cached_k_head: &[f32],
    head_dim: usize,
    scale: f32,
    scores: &mut [f32],
) {
    let cached_len = scores.len();
    for j in 0..cached_len {
        let kv_offset = j * head_dim;
        let mut score = 0.0f32;
        for d in 0..head_dim {
            score += q_head[d] * cached_k_head[kv_offset + d];
        }
        scores[j] = score * scale;
    }
}

/// F32 decode attention kernel (no conversion, pure Rust).
#[inline]
pub fn decode_head_attention_f32_sums(
    cached_v_head: &[f32],
    head_dim: usize,
    scores: &mut [f32],
    out_head: &mut [f32],
) {
    let cached_len = scores.len();
    if cached_len <= DECODE_ATTN_SMALL_CONTEXT_THRESHOLD {
        for d in 0..head_dim {
            let mut sum = 0.0f32;
            for j in 0..cached_len {
                sum += scores[j] * cached_v_head[j * head_dim + d];
            }
            out_head[d] = sum;
        }
    } else {
        out_head.fill(0.0);
        for j in 0..cached_len {
            let kv_offset = j * head_dim;
            let score = scores[j];
            for d in 0..head_dim {
                out_head[d] += score * cached_v_head[kv_offset + d];
            }
        }
    }
}

/// Int4 decode attention kernel (Q4_0 group quantization, group_size=32).
/// Per-group scales: num_groups f32 per position (num_groups = head_dim/32).
#[rustfmt::skip]
#[inline]
pub fn decode_head_attention_int4_scores(
    q_head: &[f32],
    cached_k_head: &[u8],
    k_scales: &[f32],       // num_groups * cached_len, flattened [pos0_g0, pos0_g1, ..., pos1_g0, ...]
    head_dim: usize,
    scale: f32,
    scores: &mut [f32],
) {
    let packed_per_pos = head_dim / 2;
    let num_groups = head_dim / 32;

    // ========== Phase 1: Q·K^T with INT4 dequantization ==========
    for (j, score_slot) in scores.iter_mut().enumerate() {
        let kv_offset = j * packed_per_pos;
        let k_packed = &cached_k_head[kv_offset..kv_offset + packed_per_pos];
        let k_group_scales = &k_scales[j * num_groups..(j + 1) * num_groups];
        *score_slot = dot_qf32_ki4(q_head, k_packed, k_group_scales, head_dim) * scale;
    }
}

/// Int4 decode attention kernel (Q4_0 group quantization, group_size=32).
/// Per-group scales: num_groups f32 per position (num_groups = head_dim/32).
#[inline]
pub fn decode_head_attention_int4_sums(
    cached_v_head: &[u8],
    v_scales: &[f32],
    head_dim: usize,
    scores: &mut [f32],
    out_head: &mut [f32],
) {
    let packed_per_pos = head_dim / 2;
    let num_groups = head_dim / 32;

    // ========== Phase 3: Output aggregation with INT4 dequantization ==========
    out_head.fill(0.0);
    for (j, &score) in scores.iter().enumerate() {
        let kv_offset = j * packed_per_pos;
        let v_packed = &cached_v_head[kv_offset..kv_offset + packed_per_pos];
        let v_group_scales = &v_scales[j * num_groups..(j + 1) * num_groups];
        sv_accum_i4(out_head, v_packed, score, v_group_scales, head_dim);
    }
}

/// Compute dot(q_f32, k_i4_packed) with per-group scales.
/// k_packed is half-split layout: head_dim/2 bytes for head_dim elements.
/// group_scales has head_dim/32 entries (one per group of 32 elements).
#[inline(always)]
pub fn dot_qf32_ki4(q: &[f32], k_packed: &[u8], group_scales: &[f32], head_dim: usize) -> f32 {
    debug_assert_eq!(q.len(), head_dim);
    debug_assert_eq!(k_packed.len(), head_dim / 2);
    let num_groups = head_dim / 32;
    debug_assert_eq!(group_scales.len(), num_groups);
    // Scalar fallback: per-group dot product with per-group scale
    let mut acc = 0.0f32;
    for g in 0..num_groups {
        let packed = &k_packed[g * 16..(g + 1) * 16];
        let q_base = g * 32;
        let scale = group_scales[g];
        let mut group_dot = 0.0f32;
        for i in 0..16 {
            let byte = packed[i];
            let lo = ((byte & 0x0F) as i32 - 8) as f32;
            let hi = ((byte >> 4) as i32 - 8) as f32;
            group_dot += q[q_base + i] * lo;
            group_dot += q[q_base + i + 16] * hi;
        }
        acc += group_dot * scale;
    }
    acc
}

/// Accumulate: out += score * dequant(v_i4_packed) with per-group scales.
#[rustfmt::skip]
#[inline(always)]
pub fn sv_accum_i4(out: &mut [f32], v_packed: &[u8], score: f32, group_scales: &[f32], head_dim: usize) {
    debug_assert_eq!(out.len(), head_dim);
    debug_assert_eq!(v_packed.len(), head_dim / 2);
    let num_groups = head_dim / 32;
    debug_assert_eq!(group_scales.len(), num_groups);
    // Scalar fallback: per-group SV accumulation
    for g in 0..num_groups {
        let packed = &v_packed[g * 16..(g + 1) * 16];
        let out_base = g * 32;
        let weighted = score * group_scales[g];
        for i in 0..16 {
            let byte = packed[i];
            let lo = ((byte & 0x0F) as i32 - 8) as f32;
            let hi = ((byte >> 4) as i32 - 8) as f32;
            out[out_base + i] += weighted * lo;
            out[out_base + i + 16] += weighted * hi;
        }
    }
}

#[cfg(test)]
mod tests {
    use super::*;
    use crate::dice::Dice;
    use crate::rules::word_of;
    use crate::rust::{compute_int4_scale, pack_i4_group};
    use crate::{summands, words};
    use std::panic::{catch_unwind, AssertUnwindSafe};

    /// The group of P2: its bytes and its scale.
    fn group() -> ([u8; 16], [f32; 1]) {
        let mut numbers = [0.0; 32];
        numbers[0] = 7.0;
        numbers[16] = -7.0;
        let scale = compute_int4_scale(&numbers);
        let mut bytes = [0; 16];
        pack_i4_group(&numbers, scale, &mut bytes);
        (bytes, [scale])
    }

    /// The sums of each column by itself, and of row after row.
    fn by_columns_and_by_rows(values: &[f32], weights: &[f32], head_dim: usize) -> [Vec<f32>; 2] {
        let column = |d: usize| {
            let mut sum = 0.0f32;
            for (j, weight) in weights.iter().enumerate() {
                sum += weight * values[j * head_dim + d];
            }
            sum
        };
        let mut rows = vec![0.0f32; head_dim];
        for (weight, row) in weights.iter().zip(values.chunks_exact(head_dim)) {
            for (sum, value) in rows.iter_mut().zip(row) {
                *sum += weight * value;
            }
        }
        [(0..head_dim).map(column).collect(), rows]
    }

    /// The words of sums, any NaN as the one NaN.
    fn sum_words(sums: &[f32]) -> Vec<u32> {
        sums.iter().copied().map(word_of).collect()
    }

    #[test]
    fn the_group_of_p2_has_the_score_of_p9() {
        let (keys, scales) = group();
        let mut query = [0.0; 32];
        query[0] = 2.0;
        query[16] = 3.0;
        let mut scores = [0.0];
        decode_head_attention_int4_scores(&query, &keys, &scales, 32, 0.5, &mut scores);
        assert_eq!(scores, [-3.5]);
    }

    #[test]
    fn the_group_of_p2_has_the_sums_of_p9() {
        let (values, scales) = group();
        let mut sums = [9.0; 32];
        decode_head_attention_int4_sums(&values, &scales, 32, &mut [0.25], &mut sums);
        let mut wanted = [0.0; 32];
        wanted[0] = 1.75;
        wanted[16] = -1.75;
        assert_eq!(sums, wanted);
    }

    #[test]
    fn columns_and_rows_give_the_same_bits_around_the_threshold() {
        let mut dice = Dice::of("test", 0);
        for positions in [0, 1, 62, 63, 64, 65, 66, 200].repeat(40) {
            let head_dim = 1 + dice.place(24);
            let values = words::numbers(&summands::run(positions * head_dim, &mut dice));
            let mut weights = words::numbers(&summands::run(positions, &mut dice));
            let mut sums = vec![9.0; head_dim];
            decode_head_attention_f32_sums(&values, head_dim, &mut weights, &mut sums);
            for path in by_columns_and_by_rows(&values, &weights, head_dim) {
                assert_eq!(sum_words(&sums), sum_words(&path), "{positions} positions");
            }
        }
    }

    #[test]
    fn no_weights_give_zeros_without_a_sign() {
        let mut sums = [-9.0; 64];
        decode_head_attention_f32_sums(&[], 64, &mut [], &mut sums);
        assert_eq!(sum_words(&sums), [0; 64]);
        sums.fill(-9.0);
        decode_head_attention_int4_sums(&[], &[], 64, &mut [], &mut sums);
        assert_eq!(sum_words(&sums), [0; 64]);
    }

    #[test]
    fn a_query_past_the_head_is_ignored_and_a_short_one_panics() {
        let mut scores = [0.0];
        decode_head_attention_f32_scores(&[2.0, 9.0], &[3.0], 1, 1.0, &mut scores);
        assert_eq!(scores, [6.0]);
        let short = || decode_head_attention_f32_scores(&[], &[3.0], 1, 1.0, &mut [0.0]);
        assert!(catch_unwind(short).is_err());
    }

    #[test]
    fn an_output_past_the_head_is_left_by_columns_and_zeroed_by_rows() {
        for (positions, rest) in [(64, 9.0), (65, 0.0)] {
            let (values, mut weights) = (vec![1.0; positions], vec![1.0; positions]);
            let mut sums = [9.0; 2];
            decode_head_attention_f32_sums(&values, 1, &mut weights, &mut sums);
            assert_eq!(sums, [positions as f32, rest]);
        }
    }

    #[test]
    fn more_scores_than_positions_panic_after_those_that_are_there() {
        let mut scores = [9.0; 2];
        let more = || decode_head_attention_f32_scores(&[2.0], &[3.0], 1, 1.0, &mut scores);
        assert!(catch_unwind(AssertUnwindSafe(more)).is_err());
        assert_eq!(scores, [6.0, 9.0]);
    }
}
