//! Scores and sums of a head of the lifted store, made by the lifted halves of the Rust's attention.
use crate::rust_heads::{
    decode_head_attention_f32_scores, decode_head_attention_f32_sums,
    decode_head_attention_int4_scores, decode_head_attention_int4_sums,
};
use crate::rust_store::KvLayerData;

/// Fills the scores of a head's first positions, as many as there are scores.
pub fn scores(data: &KvLayerData, head: usize, query: &[f32], scale: f32, scores: &mut [f32]) {
    let head_size = query.len();
    match data {
        KvLayerData::F32 { keys_per_head, .. } => {
            let keys = &keys_per_head[head];
            decode_head_attention_f32_scores(query, keys, head_size, scale, scores);
        }
        KvLayerData::INT4 {
            keys_per_head,
            keys_scales,
            ..
        } => {
            let (keys, scales) = (&keys_per_head[head], &keys_scales[head]);
            decode_head_attention_int4_scores(query, keys, scales, head_size, scale, scores);
        }
        _ => unreachable!("scores of a format that has none"),
    }
}

/// Fills the sums of a head's first positions, as many as there are weights, which stay as they are.
pub fn sums(data: &KvLayerData, head: usize, weights: &mut [f32], sums: &mut [f32]) {
    let head_size = sums.len();
    match data {
        KvLayerData::F32 {
            values_per_head, ..
        } => {
            let values = &values_per_head[head];
            decode_head_attention_f32_sums(values, head_size, weights, sums);
        }
        KvLayerData::INT4 {
            values_per_head,
            values_scales,
            ..
        } => {
            let (values, scales) = (&values_per_head[head], &values_scales[head]);
            decode_head_attention_int4_sums(values, scales, head_size, weights, sums);
        }
        _ => unreachable!("sums of a format that has none"),
    }
}
