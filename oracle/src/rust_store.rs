// Lifted from xigh/herbert-rs 1192c3f072, crates/backends/backend_common/src/kv_cache.rs,
// MIT licence, see NOTICE. Vectors are plain, and the flat BF16 copies are left behind.

use crate::rules::bf16_by_rule;
use crate::rust::{
    compute_int4_scale, compute_int8_scale, int4_num_groups, pack_i4_group, quantize_i8,
    INT4_GROUP_SIZE,
};

// The body is not in the Rust's text: this is the paper's rule.
fn f32_to_bf16(x: f32) -> u16 {
    bf16_by_rule(x.to_bits())
}

#[derive(Debug, Clone, Copy, PartialEq)]
pub enum KvQuantType {
    F32,
    BF16,
    INT8,
    INT4,
}

/// Per-layer KV data in a format selected at runtime.
#[derive(Debug, Clone)]
pub enum KvLayerData {
    /// Full precision f32 KV cache.
    F32 {
        keys_per_head: Vec<Vec<f32>>,
        values_per_head: Vec<Vec<f32>>,
    },
    /// BF16 KV cache (stored as u16).
    BF16 {
        keys_per_head: Vec<Vec<u16>>,
        values_per_head: Vec<Vec<u16>>,
    },
    /// INT8 symmetric quantized KV cache with per-position per-head scales.
    INT8 {
        keys_per_head: Vec<Vec<i8>>,
        values_per_head: Vec<Vec<i8>>,
        keys_scales: Vec<Vec<f32>>,
        values_scales: Vec<Vec<f32>>,
    },
    /// INT4 symmetric quantized KV cache with Q4_0 group quantization (group_size=32).
    /// Half-split nibble packing within each group. Per-group scales (head_dim/32 per position).
    /// For head_dim=128: 64 packed bytes + 4×f32 scales = 80 bytes per position per head.
    /// Scales layout: [pos0_group0, pos0_group1, ..., pos0_groupN, pos1_group0, ...].
    INT4 {
        keys_per_head: Vec<Vec<u8>>,
        values_per_head: Vec<Vec<u8>>,
        /// Per-group scales: num_groups f32 per position, flattened.
        keys_scales: Vec<Vec<f32>>,
        values_scales: Vec<Vec<f32>>,
    },
}

impl KvLayerData {
    /// Number of cached positions in this layer.
    pub fn cached_len(&self, head_dim: usize) -> usize {
        match self {
            Self::F32 { keys_per_head, .. } => {
                keys_per_head.first().map_or(0, |v| v.len() / head_dim)
            }
            Self::BF16 { keys_per_head, .. } => {
                keys_per_head.first().map_or(0, |v| v.len() / head_dim)
            }
            Self::INT8 { keys_per_head, .. } => {
                keys_per_head.first().map_or(0, |v| v.len() / head_dim)
            }
            Self::INT4 { keys_scales, .. } => {
                // Per-group scales: num_groups f32 per position
                let num_groups = int4_num_groups(head_dim);
                keys_scales.first().map_or(0, |v| {
                    if num_groups == 0 {
                        0
                    } else {
                        v.len() / num_groups
                    }
                })
            }
        }
    }

    /// Truncate all heads to `trim_to` positions.
    pub fn truncate_to(&mut self, trim_to: usize, head_dim: usize) {
        let elems = trim_to * head_dim;
        match self {
            Self::F32 {
                keys_per_head,
                values_per_head,
            } => {
                for v in keys_per_head.iter_mut().chain(values_per_head.iter_mut()) {
                    v.truncate(elems);
                }
            }
            Self::BF16 {
                keys_per_head,
                values_per_head,
            } => {
                for v in keys_per_head.iter_mut().chain(values_per_head.iter_mut()) {
                    v.truncate(elems);
                }
            }
            Self::INT8 {
                keys_per_head,
                values_per_head,
                keys_scales,
                values_scales,
            } => {
                for v in keys_per_head.iter_mut().chain(values_per_head.iter_mut()) {
                    v.truncate(elems);
                }
                for v in keys_scales.iter_mut().chain(values_scales.iter_mut()) {
                    v.truncate(trim_to);
                }
            }
            Self::INT4 {
                keys_per_head,
                values_per_head,
                keys_scales,
                values_scales,
            } => {
                let packed_elems = trim_to * (head_dim / 2);
                for v in keys_per_head.iter_mut().chain(values_per_head.iter_mut()) {
                    v.truncate(packed_elems);
                }
                let num_groups = int4_num_groups(head_dim);
                for v in keys_scales.iter_mut().chain(values_scales.iter_mut()) {
                    v.truncate(trim_to * num_groups);
                }
            }
        }
    }
}

/// Persistent KV cache data that grows during inference.
#[derive(Debug)]
pub struct KvStore {
    /// Runtime KV quantization type.
    pub kv_quant: KvQuantType,
    /// Per-layer KV data in the runtime-selected format.
    pub layer_data: Vec<KvLayerData>,
    pub num_kv_heads: usize,
    pub head_dim: usize,
    pub seq_len: usize,
    pub kv_dim: usize,
}

impl KvStore {
    pub fn new_with_quant(
        num_layers: usize,
        num_kv_heads: usize,
        head_dim: usize,
        reserve: usize,
        kv_quant: KvQuantType,
    ) -> Self {
        let layer_data = (0..num_layers)
            .map(|_| match kv_quant {
                KvQuantType::F32 => KvLayerData::F32 {
                    keys_per_head: (0..num_kv_heads)
                        .map(|_| Vec::with_capacity(reserve * head_dim))
                        .collect(),
                    values_per_head: (0..num_kv_heads)
                        .map(|_| Vec::with_capacity(reserve * head_dim))
                        .collect(),
                },
                KvQuantType::BF16 => KvLayerData::BF16 {
                    keys_per_head: (0..num_kv_heads)
                        .map(|_| Vec::with_capacity(reserve * head_dim))
                        .collect(),
                    values_per_head: (0..num_kv_heads)
                        .map(|_| Vec::with_capacity(reserve * head_dim))
                        .collect(),
                },
                KvQuantType::INT8 => KvLayerData::INT8 {
                    keys_per_head: (0..num_kv_heads)
                        .map(|_| Vec::with_capacity(reserve * head_dim))
                        .collect(),
                    values_per_head: (0..num_kv_heads)
                        .map(|_| Vec::with_capacity(reserve * head_dim))
                        .collect(),
                    keys_scales: (0..num_kv_heads)
                        .map(|_| Vec::with_capacity(reserve))
                        .collect(),
                    values_scales: (0..num_kv_heads)
                        .map(|_| Vec::with_capacity(reserve))
                        .collect(),
                },
                KvQuantType::INT4 => {
                    let packed_per_pos = head_dim / 2;
                    KvLayerData::INT4 {
                        keys_per_head: (0..num_kv_heads)
                            .map(|_| Vec::with_capacity(reserve * packed_per_pos))
                            .collect(),
                        values_per_head: (0..num_kv_heads)
                            .map(|_| Vec::with_capacity(reserve * packed_per_pos))
                            .collect(),
                        keys_scales: (0..num_kv_heads)
                            .map(|_| Vec::with_capacity(reserve))
                            .collect(),
                        values_scales: (0..num_kv_heads)
                            .map(|_| Vec::with_capacity(reserve))
                            .collect(),
                    }
                }
            })
            .collect();
        KvStore {
            kv_quant,
            layer_data,
            num_kv_heads,
            head_dim,
            seq_len: 0,
            kv_dim: num_kv_heads * head_dim,
        }
    }

    pub fn append(&mut self, layer_idx: usize, k: &[f32], v: &[f32]) {
        // Write to layer_data (primary storage)
        self.append_layer_data(layer_idx, k, v);
    }

    /// Append to layer_data based on runtime kv_quant.
    fn append_layer_data(&mut self, layer_idx: usize, k: &[f32], v: &[f32]) {
        let kv_dim = self.num_kv_heads * self.head_dim;
        let num_positions = k.len() / kv_dim;

        match &mut self.layer_data[layer_idx] {
            KvLayerData::F32 {
                keys_per_head,
                values_per_head,
            } => {
                for pos in 0..num_positions {
                    for kv_h in 0..self.num_kv_heads {
                        let src = pos * kv_dim + kv_h * self.head_dim;
                        keys_per_head[kv_h].extend_from_slice(&k[src..src + self.head_dim]);
                        values_per_head[kv_h].extend_from_slice(&v[src..src + self.head_dim]);
                    }
                }
            }
            KvLayerData::BF16 {
                keys_per_head,
                values_per_head,
            } => {
                for pos in 0..num_positions {
                    for kv_h in 0..self.num_kv_heads {
                        let src = pos * kv_dim + kv_h * self.head_dim;
                        for d in 0..self.head_dim {
                            keys_per_head[kv_h].push(f32_to_bf16(k[src + d]));
                            values_per_head[kv_h].push(f32_to_bf16(v[src + d]));
                        }
                    }
                }
            }
            KvLayerData::INT8 {
                keys_per_head,
                values_per_head,
                keys_scales,
                values_scales,
            } => {
                for pos in 0..num_positions {
                    for kv_h in 0..self.num_kv_heads {
                        let src = pos * kv_dim + kv_h * self.head_dim;
                        let k_head = &k[src..src + self.head_dim];
                        let v_head = &v[src..src + self.head_dim];

                        let k_scale = compute_int8_scale(k_head);
                        keys_scales[kv_h].push(k_scale);
                        for &kval in k_head {
                            keys_per_head[kv_h].push(quantize_i8(kval, k_scale));
                        }

                        let v_scale = compute_int8_scale(v_head);
                        values_scales[kv_h].push(v_scale);
                        for &vval in v_head {
                            values_per_head[kv_h].push(quantize_i8(vval, v_scale));
                        }
                    }
                }
            }
            KvLayerData::INT4 {
                keys_per_head,
                values_per_head,
                keys_scales,
                values_scales,
            } => {
                let num_groups = int4_num_groups(self.head_dim);
                let packed_per_pos = self.head_dim / 2;
                let mut pack_buf = vec![0u8; packed_per_pos];
                for pos in 0..num_positions {
                    for kv_h in 0..self.num_kv_heads {
                        let src = pos * kv_dim + kv_h * self.head_dim;
                        let k_head = &k[src..src + self.head_dim];
                        let v_head = &v[src..src + self.head_dim];

                        // Per-group scales for keys
                        for g in 0..num_groups {
                            let group_start = g * INT4_GROUP_SIZE;
                            let k_group = &k_head[group_start..group_start + INT4_GROUP_SIZE];
                            let k_scale = compute_int4_scale(k_group);
                            keys_scales[kv_h].push(k_scale);
                            pack_i4_group(k_group, k_scale, &mut pack_buf[g * 16..]);
                        }
                        keys_per_head[kv_h].extend_from_slice(&pack_buf);

                        // Per-group scales for values
                        for g in 0..num_groups {
                            let group_start = g * INT4_GROUP_SIZE;
                            let v_group = &v_head[group_start..group_start + INT4_GROUP_SIZE];
                            let v_scale = compute_int4_scale(v_group);
                            values_scales[kv_h].push(v_scale);
                            pack_i4_group(v_group, v_scale, &mut pack_buf[g * 16..]);
                        }
                        values_per_head[kv_h].extend_from_slice(&pack_buf);
                    }
                }
            }
        }
    }

    /// Truncate layer_data for a layer.
    pub fn truncate_to(&mut self, layer_idx: usize, trim_to: usize) {
        self.layer_data[layer_idx].truncate_to(trim_to, self.head_dim);
    }

    /// Number of cached positions for a given layer (from layer_data).
    pub fn cached_len(&self, layer_idx: usize) -> usize {
        self.layer_data[layer_idx].cached_len(self.head_dim)
    }

    pub fn advance_seq_len(&mut self, count: usize) {
        self.seq_len += count;
    }

    /// Estimated memory usage in bytes for the KV data.
    pub fn memory_bytes(&self) -> usize {
        let mut total = 0usize;
        for ld in &self.layer_data {
            match ld {
                KvLayerData::F32 {
                    keys_per_head,
                    values_per_head,
                } => {
                    for v in keys_per_head.iter().chain(values_per_head.iter()) {
                        total += v.len() * std::mem::size_of::<f32>();
                    }
                }
                KvLayerData::BF16 {
                    keys_per_head,
                    values_per_head,
                } => {
                    for v in keys_per_head.iter().chain(values_per_head.iter()) {
                        total += v.len() * std::mem::size_of::<u16>();
                    }
                }
                KvLayerData::INT8 {
                    keys_per_head,
                    values_per_head,
                    keys_scales,
                    values_scales,
                } => {
                    for v in keys_per_head.iter().chain(values_per_head.iter()) {
                        total += v.len() * std::mem::size_of::<i8>();
                    }
                    for v in keys_scales.iter().chain(values_scales.iter()) {
                        total += v.len() * std::mem::size_of::<f32>();
                    }
                }
                KvLayerData::INT4 {
                    keys_per_head,
                    values_per_head,
                    keys_scales,
                    values_scales,
                } => {
                    for v in keys_per_head.iter().chain(values_per_head.iter()) {
                        total += v.len(); // packed u8 bytes
                    }
                    for v in keys_scales.iter().chain(values_scales.iter()) {
                        total += v.len() * std::mem::size_of::<f32>();
                    }
                }
            }
        }
        total
    }
}

#[cfg(test)]
mod tests {
    use super::*;

    fn store(heads: usize, head_size: usize, kind: KvQuantType) -> KvStore {
        KvStore::new_with_quant(2, heads, head_size, 0, kind)
    }

    #[test]
    fn a_short_tail_of_keys_is_dropped() {
        let mut store = store(2, 2, KvQuantType::F32);
        store.append(0, &[1.0; 7], &[2.0; 7]);
        assert_eq!(store.cached_len(0), 1);
    }

    #[test]
    fn the_tail_of_a_head_is_lost_in_int4() {
        let mut store = store(1, 48, KvQuantType::INT4);
        store.append(0, &[1.0; 48], &[2.0; 48]);
        assert_eq!((store.cached_len(0), store.memory_bytes()), (1, 2 * 24 + 8));
    }

    #[test]
    fn no_length_is_kept_below_32_numbers_in_int4() {
        let mut store = store(1, 16, KvQuantType::INT4);
        store.append(0, &[1.0; 16], &[2.0; 16]);
        assert_eq!((store.cached_len(0), store.memory_bytes()), (0, 16));
    }

    #[test]
    fn values_past_the_keys_are_ignored() {
        let mut store = store(1, 4, KvQuantType::F32);
        store.append(0, &[1.0; 4], &[2.0; 5]);
        assert_eq!((store.cached_len(0), store.memory_bytes()), (1, 32));
    }

    #[test]
    fn too_few_values_panic_after_keys_were_pushed() {
        let mut store = store(1, 4, KvQuantType::F32);
        let append = || store.append(0, &[1.0; 4], &[2.0; 3]);
        assert!(std::panic::catch_unwind(std::panic::AssertUnwindSafe(append)).is_err());
        assert_eq!(store.memory_bytes(), 16);
    }

    #[test]
    fn the_whole_case_counts_16_bytes() {
        let mut store = store(1, 4, KvQuantType::INT8);
        store.append(0, &[127.0, 0.5, -0.5, -2.5], &[0.0; 4]);
        assert_eq!((store.cached_len(0), store.memory_bytes()), (1, 16));
        let KvLayerData::INT8 { keys_per_head, .. } = &store.layer_data[0] else {
            panic!("not INT8");
        };
        assert_eq!(keys_per_head[0], [127, 1, -1, -3]);
    }

    #[test]
    fn truncation_cuts_scales_with_their_rows() {
        for kind in [KvQuantType::INT8, KvQuantType::INT4] {
            let mut store = store(2, 64, kind);
            store.append(1, &[1.0; 384], &[2.0; 384]);
            let of_three = store.memory_bytes();
            store.truncate_to(1, 4);
            assert_eq!((store.cached_len(1), store.memory_bytes()), (3, of_three));
            store.truncate_to(1, 1);
            let of_one = of_three / 3;
            assert_eq!((store.cached_len(1), store.memory_bytes()), (1, of_one));
        }
    }
}
