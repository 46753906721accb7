//! Wrong answers that look right: what the Rust would give if it worked in another order.
use crate::calls::Call;
use crate::heads;
use crate::record::{F32, INT4};
use crate::rules::word_of;
use crate::rust::{unpack_i4_group, INT4_GROUP_SIZE};
use crate::rust_heads::{
    decode_head_attention_f32_sums, decode_head_attention_int4_scores,
    decode_head_attention_int4_sums,
};
use crate::rust_store::KvLayerData;
use crate::wanted::Wanted;
use crate::words::numbers;

type Scores = fn(&KvLayerData, usize, &[f32], f32, &mut [f32]);
type Sums = fn(&KvLayerData, usize, &[f32], &mut [f32]);

/// Wrong scores, each with its name and a format.
const SCORES: [(&str, u32, Scores); 4] = [
    ("the given scale before the sum, F32", F32, scaled_before),
    ("the given scale before the sum, INT4", INT4, scaled_before),
    ("each product scaled", INT4, each_product_scaled),
    ("the high nibble before the low one", INT4, high_before_low),
];

/// Wrong sums, each with its name and a format.
const SUMS: [(&str, u32, Sums); 3] = [
    ("positions downwards, F32", F32, downwards),
    ("positions downwards, INT4", INT4, downwards),
    (
        "the weight times code times scale",
        INT4,
        weight_after_scale,
    ),
];

/// The names of all wrong answers.
pub fn names() -> impl Iterator<Item = &'static str> {
    let scores = SCORES.iter().map(|wrong| wrong.0);
    scores.chain(SUMS.iter().map(|wrong| wrong.0))
}

/// The names of those that a call on a head tells from what it has to make; none of another call.
pub fn told_apart(call: &Call, right: &[u32], wanted: &mut Wanted) -> Vec<&'static str> {
    let format = wanted.holdings.record.shape().format;
    let differs = |made: Vec<f32>| !made.into_iter().map(word_of).eq(right.iter().copied());
    let mut names = Vec::new();
    match call {
        Call::Scores {
            head, query, scale, ..
        } => {
            let data = &wanted.store().layer_data[head.layer as usize];
            let (query, scale) = (numbers(query), f32::from_bits(*scale));
            for (name, _, answer) in SCORES.iter().filter(|wrong| wrong.1 == format) {
                let mut scores = vec![0.0; right.len()];
                answer(data, head.head as usize, &query, scale, &mut scores);
                names.extend(differs(scores).then_some(*name));
            }
        }
        Call::Sums { head, weights, .. } => {
            let data = &wanted.store().layer_data[head.layer as usize];
            for (name, _, answer) in SUMS.iter().filter(|wrong| wrong.1 == format) {
                let mut sums = vec![0.0; right.len()];
                answer(data, head.head as usize, &numbers(weights), &mut sums);
                names.extend(differs(sums).then_some(*name));
            }
        }
        _ => {}
    }
    names
}

/// The query is multiplied by the given scale, and the sum is not.
fn scaled_before(data: &KvLayerData, head: usize, query: &[f32], scale: f32, scores: &mut [f32]) {
    let query: Vec<f32> = query.iter().map(|number| number * scale).collect();
    heads::scores(data, head, &query, 1.0, scores);
}

/// Every product is multiplied by its group's scale, and the group's sum is not.
fn each_product_scaled(
    data: &KvLayerData,
    head: usize,
    query: &[f32],
    scale: f32,
    scores: &mut [f32],
) {
    let KvLayerData::INT4 {
        keys_per_head,
        keys_scales,
        ..
    } = data
    else {
        unreachable!("no groups");
    };
    let code = |nibble: u8| f32::from(nibble) - 8.0;
    let row = query.len() / 2;
    for (j, score) in scores.iter_mut().enumerate() {
        let mut total = 0.0;
        for (i, byte) in keys_per_head[head][j * row..(j + 1) * row]
            .iter()
            .enumerate()
        {
            let (group, place) = (i / 16, i / 16 * 32 + i % 16);
            let group_scale = keys_scales[head][j * (row / 16) + group];
            total += query[place] * code(byte % 16) * group_scale;
            total += query[place + 16] * code(byte / 16) * group_scale;
        }
        *score = total * scale;
    }
}

/// Numbers 16 to 31 of a group come before 0 to 15, in the query and in the bytes.
fn high_before_low(data: &KvLayerData, head: usize, query: &[f32], scale: f32, scores: &mut [f32]) {
    let KvLayerData::INT4 {
        keys_per_head,
        keys_scales,
        ..
    } = data
    else {
        unreachable!("no groups");
    };
    let turned = |group: &[f32]| [&group[16..], &group[..16]].concat();
    let query: Vec<f32> = query
        .chunks_exact(INT4_GROUP_SIZE)
        .flat_map(turned)
        .collect();
    let keys = keys_per_head[head].iter().map(|byte| byte.rotate_left(4));
    let keys: Vec<u8> = keys.collect();
    let scales = &keys_scales[head];
    decode_head_attention_int4_scores(&query, &keys, scales, query.len(), scale, scores);
}

/// The last position is added first.
fn downwards(data: &KvLayerData, head: usize, weights: &[f32], sums: &mut [f32]) {
    let (positions, row) = (weights.len(), sums.len());
    let mut weights = turned(weights, positions, 1);
    match data {
        KvLayerData::F32 {
            values_per_head, ..
        } => {
            let values = turned(&values_per_head[head], positions, row);
            decode_head_attention_f32_sums(&values, row, &mut weights, sums);
        }
        KvLayerData::INT4 {
            values_per_head,
            values_scales,
            ..
        } => {
            let values = turned(&values_per_head[head], positions, row / 2);
            let scales = turned(&values_scales[head], positions, row / 32);
            decode_head_attention_int4_sums(&values, &scales, row, &mut weights, sums);
        }
        _ => unreachable!("no sums"),
    }
}

/// The first rows of a list, the last of them first.
fn turned<T: Copy>(list: &[T], rows: usize, size: usize) -> Vec<T> {
    let rows = list[..rows * size].chunks_exact(size);
    rows.rev().flatten().copied().collect()
}

/// Each number is read, and the weight is multiplied by it.
fn weight_after_scale(data: &KvLayerData, head: usize, weights: &[f32], sums: &mut [f32]) {
    let KvLayerData::INT4 {
        values_per_head,
        values_scales,
        ..
    } = data
    else {
        unreachable!("no groups");
    };
    let groups = values_per_head[head].chunks_exact(16);
    let read = |(packed, scale): (&[u8], &f32)| {
        let mut numbers = [0.0; INT4_GROUP_SIZE];
        unpack_i4_group(packed, *scale, &mut numbers);
        numbers
    };
    let values: Vec<f32> = groups.zip(&values_scales[head]).flat_map(read).collect();
    decode_head_attention_f32_sums(&values, sums.len(), &mut weights.to_vec(), sums);
}
