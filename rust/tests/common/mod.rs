//! What several tests share: shapes, comparisons, random numbers, a desk, and the paper's rules computed plainly.
#![allow(dead_code)] // Each test file uses a part of it.
pub mod desk;
pub mod numbers;
pub mod paper;

use karonjeenu::{Format, Refusal, Shape, Side, Store};
use std::fs;
use std::path::Path;

pub const FORMATS: [Format; 4] = [Format::F32, Format::Bf16, Format::Int8, Format::Int4];
pub const FIELDS: [&str; 4] = ["layers", "heads", "head_size", "capacity"];
pub const SIDES: [Side; 2] = [Side::Keys, Side::Values];

/// The refusals of the paper's table, number 1 first.
pub const REFUSALS: [Refusal; 10] = [
    Refusal::Shape,
    Refusal::Room,
    Refusal::Lengths,
    Refusal::Layer,
    Refusal::Head,
    Refusal::Format,
    Refusal::Size,
    Refusal::Position,
    Refusal::Full,
    Refusal::Sequence,
];

/// A text of the project, by its path from this crate's folder.
pub fn read(path: &str) -> String {
    let path = Path::new(env!("CARGO_MANIFEST_DIR")).join(path);
    fs::read_to_string(&path).unwrap_or_else(|fault| panic!("{}: {fault}", path.display()))
}

/// A small shape whose numbers all differ, so that none passes for another.
pub fn shape(format: Format) -> Shape {
    let head_size = if format == Format::Int4 { 64 } else { 5 };
    Shape {
        format,
        layers: 3,
        heads: 2,
        head_size,
        capacity: 24,
    }
}

/// A shape with a number put into the field that is named as in [`Shape`].
pub fn with(shape: Shape, field: &str, number: usize) -> Shape {
    let mut shape = shape;
    match field {
        "layers" => shape.layers = number,
        "heads" => shape.heads = number,
        "head_size" => shape.head_size = number,
        "capacity" => shape.capacity = number,
        other => panic!("no field {other}"),
    }
    shape
}

/// The numbers of one position on one side.
pub fn row_size(shape: Shape) -> usize {
    shape.heads * shape.head_size
}

/// Every layer with every head.
pub fn heads(shape: Shape) -> impl Iterator<Item = (usize, usize)> {
    (0..shape.layers).flat_map(move |layer| (0..shape.heads).map(move |head| (layer, head)))
}

/// The bits of numbers.
pub fn bits(numbers: &[f32]) -> Vec<u32> {
    numbers.iter().map(|x| x.to_bits()).collect()
}

/// The bits that a store gives numbers that arithmetic made: a NaN's are the one word 7FC00000.
pub fn made(numbers: &[f32]) -> Vec<u32> {
    let made = |x: &f32| {
        if x.is_nan() {
            0x7FC0_0000
        } else {
            x.to_bits()
        }
    };
    numbers.iter().map(made).collect()
}

/// Every row of a side and head, as it reads.
pub fn rows(store: &Store, layer: usize, side: Side, head: usize) -> Vec<Vec<f32>> {
    let length = store.cached_len(layer).expect("a layer");
    let row = |position| {
        let mut row = vec![0.0; store.shape().head_size];
        let answer = store.read_row(layer, side, head, position, &mut row);
        answer.expect("a row");
        row
    };
    (0..length).map(row).collect()
}

/// The scores of all positions of a head.
pub fn scores(store: &Store, layer: usize, head: usize, query: &[f32], scale: f32) -> Vec<f32> {
    let mut scores = vec![0.0; store.cached_len(layer).expect("a layer")];
    let answer = store.scores(layer, head, query, scale, &mut scores);
    answer.expect("scores");
    scores
}

/// The sums of a head under weights.
pub fn sums(store: &Store, layer: usize, head: usize, weights: &[f32]) -> Vec<f32> {
    let mut sums = vec![0.0; store.shape().head_size];
    let answer = store.sums(layer, head, weights, &mut sums);
    answer.expect("sums");
    sums
}

/// The host's softmax.
pub fn softmax(scores: &[f32]) -> Vec<f32> {
    let largest = scores.iter().copied().fold(f32::NEG_INFINITY, f32::max);
    let powers: Vec<f32> = scores.iter().map(|x| (x - largest).exp()).collect();
    let total: f32 = powers.iter().sum();
    powers.iter().map(|power| power / total).collect()
}
