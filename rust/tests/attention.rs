//! Scores, a softmax of the host's own and sums are those of a plain computation in the paper's order of operations.
mod common;

use common::desk::{token, Desk, Token};
use common::{bits, heads, made, numbers, paper, scores, shape, softmax, sums};
use dice::Dice;
use karonjeenu::{Format, Refusal, Shape, Store};

const WITH_ATTENTION: [Format; 2] = [Format::F32, Format::Int4];
const WITHOUT: [Format; 2] = [Format::Bf16, Format::Int8];

fn full_desk(shape: Shape, dice: &mut Dice, draw: fn(&mut Dice, usize) -> Vec<f32>) -> Desk {
    let mut desk = Desk::open(shape);
    for _ in 0..shape.capacity {
        desk.put(token(dice, shape, draw));
    }
    desk
}

/// A head's part of each row of a layer.
fn parts<'a>(desk: &'a Desk, head: usize, row: impl Fn(&'a Token) -> &'a [f32]) -> Vec<&'a [f32]> {
    let size = desk.store.shape().head_size;
    let part = |token| &row(token)[head * size..][..size];
    desk.text.iter().map(part).collect()
}

/// Scores and sums every head of every layer, over all positions and over the first few; all scores.
fn attention_is_plain(desk: &Desk, dice: &mut Dice) -> Vec<f32> {
    let mut all = Vec::new();
    let shape = desk.store.shape();
    let format = shape.format;
    for (layer, head) in heads(shape) {
        let query = numbers::plains(dice, shape.head_size);
        let scale = 1.0 / (shape.head_size as f32).sqrt();
        let keys = parts(desk, head, |token| &token[layer].keys);
        let values = parts(desk, head, |token| &token[layer].values);
        let scored = scores(&desk.store, layer, head, &query, scale);
        let wanted: Vec<f32> = keys
            .iter()
            .map(|key| paper::score(format, &query, key, scale))
            .collect();
        assert_eq!(bits(&scored), made(&wanted), "{format:?}: scores");
        for count in [shape.capacity, 3, 1, 0] {
            let weights = softmax(&scored[..count]);
            let summed = sums(&desk.store, layer, head, &weights);
            let wanted = paper::sums(format, &weights, &values, shape.head_size);
            assert_eq!(bits(&summed), made(&wanted), "{format:?}: sums");
            let mut few = vec![0.0; count];
            let answer = desk.store.scores(layer, head, &query, scale, &mut few);
            assert_eq!(answer, Ok(()));
            assert_eq!(bits(&few), bits(&scored[..count]));
        }
        all.extend(scored);
    }
    all
}

#[test]
fn plain_numbers_attend_as_the_paper_has_it() {
    for format in WITH_ATTENTION {
        let mut dice = Dice::new(5);
        let desk = full_desk(shape(format), &mut dice, numbers::plains);
        let scored = attention_is_plain(&desk, &mut dice);
        assert!(scored.iter().all(|score| score.is_finite()));
    }
}

#[test]
fn wild_numbers_attend_as_the_paper_has_it() {
    for format in WITH_ATTENTION {
        let mut dice = Dice::new(6);
        let desk = full_desk(shape(format), &mut dice, numbers::any);
        let scored = attention_is_plain(&desk, &mut dice);
        assert!(scored.iter().any(|score| score.is_nan()));
        assert!(scored.iter().any(|score| score.is_finite()));
    }
}

#[test]
fn order_of_operations_shows_in_the_bits() {
    // Added from the other end a score has other bits, so that the comparison above can fail.
    let shape = shape(Format::F32);
    let mut dice = Dice::new(7);
    let desk = full_desk(shape, &mut dice, numbers::plains);
    let query = numbers::plains(&mut dice, shape.head_size);
    let backwards = |numbers: &[f32]| numbers.iter().rev().copied().collect::<Vec<f32>>();
    let keys = parts(&desk, 0, |token| &token[0].keys);
    let turned = keys
        .iter()
        .map(|key| paper::score(Format::F32, &backwards(&query), &backwards(key), 1.0));
    let turned: Vec<f32> = turned.collect();
    assert_ne!(bits(&scores(&desk.store, 0, 0, &query, 1.0)), made(&turned));
}

#[test]
fn no_weights_give_positive_zeros() {
    for format in WITH_ATTENTION {
        let store = Store::open(shape(format)).expect("a shape inside the limits");
        let mut out = vec![f32::NAN; store.shape().head_size];
        assert_eq!(store.sums(0, 0, &[], &mut out), Ok(()));
        assert!(out.iter().all(|x| x.to_bits() == 0));
    }
}

#[test]
fn other_formats_are_refused() {
    for format in WITHOUT {
        let store = Store::open(shape(format)).expect("a shape inside the limits");
        let mut row = vec![1.0; store.shape().head_size];
        let query = row.clone();
        let scored = store.scores(0, 0, &query, 1.0, &mut []);
        assert_eq!(scored, Err(Refusal::Format));
        assert_eq!(store.sums(0, 0, &[], &mut row), Err(Refusal::Format));
        assert_eq!(row, query);
    }
}
