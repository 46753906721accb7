//! A host's habits: writers take turns at one document, type, undo and redo, and the store stays the document's.
mod common;

use common::desk::{token, Desk};
use common::{bits, heads, made, numbers, paper, rows, shape, FORMATS, SIDES};
use dice::Dice;
use karonjeenu::{Format, Need, Side};

const TURNS: usize = 240;

/// What happened at a desk.
#[derive(Default)]
struct Tally {
    tokens: usize,
    undone: usize,
    redone: usize,
}

/// Writers take turns at a desk; after each undo and each redo the store is a fresh one of the same text.
fn draft(format: Format) -> Tally {
    let shape = shape(format);
    let mut writers = [Dice::new(1), Dice::new(2), Dice::new(3)];
    let mut desk = Desk::open(shape);
    let mut tally = Tally::default();
    for turn in 0..TURNS {
        let count = writers.len();
        let writer = &mut writers[turn % count];
        let full = desk.text.len() == shape.capacity;
        match writer.below(4) {
            0 if !desk.text.is_empty() => undo(&mut desk, writer, &mut tally),
            _ if full => undo(&mut desk, writer, &mut tally),
            1 | 2 if !desk.withdrawn.is_empty() => redo(&mut desk, writer, &mut tally),
            _ => {
                desk.put(token(writer, shape, numbers::any));
                tally.tokens += 1;
                continue;
            }
        }
        assert_eq!(desk.store.seq_len() as usize, tally.tokens);
        let fresh = desk.fresh();
        assert_eq!(desk.store.lens(), fresh.lens());
        assert!(desk.store.cells() == fresh.cells(), "cells, turn {turn}");
        assert!(desk.store.scales() == fresh.scales(), "scales, turn {turn}");
        assert_eq!(desk.store, fresh);
    }
    reads_as_typed(&desk);
    tally
}

/// Cuts the document back to any earlier token.
fn undo(desk: &mut Desk, writer: &mut Dice, tally: &mut Tally) {
    let before = desk.store.clone();
    desk.undo(writer.place(desk.text.len()));
    assert_ne!(desk.store, before, "something was cut");
    tally.undone += 1;
}

/// Brings back one withdrawn token or more.
fn redo(desk: &mut Desk, writer: &mut Dice, tally: &mut Tally) {
    let count = 1 + writer.place(desk.withdrawn.len());
    desk.redo(count);
    tally.tokens += count;
    tally.redone += 1;
}

/// Every row of the document reads as the paper has it.
fn reads_as_typed(desk: &Desk) {
    let shape = desk.store.shape();
    for (layer, head) in heads(shape) {
        for side in SIDES {
            let typed = desk.text.iter().map(|token| {
                let row = match side {
                    Side::Keys => &token[layer].keys,
                    Side::Values => &token[layer].values,
                };
                read_bits(
                    shape.format,
                    &row[head * shape.head_size..][..shape.head_size],
                )
            });
            let there = rows(&desk.store, layer, side, head);
            let there: Vec<Vec<u32>> = there.iter().map(|row| bits(row)).collect();
            assert_eq!(there, typed.collect::<Vec<_>>(), "{layer} {side:?} {head}");
        }
    }
}

/// The bits that a row reads as; a NaN that reading makes is one word, and one that was stored keeps its bits.
fn read_bits(format: Format, row: &[f32]) -> Vec<u32> {
    let read = paper::read(format, row);
    match format {
        Format::F32 | Format::Bf16 => bits(&read),
        _ => made(&read),
    }
}

#[test]
fn store_stays_the_document_in_every_format() {
    for format in FORMATS {
        let tally = draft(format);
        assert!(tally.undone >= 20, "{format:?}: {} undone", tally.undone);
        assert!(tally.redone >= 20, "{format:?}: {} redone", tally.redone);
        assert!(tally.tokens >= 2 * shape(format).capacity);
    }
}

#[test]
fn byte_count_is_that_of_the_rows() {
    for format in FORMATS {
        let shape = shape(format);
        let need = shape.need().expect("a shape inside the limits");
        let mut desk = Desk::open(shape);
        let mut dice = Dice::new(4);
        while desk.text.len() < shape.capacity {
            assert_ne!(desk.store.memory_bytes(), Ok(all_bytes(need)));
            desk.put(token(&mut dice, shape, numbers::any));
        }
        // A full store's rows are its whole buffers.
        assert_eq!(desk.store.memory_bytes(), Ok(all_bytes(need)));
        desk.undo(0);
        assert_eq!(desk.store.memory_bytes(), Ok(0));
    }
}

fn all_bytes(need: Need) -> u64 {
    (need.cells + 4 * need.scales) as u64
}

#[test]
fn streams_have_every_kind_of_number() {
    let mut dice = Dice::new(1);
    let numbers: Vec<f32> = (0..100)
        .flat_map(|_| numbers::any(&mut dice, 100))
        .collect();
    let has = |kind: fn(&f32) -> bool| numbers.iter().any(kind);
    assert!(has(|x| x.is_nan() && x.to_bits() & 0x0040_0000 == 0));
    assert!(has(|x| x.is_nan() && x.is_sign_negative()));
    assert!(has(|x| *x == f32::INFINITY) && has(|x| *x == f32::NEG_INFINITY));
    assert!(has(|x| x.is_subnormal()) && has(|x| *x == 0.0));
}
