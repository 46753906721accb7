//! A withdrawn paragraph moves no bit: one desk typed it and took it back, the other never saw it.
mod common;

use common::desk::{token, Desk};
use common::{bits, numbers, rows, scores, shape, softmax, sums, FORMATS, SIDES};
use dice::Dice;
use karonjeenu::Format;

const HEADING: usize = 3;
const PARAGRAPH: usize = 5;

/// Types a paragraph; the same seed makes the same one.
fn put(desk: &mut Desk, seed: u64, count: usize) {
    let mut dice = Dice::new(seed);
    for _ in 0..count {
        desk.put(token(&mut dice, desk.store.shape(), numbers::plains));
    }
}

/// Two desks with the same heading, the first with a paragraph below it.
fn desks(format: Format) -> (Desk, Desk) {
    let (mut one, mut other) = (Desk::open(shape(format)), Desk::open(shape(format)));
    put(&mut one, 10, HEADING);
    put(&mut other, 10, HEADING);
    put(&mut one, 11, PARAGRAPH);
    (one, other)
}

/// The bits of everything that can be asked of a layer: each row, and where they are there, all scores and the sums.
fn answers(desk: &Desk, layer: usize) -> Vec<Vec<u32>> {
    let shape = desk.store.shape();
    let query = numbers::plains(&mut Dice::new(12), shape.head_size);
    let mut answers = Vec::new();
    for head in 0..shape.heads {
        for side in SIDES {
            let rows = rows(&desk.store, layer, side, head);
            answers.extend(rows.iter().map(|row| bits(row)));
        }
        if matches!(shape.format, Format::F32 | Format::Int4) {
            let scored = scores(&desk.store, layer, head, &query, 0.25);
            let summed = sums(&desk.store, layer, head, &softmax(&scored));
            answers.extend([bits(&scored), bits(&summed)]);
        }
    }
    answers
}

fn same_everywhere(one: &Desk, other: &Desk) {
    let format = one.store.shape().format;
    for layer in 0..one.store.shape().layers {
        assert_eq!(answers(one, layer), answers(other, layer), "{format:?}");
    }
    assert_eq!(one.store.lens(), other.store.lens());
    assert_eq!(one.store.memory_bytes(), other.store.memory_bytes());
    assert!(
        one.store.cells() == other.store.cells(),
        "{format:?}: cells"
    );
    assert!(
        one.store.scales() == other.store.scales(),
        "{format:?}: scales"
    );
}

#[test]
fn withdrawn_paragraph_moves_no_bit() {
    for format in FORMATS {
        let (mut one, mut other) = desks(format);
        one.undo(HEADING);
        same_everywhere(&one, &other);
        for desk in [&mut one, &mut other] {
            put(desk, 13, 2 * PARAGRAPH);
        }
        same_everywhere(&one, &other);
        // The cut leaves the sequence length alone, so that differs by the paragraph.
        let seq_lens = (one.store.seq_len(), other.store.seq_len());
        assert_eq!(seq_lens.0 as usize, seq_lens.1 as usize + PARAGRAPH);
    }
}

#[test]
fn paragraph_moves_bits_before_it_is_withdrawn() {
    for format in FORMATS {
        let (one, other) = desks(format);
        for layer in 0..one.store.shape().layers {
            assert_ne!(answers(&one, layer), answers(&other, layer));
        }
        assert!(one.store.cells() != other.store.cells());
        assert_eq!(
            one.store.scales() != other.store.scales(),
            !one.store.scales().is_empty()
        );
    }
    for format in [Format::F32, Format::Int4] {
        let ((one, mut other), query) = (
            desks(format),
            numbers::plains(&mut Dice::new(12), shape(format).head_size),
        );
        // The same number of tokens of another paragraph: as many scores, and other ones.
        put(&mut other, 14, PARAGRAPH);
        let scored = [&one, &other].map(|desk| scores(&desk.store, 0, 0, &query, 0.25));
        assert_eq!(bits(&scored[0][..HEADING]), bits(&scored[1][..HEADING]));
        assert_ne!(bits(&scored[0]), bits(&scored[1]));
        let summed = [(&one, &scored[0]), (&other, &scored[1])]
            .map(|(desk, scored)| sums(&desk.store, 0, 0, &softmax(scored)));
        assert_ne!(bits(&summed[0]), bits(&summed[1]));
    }
}

#[test]
fn layer_that_is_not_cut_is_seen() {
    for format in FORMATS {
        let (mut one, other) = desks(format);
        let layers = one.store.shape().layers;
        for layer in 1..layers {
            one.store.truncate_to(layer, HEADING).expect("a layer");
        }
        assert_ne!(answers(&one, 0), answers(&other, 0));
        assert!((1..layers).all(|layer| answers(&one, layer) == answers(&other, layer)));
        assert!(one.store.cells() != other.store.cells());
    }
}
