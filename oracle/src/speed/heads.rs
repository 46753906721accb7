//! Scores and sums of all positions, head after head, here, by the lifted halves, and as a reading of the same bytes.
use super::kernel::{Asking, Way};
use super::stores::{Inputs, Ours, Size};
use crate::replies::Head;
use crate::rules::word_of;
use crate::rust_store::KvStore;
use crate::{boundary, heads};
use std::hint::black_box;

/// The sides of a layer.
const KEYS: usize = 0;
const VALUES: usize = 1;

/// Full stores on both sides of the boundary, and what is answered.
struct Heads {
    size: Size,
    ours: Ours,
    rust: KvStore,
    answer: Vec<u32>,
    rust_answer: Vec<f32>,
}

impl Heads {
    /// Full stores, and room for so many answers of all heads.
    fn new(inputs: &Inputs, format: u32, answers: usize) -> Heads {
        Heads {
            size: inputs.size,
            ours: inputs.in_ours(format),
            rust: inputs.in_rust(format),
            answer: vec![0; answers],
            rust_answer: vec![0.0; answers],
        }
    }

    /// Whether the answers are the words of the Rust's.
    fn agree(&self) -> bool {
        let rust = self.rust_answer.iter().copied();
        self.answer.iter().copied().eq(rust.map(word_of))
    }

    /// Reads the cells and scale words of one side, keys or values, head after head.
    fn read_memory(&self, side: usize) {
        let (cells, scales) = (&self.ours.cells, &self.ours.scales);
        let (head_cells, head_scales) = (
            cells.len() / 2 / self.size.heads,
            scales.len() / 2 / self.size.heads,
        );
        for block in side * self.size.heads..(side + 1) * self.size.heads {
            let cells = &cells[block * head_cells..(block + 1) * head_cells];
            let scales = &scales[block * head_scales..(block + 1) * head_scales];
            black_box((
                sum_of_cells(black_box(cells)),
                sum_of_scales(black_box(scales)),
            ));
        }
    }
}

/// The sum of cells as words of 64 bits.
fn sum_of_cells(cells: &[u8]) -> u64 {
    let words = cells.chunks_exact(8).map(|bytes| {
        let bytes: [u8; 8] = bytes.try_into().expect("a chunk has 8 bytes");
        u64::from_le_bytes(bytes)
    });
    words.fold(0, u64::wrapping_add)
}

/// The sum of scale words.
fn sum_of_scales(scales: &[u32]) -> u32 {
    scales.iter().copied().fold(0, u32::wrapping_add)
}

/// Scores of each head under a query.
pub struct Scores<'a> {
    inputs: &'a Inputs,
    factor: f32,
    heads: Heads,
}

impl<'a> Scores<'a> {
    /// Full stores, and the factor that a predictor takes: one by the root of the head size.
    pub fn new(inputs: &'a Inputs, format: u32) -> Scores<'a> {
        let size = inputs.size;
        Scores {
            inputs,
            factor: 1.0 / (size.head_size as f32).sqrt(),
            heads: Heads::new(inputs, format, size.heads * size.positions),
        }
    }

    /// The scores here.
    fn score(&mut self) {
        let Heads {
            size, ours, answer, ..
        } = &mut self.heads;
        let queries = self.inputs.queries.words.chunks_exact(size.head_size);
        let answers = answer.chunks_exact_mut(size.positions);
        for (head, (query, answer)) in (0..).zip(queries.zip(answers)) {
            let head = Head { layer: 0, head };
            let reply = boundary::scores(ours.lent(), head, query, self.factor, answer);
            assert_eq!(reply, boundary::DONE);
        }
    }

    /// The scores in Rust.
    fn score_in_rust(&mut self) {
        let Heads {
            size,
            rust,
            rust_answer,
            ..
        } = &mut self.heads;
        let queries = self.inputs.queries.floats.chunks_exact(size.head_size);
        let answers = rust_answer.chunks_exact_mut(size.positions);
        for (head, (query, answer)) in queries.zip(answers).enumerate() {
            heads::scores(&rust.layer_data[0], head, query, self.factor, answer);
        }
        black_box(rust_answer);
    }
}

impl Asking for Scores<'_> {
    fn agrees(&mut self) -> bool {
        self.score();
        self.score_in_rust();
        self.heads.agree()
    }

    fn ask(&mut self, way: Way) {
        match way {
            Way::Ours => self.score(),
            Way::Rust => self.score_in_rust(),
            Way::Memory => self.heads.read_memory(KEYS),
        }
    }
}

/// Sums of each head under weights, which the lifted half borrows as if it changed them.
pub struct Sums<'a> {
    inputs: &'a Inputs,
    rust_weights: Vec<f32>,
    heads: Heads,
}

impl<'a> Sums<'a> {
    /// Full stores.
    pub fn new(inputs: &'a Inputs, format: u32) -> Sums<'a> {
        let size = inputs.size;
        Sums {
            inputs,
            rust_weights: inputs.weights.floats.clone(),
            heads: Heads::new(inputs, format, size.heads * size.head_size),
        }
    }

    /// The sums here.
    fn sum(&mut self) {
        let Heads {
            size, ours, answer, ..
        } = &mut self.heads;
        let weights = self.inputs.weights.words.chunks_exact(size.positions);
        let answers = answer.chunks_exact_mut(size.head_size);
        for (head, (weights, answer)) in (0..).zip(weights.zip(answers)) {
            let head = Head { layer: 0, head };
            let reply = boundary::sums(ours.lent(), head, weights, answer);
            assert_eq!(reply, boundary::DONE);
        }
    }

    /// The sums in Rust.
    fn sum_in_rust(&mut self) {
        let Heads {
            size,
            rust,
            rust_answer,
            ..
        } = &mut self.heads;
        let weights = self.rust_weights.chunks_exact_mut(size.positions);
        let answers = rust_answer.chunks_exact_mut(size.head_size);
        for (head, (weights, answer)) in weights.zip(answers).enumerate() {
            heads::sums(&rust.layer_data[0], head, weights, answer);
        }
        black_box(rust_answer);
    }
}

impl Asking for Sums<'_> {
    fn agrees(&mut self) -> bool {
        self.sum();
        self.sum_in_rust();
        self.heads.agree()
    }

    fn ask(&mut self, way: Way) {
        match way {
            Way::Ours => self.sum(),
            Way::Rust => self.sum_in_rust(),
            Way::Memory => self.heads.read_memory(VALUES),
        }
    }
}
