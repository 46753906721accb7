//! The largest magnitude of a run, as the INT8 scale finds it, here and in Rust.
use super::kernel::{Asking, Way};
use super::stores::{Inputs, Size};
use crate::boundary::int8_scale;
use crate::rust::compute_int8_scale;
use std::hint::black_box;

/// Runs at most: as many as stay in the nearest cache, where an append has a row when it scans it.
const MOST_RUNS: usize = 64;

/// The runs that are scanned at a size; each is the row of a head.
pub fn runs(size: &Size) -> usize {
    MOST_RUNS.min(size.heads * size.positions)
}

/// The first rows of the keys, and a scale for each.
pub struct Magnitude<'a> {
    inputs: &'a Inputs,
    scales: Vec<f32>,
    rust_scales: Vec<f32>,
}

impl<'a> Magnitude<'a> {
    /// Room for a scale of each run.
    pub fn new(inputs: &'a Inputs) -> Magnitude<'a> {
        let runs = runs(&inputs.size);
        Magnitude {
            inputs,
            scales: vec![0.0; runs],
            rust_scales: vec![0.0; runs],
        }
    }

    /// The scales here.
    fn scale(&mut self) {
        let runs = self
            .inputs
            .keys
            .words
            .chunks_exact(self.inputs.size.head_size);
        for (scale, run) in self.scales.iter_mut().zip(runs) {
            *scale = int8_scale(run);
        }
        black_box(&mut self.scales);
    }

    /// The scales in Rust.
    fn scale_in_rust(&mut self) {
        let runs = self
            .inputs
            .keys
            .floats
            .chunks_exact(self.inputs.size.head_size);
        for (scale, run) in self.rust_scales.iter_mut().zip(runs) {
            *scale = compute_int8_scale(black_box(run));
        }
        black_box(&mut self.rust_scales);
    }
}

impl Asking for Magnitude<'_> {
    fn agrees(&mut self) -> bool {
        self.scale();
        self.scale_in_rust();
        let words = |scales: &[f32]| {
            scales
                .iter()
                .map(|scale| scale.to_bits())
                .collect::<Vec<_>>()
        };
        words(&self.scales) == words(&self.rust_scales)
    }

    fn ask(&mut self, way: Way) {
        match way {
            Way::Ours => self.scale(),
            Way::Rust => self.scale_in_rust(),
            Way::Memory => unreachable!("a scan of memory that has no counterpart"),
        }
    }
}
