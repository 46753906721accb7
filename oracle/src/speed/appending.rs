//! Append of all positions to an empty layer, here, in Rust with reserved vectors, and as a copy of the numbers.
use super::kernel::{Bench, Way};
use super::stores::{Inputs, Ours};
use crate::record::Shape;
use crate::rows::{empty_store, Picture, Room};
use crate::rust_store::KvStore;
use std::hint::black_box;

/// Empty stores on both sides of the boundary, and as many places to copy keys and values to.
pub struct Appending<'a> {
    inputs: &'a Inputs,
    shape: Shape,
    ours: Vec<Ours>,
    rust: Vec<KvStore>,
    copies: Vec<Vec<u32>>,
}

impl<'a> Appending<'a> {
    /// One store on either side.
    pub fn new(inputs: &'a Inputs, format: u32) -> Appending<'a> {
        let mut bench = Appending {
            inputs,
            shape: inputs.size.shape(format),
            ours: Vec::new(),
            rust: Vec::new(),
            copies: Vec::new(),
        };
        bench.repeat(1);
        bench
    }

    /// Empties every layer of a way.
    fn cut(&mut self, way: Way) {
        match way {
            Way::Ours => self.ours.iter_mut().for_each(Ours::truncate),
            Way::Rust => self
                .rust
                .iter_mut()
                .for_each(|store| store.truncate_to(0, 0)),
            Way::Memory => (),
        }
    }
}

impl Bench for Appending<'_> {
    fn agrees(&mut self) -> bool {
        for way in [Way::Ours, Way::Rust] {
            self.prepare(way);
            self.run(way);
        }
        let (ours, rust) = (&self.ours[0], &self.rust[0]);
        let (mut cells, mut scales) = (vec![0; ours.cells.len()], vec![0; ours.scales.len()]);
        let mut picture = Picture {
            cells: &mut cells,
            scales: &mut scales,
        };
        let positions = 0..self.inputs.size.positions;
        picture.draw(&Room::of(&self.shape), rust, 0, positions);
        ours.cells == cells && ours.scales == scales
    }

    fn repeat(&mut self, calls: usize) {
        let (shape, positions) = (self.shape, self.inputs.size.positions);
        self.ours.resize_with(calls, || Ours::opened(shape));
        self.rust
            .resize_with(calls, || empty_store(&shape, positions));
        let numbers = 2 * self.inputs.size.side_numbers();
        self.copies.resize(calls, vec![0; numbers]);
    }

    fn prepare(&mut self, way: Way) {
        self.cut(way);
        self.run(way);
        self.cut(way);
    }

    fn run(&mut self, way: Way) {
        let inputs = self.inputs;
        match way {
            Way::Ours => self.ours.iter_mut().for_each(|ours| ours.append(inputs)),
            Way::Rust => {
                let (keys, values) = (&inputs.keys.floats, &inputs.values.floats);
                let append = |store: &mut KvStore| store.append(0, keys, values);
                self.rust.iter_mut().for_each(append);
                black_box(&mut self.rust);
            }
            Way::Memory => {
                let (keys, values) = (&inputs.keys.words, &inputs.values.words);
                for copy in &mut self.copies {
                    let (to_keys, to_values) = copy.split_at_mut(keys.len());
                    to_keys.copy_from_slice(keys);
                    to_values.copy_from_slice(values);
                }
                black_box(&mut self.copies);
            }
        }
    }
}
