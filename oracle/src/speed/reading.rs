//! Every row of a full layer read once, here, in INT4 by the lifted unpacking, and as a copy of bytes.
use super::kernel::{Asking, Way};
use super::stores::{Inputs, Ours, Size};
use crate::boundary;
use crate::replies::Place;
use crate::rows::row_of;
use crate::rust::{unpack_i4_group, INT4_GROUP_SIZE};
use crate::rust_store::{KvLayerData, KvStore};
use std::hint::black_box;

/// Full stores on both sides of the boundary, and a row for each way.
pub struct Reading {
    size: Size,
    format: u32,
    ours: Ours,
    rust: KvStore,
    row: Vec<u32>,
    rust_row: Vec<f32>,
    copy: Vec<u8>,
}

impl Reading {
    /// Full stores.
    pub fn new(inputs: &Inputs, format: u32) -> Reading {
        let size = inputs.size;
        Reading {
            size,
            format,
            ours: inputs.in_ours(format),
            rust: inputs.in_rust(format),
            row: vec![0; size.head_size],
            rust_row: vec![0.0; size.head_size],
            copy: vec![0; 4 * size.head_size],
        }
    }

    /// The places of all rows, in the order in which they lie.
    fn places(&self) -> impl Iterator<Item = Place> {
        let (heads, positions) = (self.size.heads as u32, self.size.positions as u32);
        (0..2 * heads).flat_map(move |block| {
            (0..positions).map(move |position| Place {
                layer: 0,
                side: block / heads,
                head: block % heads,
                position,
            })
        })
    }

    /// Reads a row here.
    fn read(&mut self, place: Place) {
        let reply = boundary::read_row(self.ours.lent(), place, &mut self.row);
        assert_eq!(reply, boundary::DONE);
    }

    /// Reads a row of INT4 in Rust, group after group.
    fn read_in_rust(&mut self, place: Place) {
        let KvLayerData::INT4 {
            keys_per_head,
            values_per_head,
            keys_scales,
            values_scales,
        } = &self.rust.layer_data[0]
        else {
            unreachable!("a row in Rust of a format that has none");
        };
        let (side, head) = (place.side as usize, place.head as usize);
        let bytes = &[keys_per_head, values_per_head][side][head];
        let scales = &[keys_scales, values_scales][side][head];
        let groups = self.size.head_size / INT4_GROUP_SIZE;
        let first = place.position as usize * groups;
        let packed = bytes.chunks_exact(INT4_GROUP_SIZE / 2).skip(first);
        let numbers = self.rust_row.chunks_exact_mut(INT4_GROUP_SIZE);
        for ((numbers, packed), scale) in numbers.zip(packed).zip(&scales[first..]) {
            unpack_i4_group(packed, *scale, numbers);
        }
        black_box(&mut self.rust_row);
    }

    /// Copies as many bytes as each row reads as, from its cells on; for the last rows, the last so many.
    fn copy_rows(&mut self) {
        let cells = &self.ours.cells;
        let row_bytes = cells.len() / (2 * self.size.heads * self.size.positions);
        let last = cells.len() - self.copy.len();
        for row in (0..cells.len()).step_by(row_bytes) {
            let first = row.min(last);
            let bytes = &cells[first..first + self.copy.len()];
            self.copy.copy_from_slice(bytes);
            black_box(&mut self.copy);
        }
    }

    /// Whether a row is the one that the paper's rule reads, in Rust too where that reads it.
    fn row_agrees(&mut self, place: Place, in_rust: bool) -> bool {
        let (side, head) = (place.side as usize, place.head as usize);
        let (position, data) = (place.position as usize, &self.rust.layer_data[0]);
        let row = row_of(data, side, head, position, self.size.head_size);
        let wanted = row.read(self.format);
        self.read(place);
        if in_rust {
            self.read_in_rust(place);
        }
        let rust_words = self.rust_row.iter().map(|number| number.to_bits());
        self.row == wanted && (!in_rust || rust_words.eq(wanted))
    }
}

impl Asking for Reading {
    fn agrees(&mut self) -> bool {
        let in_rust = matches!(self.rust.layer_data[0], KvLayerData::INT4 { .. });
        let mut places = self.places();
        places.all(|place| self.row_agrees(place, in_rust))
    }

    fn ask(&mut self, way: Way) {
        match way {
            Way::Ours => self.places().for_each(|place| self.read(place)),
            Way::Rust => self.places().for_each(|place| self.read_in_rust(place)),
            Way::Memory => self.copy_rows(),
        }
    }
}
