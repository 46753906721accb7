//! The record of a store as the boundary lays it out, its shape, and the room that a shape needs.
use crate::rust::INT4_GROUP_SIZE;

/// Words of a record.
pub const WORDS: usize = 134;
/// Lengths of a record.
pub const LENGTHS: usize = 128;
/// The place of `seq_len` in a record.
pub const SEQ_LEN: usize = 5;
/// The place of the first length in a record.
pub const FIRST_LENGTH: usize = 6;

/// The numbers of the formats.
pub const F32: u32 = 0;
pub const BF16: u32 = 1;
pub const INT8: u32 = 2;
pub const INT4: u32 = 3;

/// The first five words of a record, inside the limits or not.
#[derive(Clone, Copy, Debug, PartialEq)]
pub struct Shape {
    pub format: u32,
    pub layers: u32,
    pub heads: u32,
    pub head_size: u32,
    pub capacity: u32,
}

impl Shape {
    /// The cell bytes of one position and head; none in a format that is not there.
    pub fn row_bytes(&self) -> u64 {
        let numbers = u64::from(self.head_size);
        match self.format {
            F32 => 4 * numbers,
            BF16 => 2 * numbers,
            INT8 => numbers,
            INT4 => numbers / 2,
            _ => 0,
        }
    }

    /// The scale words of one position and head.
    pub fn row_scales(&self) -> u64 {
        match self.format {
            INT8 => 1,
            INT4 => u64::from(self.head_size) / INT4_GROUP_SIZE as u64,
            _ => 0,
        }
    }

    /// The rows of all layers, sides, heads and positions.
    fn rows(&self) -> u128 {
        let blocks = 2 * u128::from(self.layers) * u128::from(self.heads);
        blocks * u128::from(self.capacity)
    }

    /// The cell bytes to lend, or the largest count there is where they are more.
    pub fn cells(&self) -> u128 {
        self.rows().saturating_mul(u128::from(self.row_bytes()))
    }

    /// The scale words to lend, or the largest count there is where they are more.
    pub fn scales(&self) -> u128 {
        self.rows().saturating_mul(u128::from(self.row_scales()))
    }

    /// The numbers of one position, all heads.
    pub fn position_numbers(&self) -> u64 {
        u64::from(self.heads) * u64::from(self.head_size)
    }
}

/// The lengths of the two buffers that are lent.
#[derive(Clone, Copy, Debug, PartialEq)]
pub struct Lent {
    pub cells: usize,
    pub scales: usize,
}

impl Lent {
    /// What a shape needs, where that many can be.
    pub fn exact(shape: &Shape) -> Option<Lent> {
        Some(Lent {
            cells: usize::try_from(shape.cells()).ok()?,
            scales: usize::try_from(shape.scales()).ok()?,
        })
    }
}

/// A record, damaged or not.
#[derive(Clone, Copy, PartialEq)]
pub struct Record(pub [u32; WORDS]);

impl Record {
    /// The record that a refused open leaves.
    pub const NONE: Record = Record([0; WORDS]);

    /// The record of a store that was just opened.
    pub fn opened(shape: &Shape) -> Record {
        let mut record = Record::NONE;
        record.0[..SEQ_LEN].copy_from_slice(&[
            shape.format,
            shape.layers,
            shape.heads,
            shape.head_size,
            shape.capacity,
        ]);
        record
    }

    /// The shape.
    pub fn shape(&self) -> Shape {
        Shape {
            format: self.0[0],
            layers: self.0[1],
            heads: self.0[2],
            head_size: self.0[3],
            capacity: self.0[4],
        }
    }

    /// The position of the sequence.
    pub fn seq_len(&self) -> u32 {
        self.0[SEQ_LEN]
    }

    /// All lengths.
    pub fn lengths(&self) -> &[u32] {
        &self.0[FIRST_LENGTH..]
    }

    /// The length of a layer; 0 of one that no record has.
    pub fn length(&self, layer: u32) -> u32 {
        let length = self.lengths().get(layer as usize);
        length.copied().unwrap_or(0)
    }

    /// Sets the length of a layer.
    pub fn set_length(&mut self, layer: usize, length: usize) {
        self.0[FIRST_LENGTH + layer] = length as u32;
    }
}
