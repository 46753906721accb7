//! Shapes: formats, sides, the size of a store, and what it needs.
use crate::boundary::{self, word};
use crate::refusal::Refusal;

/// How numbers are stored. Cast to an integer it is the paper's number, 0 to 3.
#[derive(Clone, Copy, PartialEq, Eq, Hash, Debug)]
#[non_exhaustive]
pub enum Format {
    /// Binary32, every bit kept.
    F32 = 0,
    /// The upper half of a binary32, rounded.
    Bf16 = 1,
    /// A code of a byte for each number, a scale for each head.
    Int8 = 2,
    /// A code of half a byte for each number, a scale for each group of 32.
    Int4 = 3,
}

/// The two sides of a layer. Cast to an integer it is the paper's number, 0 or 1.
#[derive(Clone, Copy, PartialEq, Eq, Hash, Debug)]
pub enum Side {
    /// What scores read.
    Keys = 0,
    /// What sums read.
    Values = 1,
}

/// The shape of a store.
#[derive(Clone, Copy, PartialEq, Eq, Hash, Debug)]
pub struct Shape {
    /// How numbers are stored.
    pub format: Format,
    /// Layers, 1 to 128.
    pub layers: usize,
    /// Heads of a layer, 1 to 64.
    pub heads: usize,
    /// Numbers of a head, 1 to 256; in INT4 a multiple of 32.
    pub head_size: usize,
    /// The most positions of a layer, 1 to 4,096.
    pub capacity: usize,
}

/// The lengths of the two buffers that a shape needs.
#[derive(Clone, Copy, PartialEq, Eq, Hash, Debug)]
pub struct Need {
    /// Cell bytes, at most 1,073,741,824.
    pub cells: usize,
    /// Scale words of 32 bits.
    pub scales: usize,
}

impl Shape {
    /// What a store of this shape needs.
    ///
    /// # Errors
    ///
    /// [`Refusal::Shape`] outside the limits.
    ///
    /// ```
    /// use karonjeenu::{Format, Need, Refusal, Shape};
    ///
    /// let shape = Shape { format: Format::F32, layers: 2, heads: 64, head_size: 256, capacity: 4096 };
    /// assert_eq!(shape.need(), Ok(Need { cells: 2 * 2 * 64 * 4096 * (4 * 256), scales: 0 }));
    /// assert_eq!(Shape { layers: 3, ..shape }.need(), Err(Refusal::Shape));
    /// ```
    pub fn need(&self) -> Result<Need, Refusal> {
        boundary::need(self)
    }

    /// The five numbers of the shape, in the paper's order.
    pub(crate) fn words(&self) -> [u32; 5] {
        [
            self.format as u32,
            word(self.layers),
            word(self.heads),
            word(self.head_size),
            word(self.capacity),
        ]
    }
}
