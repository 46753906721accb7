//! The shape of a store: its limits, what it needs, and what is at hand.

pub const F32: u8 = 0;
pub const BF16: u8 = 1;
pub const INT8: u8 = 2;
pub const INT4: u8 = 3;

/// The most layers, heads, numbers of a head and positions; the least of each is 1.
pub const LIMITS: [u16; 4] = [128, 64, 256, 4096];
/// The most cell bytes of any store.
pub const MOST_CELLS: u64 = 1_073_741_824;
/// Cell bytes at hand.
pub const CELLS_AT_HAND: u64 = 32_768;
/// Scale words at hand.
pub const SCALES_AT_HAND: u64 = 2_048;

/// The numbers that share one INT4 scale.
const GROUP: u16 = 32;

/// The five fields of an open.
#[derive(Clone, Copy, Debug, PartialEq, Eq)]
pub struct Shape {
    pub format: u8,
    pub layers: u16,
    pub heads: u16,
    pub head_size: u16,
    pub capacity: u16,
}

impl Shape {
    /// A shape from its format and its L, H, D and C.
    pub const fn new(format: u8, sizes: [u16; 4]) -> Shape {
        let [layers, heads, head_size, capacity] = sizes;
        Shape {
            format,
            layers,
            heads,
            head_size,
            capacity,
        }
    }

    /// L, H, D and C.
    pub fn sizes(&self) -> [u16; 4] {
        [self.layers, self.heads, self.head_size, self.capacity]
    }

    /// Whether every limit holds, the one on all cells too.
    pub fn is_within_limits(&self) -> bool {
        let mut sizes = self.sizes().into_iter().zip(LIMITS);
        let whole_groups = self.format != INT4 || self.head_size % GROUP == 0;
        self.format <= INT4
            && sizes.all(|(size, limit)| (1..=limit).contains(&size))
            && whole_groups
            && self.cells() <= MOST_CELLS
    }

    /// Whether what it needs is at hand; asked of a shape within the limits.
    pub fn is_at_hand(&self) -> bool {
        self.cells() <= CELLS_AT_HAND && self.scales() <= SCALES_AT_HAND
    }

    /// The numbers of one position on one side: H·D.
    pub fn position_numbers(&self) -> usize {
        usize::from(self.heads) * usize::from(self.head_size)
    }

    /// What one position adds to the byte count: 2H(B + 4S).
    pub fn position_bytes(&self) -> u64 {
        2 * u64::from(self.heads) * (self.row_cells() + 4 * self.row_scales())
    }

    /// Cell bytes in all; asked of a shape whose sizes are within their limits, so that no product wraps.
    pub fn cells(&self) -> u64 {
        self.rows() * self.row_cells()
    }

    /// Scale words in all.
    pub fn scales(&self) -> u64 {
        self.rows() * self.row_scales()
    }

    /// Rows of both sides: 2·L·H·C.
    fn rows(&self) -> u64 {
        2 * u64::from(self.layers) * u64::from(self.heads) * u64::from(self.capacity)
    }

    /// B, the cell bytes of one position and head.
    fn row_cells(&self) -> u64 {
        let size = u64::from(self.head_size);
        match self.format {
            F32 => 4 * size,
            BF16 => 2 * size,
            INT8 => size,
            _ => size / 2,
        }
    }

    /// S, the scale words of one position and head.
    fn row_scales(&self) -> u64 {
        match self.format {
            F32 | BF16 => 0,
            INT8 => 1,
            _ => u64::from(self.head_size / GROUP),
        }
    }
}
