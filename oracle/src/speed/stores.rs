//! The sizes that are measured, the numbers that are put in, and a store of the library in memory of its own.
use crate::boundary::{self, Lending};
use crate::dice::Dice;
use crate::record::{Lent, Record, Shape, WORDS};
use crate::rows::empty_store;
use crate::rust_store::KvStore;
use crate::words;

/// What memory holds before it is cleared.
const DIRT: u8 = 0xA5;

/// The sizes of one layer that is full.
#[derive(Clone, Copy, Debug, PartialEq, Eq, PartialOrd, Ord)]
pub struct Size {
    pub head_size: usize,
    pub heads: usize,
    pub positions: usize,
}

impl Size {
    /// The shape of a store of this one layer.
    pub fn shape(&self, format: u32) -> Shape {
        Shape {
            format,
            layers: 1,
            heads: self.heads as u32,
            head_size: self.head_size as u32,
            capacity: self.positions as u32,
        }
    }

    /// The numbers of one side.
    pub fn side_numbers(&self) -> usize {
        self.heads * self.head_size * self.positions
    }

    /// The bytes of one row, cells and scale words.
    pub fn row_bytes(&self, format: u32) -> usize {
        let shape = self.shape(format);
        (shape.row_bytes() + 4 * shape.row_scales()) as usize
    }
}

/// The same numbers as words for the library and as floats for the Rust.
pub struct Numbers {
    pub words: Vec<u32>,
    pub floats: Vec<f32>,
}

impl Numbers {
    /// So many moderate numbers.
    fn drawn(count: usize, dice: &mut Dice) -> Numbers {
        let words = words::filled(count, words::moderate, dice);
        Numbers {
            floats: words::numbers(&words),
            words,
        }
    }
}

/// What is appended to a layer and asked of its heads.
pub struct Inputs {
    pub size: Size,
    pub keys: Numbers,
    pub values: Numbers,
    pub queries: Numbers,
    pub weights: Numbers,
}

impl Inputs {
    /// Numbers for every row, a query for every head, and a weight for every head and position.
    pub fn new(size: Size) -> Inputs {
        let mut dice = Dice::of("speed", size.side_numbers() as u64);
        let mut drawn = |count| Numbers::drawn(count, &mut dice);
        Inputs {
            size,
            keys: drawn(size.side_numbers()),
            values: drawn(size.side_numbers()),
            queries: drawn(size.heads * size.head_size),
            weights: drawn(size.heads * size.positions),
        }
    }

    /// A store of the library with all positions.
    pub fn in_ours(&self, format: u32) -> Ours {
        let mut ours = Ours::opened(self.size.shape(format));
        ours.append(self);
        ours
    }

    /// A lifted store with all positions.
    pub fn in_rust(&self, format: u32) -> KvStore {
        let mut store = empty_store(&self.size.shape(format), self.size.positions);
        store.append(0, &self.keys.floats, &self.values.floats);
        store
    }
}

/// A store of the library.
pub struct Ours {
    shape: Shape,
    pub record: Record,
    pub cells: Vec<u8>,
    pub scales: Vec<u32>,
}

impl Ours {
    /// An empty store.
    pub fn opened(shape: Shape) -> Ours {
        let lent = Lent::exact(&shape).expect("the store is small");
        let mut ours = Ours {
            shape,
            record: Record::NONE,
            cells: vec![DIRT; lent.cells],
            scales: vec![u32::from(DIRT); lent.scales],
        };
        ours.open();
        ours
    }

    /// Makes it a full store of dirt.
    pub fn soil(&mut self) {
        self.record = Record::opened(&self.shape);
        self.record.set_length(0, self.shape.capacity as usize);
        self.cells.fill(DIRT);
        self.scales.fill(u32::from(DIRT));
    }

    /// Clears both buffers, and nothing else.
    pub fn clear(&mut self) {
        self.cells.fill(0);
        self.scales.fill(0);
    }

    /// Whether it is a newly opened store.
    pub fn is_new(&self) -> bool {
        self.record == Record::opened(&self.shape)
            && self.cells.iter().all(|byte| *byte == 0)
            && self.scales.iter().all(|word| *word == 0)
    }

    /// Opens it anew.
    pub fn open(&mut self) {
        let shape = self.shape;
        assert_eq!(boundary::open(self.lent(), &shape), boundary::DONE);
    }

    /// Appends all positions.
    pub fn append(&mut self, inputs: &Inputs) {
        let (keys, values) = (&inputs.keys.words, &inputs.values.words);
        let reply = boundary::append(self.lent(), 0, keys, values);
        assert_eq!(reply, boundary::DONE);
    }

    /// Removes all positions.
    pub fn truncate(&mut self) {
        assert_eq!(boundary::truncate(self.lent(), 0, 0), boundary::DONE);
    }

    /// What a call is lent.
    pub fn lent(&mut self) -> Lending<'_> {
        let record: &mut [u32; WORDS] = &mut self.record.0;
        Lending {
            record,
            cells: &mut self.cells,
            scales: &mut self.scales,
        }
    }
}
