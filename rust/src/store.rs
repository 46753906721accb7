//! The store: a record, its two buffers, and the calls on them.
use crate::boundary::{self, word, Lent, Record};
use crate::refusal::Refusal;
use crate::shape::{Shape, Side};
use std::fmt;

/// A key/value cache of one shape: rows are appended to a layer, and cut from its end.
///
/// Every call does its whole work or is refused and changes nothing. After any calls both buffers and all lengths are
/// those of a newly opened store into which each layer's surviving rows are appended in one call.
///
/// Two stores are equal when shape, lengths, `seq_len` and both whole buffers are, bit for bit.
#[derive(PartialEq, Eq)]
pub struct Store {
    shape: Shape,
    lent: Lent,
}

/// An empty vector with memory for `length` elements.
fn room<T>(length: usize) -> Result<Vec<T>, Refusal> {
    let mut room = Vec::new();
    match room.try_reserve_exact(length) {
        Ok(()) => Ok(room),
        Err(_) => Err(Refusal::Memory),
    }
}

impl Store {
    /// Makes an empty store, all zero.
    ///
    /// # Errors
    ///
    /// [`Refusal::Shape`] outside the limits, [`Refusal::Memory`] where the machine has no memory for the buffers.
    ///
    /// ```
    /// use karonjeenu::{Format, Refusal, Shape, Store};
    ///
    /// let shape = Shape { format: Format::Int8, layers: 1, heads: 1, head_size: 4, capacity: 2 };
    /// assert_eq!(Store::open(shape)?.lens(), [0]);
    /// assert_eq!(Store::open(Shape { heads: 0, ..shape }), Err(Refusal::Shape));
    /// # Ok::<(), Refusal>(())
    /// ```
    pub fn open(shape: Shape) -> Result<Store, Refusal> {
        let need = shape.need()?;
        let mut lent = Lent {
            record: Record::ZEROS,
            cells: room(need.cells)?,
            scales: room(need.scales)?,
        };
        lent.cells.resize(need.cells, 0);
        lent.scales.resize(need.scales, 0);
        boundary::open(&mut lent, &shape)?;
        Ok(Store { shape, lent })
    }

    /// A copy in memory of its own.
    ///
    /// # Errors
    ///
    /// [`Refusal::Memory`] where the machine has no memory for the copy's buffers.
    ///
    /// ```
    /// # use karonjeenu::{Format, Refusal, Shape, Store};
    /// # let shape = Shape { format: Format::Int8, layers: 1, heads: 1, head_size: 4, capacity: 2 };
    /// let mut store = Store::open(shape)?;
    /// let before = store.try_clone()?;
    /// store.append(0, &[1.0; 4], &[2.0; 4])?;
    /// assert_ne!(store, before);
    /// # Ok::<(), Refusal>(())
    /// ```
    pub fn try_clone(&self) -> Result<Store, Refusal> {
        let mut lent = Lent {
            record: self.lent.record.clone(),
            cells: room(self.lent.cells.len())?,
            scales: room(self.lent.scales.len())?,
        };
        lent.cells.extend_from_slice(&self.lent.cells);
        lent.scales.extend_from_slice(&self.lent.scales);
        Ok(Store {
            shape: self.shape,
            lent,
        })
    }

    /// The shape that the store was opened with.
    ///
    /// ```
    /// # use karonjeenu::{Format, Refusal, Shape, Store};
    /// let shape = Shape { format: Format::Int8, layers: 1, heads: 1, head_size: 4, capacity: 2 };
    /// assert_eq!(Store::open(shape)?.shape(), shape);
    /// # Ok::<(), Refusal>(())
    /// ```
    #[must_use]
    pub fn shape(&self) -> Shape {
        self.shape
    }

    /// The sequence length, which [`advance_seq_len`](Store::advance_seq_len) alone changes.
    ///
    /// ```
    /// # use karonjeenu::{Format, Refusal, Shape, Store};
    /// # let shape = Shape { format: Format::Int8, layers: 1, heads: 1, head_size: 4, capacity: 2 };
    /// let mut store = Store::open(shape)?;
    /// store.append(0, &[1.0; 4], &[2.0; 4])?;
    /// assert_eq!(store.seq_len(), 0);
    /// # Ok::<(), Refusal>(())
    /// ```
    #[must_use]
    pub fn seq_len(&self) -> u32 {
        self.lent.record.seq_len
    }

    /// The positions of each layer.
    ///
    /// ```
    /// # use karonjeenu::{Format, Refusal, Shape, Store};
    /// # let shape = Shape { format: Format::Int8, layers: 2, heads: 1, head_size: 4, capacity: 2 };
    /// let mut store = Store::open(shape)?;
    /// store.append(1, &[1.0; 4], &[2.0; 4])?;
    /// assert_eq!(store.lens(), [0, 1]);
    /// # Ok::<(), Refusal>(())
    /// ```
    #[must_use]
    pub fn lens(&self) -> &[u32] {
        &self.lent.record.lens[..self.shape.layers]
    }

    /// All cell bytes: with B for a position and head, those of layer l, side s and head h start at ((2l + s)H + h)CB.
    ///
    /// ```
    /// # use karonjeenu::{Format, Refusal, Shape, Store};
    /// # let shape = Shape { format: Format::Int8, layers: 1, heads: 1, head_size: 4, capacity: 2 };
    /// let mut store = Store::open(shape)?;
    /// store.append(0, &[127.0, 0.5, -0.5, -2.5], &[0.0; 4])?;
    /// assert_eq!(store.cells()[..4], [0x7F, 0x01, 0xFF, 0xFD]);
    /// assert_eq!(store.cells()[4..], [0; 12]);
    /// # Ok::<(), Refusal>(())
    /// ```
    #[must_use]
    pub fn cells(&self) -> &[u8] {
        &self.lent.cells
    }

    /// All scale words, the bits of floats, placed as the cells are: one for a head in INT8, one for 32 numbers in INT4.
    ///
    /// ```
    /// # use karonjeenu::{Format, Refusal, Shape, Store};
    /// # let shape = Shape { format: Format::Int8, layers: 1, heads: 1, head_size: 4, capacity: 2 };
    /// let mut store = Store::open(shape)?;
    /// store.append(0, &[127.0, 0.5, -0.5, -2.5], &[254.0; 4])?;
    /// assert_eq!(store.scales(), [1.0_f32.to_bits(), 0, 2.0_f32.to_bits(), 0]);
    /// # Ok::<(), Refusal>(())
    /// ```
    #[must_use]
    pub fn scales(&self) -> &[u32] {
        &self.lent.scales
    }

    /// Appends the keys and values of n positions to a layer, n · heads · `head_size` numbers each: position first, then
    /// head.
    ///
    /// # Errors
    ///
    /// [`Refusal::Layer`]; [`Refusal::Size`] where the keys are not whole positions or the values not as many;
    /// [`Refusal::Full`] where the capacity would be exceeded.
    ///
    /// ```
    /// # use karonjeenu::{Format, Refusal, Shape, Store};
    /// # let shape = Shape { format: Format::Int8, layers: 1, heads: 1, head_size: 4, capacity: 2 };
    /// let mut store = Store::open(shape)?;
    /// store.append(0, &[1.0; 8], &[2.0; 8])?;
    /// assert_eq!(store.cached_len(0), Ok(2));
    /// assert_eq!(store.append(0, &[1.0; 4], &[2.0; 4]), Err(Refusal::Full));
    /// # Ok::<(), Refusal>(())
    /// ```
    pub fn append(&mut self, layer: usize, keys: &[f32], values: &[f32]) -> Result<(), Refusal> {
        boundary::append(&mut self.lent, word(layer), keys, values)
    }

    /// Keeps the first `t` positions of a layer and zeroes the others; at or past the length it changes nothing.
    /// `seq_len` stays.
    ///
    /// # Errors
    ///
    /// [`Refusal::Layer`].
    ///
    /// ```
    /// # use karonjeenu::{Format, Refusal, Shape, Store};
    /// # let shape = Shape { format: Format::Int8, layers: 1, heads: 1, head_size: 4, capacity: 2 };
    /// let mut store = Store::open(shape)?;
    /// store.append(0, &[1.0; 8], &[2.0; 8])?;
    /// store.truncate_to(0, 0)?;
    /// assert_eq!(store, Store::open(shape)?);
    /// # Ok::<(), Refusal>(())
    /// ```
    pub fn truncate_to(&mut self, layer: usize, t: usize) -> Result<(), Refusal> {
        boundary::truncate(&mut self.lent, word(layer), word(t))
    }

    /// Adds to `seq_len`, and to nothing else.
    ///
    /// # Errors
    ///
    /// [`Refusal::Sequence`] where it would pass 4,294,967,295.
    ///
    /// ```
    /// # use karonjeenu::{Format, Refusal, Shape, Store};
    /// # let shape = Shape { format: Format::Int8, layers: 1, heads: 1, head_size: 4, capacity: 2 };
    /// let mut store = Store::open(shape)?;
    /// store.advance_seq_len(4_294_967_295)?;
    /// assert_eq!(store.advance_seq_len(1), Err(Refusal::Sequence));
    /// # Ok::<(), Refusal>(())
    /// ```
    pub fn advance_seq_len(&mut self, count: u32) -> Result<(), Refusal> {
        boundary::advance(&mut self.lent.record, count)
    }

    /// The positions of a layer.
    ///
    /// # Errors
    ///
    /// [`Refusal::Layer`].
    ///
    /// ```
    /// # use karonjeenu::{Format, Refusal, Shape, Store};
    /// # let shape = Shape { format: Format::Int8, layers: 1, heads: 1, head_size: 4, capacity: 2 };
    /// let store = Store::open(shape)?;
    /// assert_eq!(store.cached_len(0), Ok(0));
    /// assert_eq!(store.cached_len(1), Err(Refusal::Layer));
    /// # Ok::<(), Refusal>(())
    /// ```
    pub fn cached_len(&self, layer: usize) -> Result<usize, Refusal> {
        let count = boundary::cached_len(&self.lent.record, word(layer))?;
        // A length is at most the capacity, which is a usize.
        Ok(count as usize)
    }

    /// The bytes of all rows of all layers, cells and scales.
    ///
    /// # Errors
    ///
    /// None that a store can come to: its record is always one that the library wrote.
    ///
    /// ```
    /// # use karonjeenu::{Format, Refusal, Shape, Store};
    /// # let shape = Shape { format: Format::Int8, layers: 1, heads: 1, head_size: 4, capacity: 2 };
    /// let mut store = Store::open(shape)?;
    /// store.append(0, &[127.0, 0.5, -0.5, -2.5], &[0.0; 4])?;
    /// assert_eq!(store.memory_bytes(), Ok(16));
    /// # Ok::<(), Refusal>(())
    /// ```
    pub fn memory_bytes(&self) -> Result<u64, Refusal> {
        boundary::memory_bytes(&self.lent.record)
    }

    /// Reads one position of a side and head into the `head_size` numbers of `out`.
    ///
    /// F32 and BF16 give the stored bits; in INT8 and INT4 a NaN that reading makes is the word 7FC00000.
    ///
    /// # Errors
    ///
    /// [`Refusal::Layer`]; [`Refusal::Head`]; [`Refusal::Size`] where `out` is not `head_size` long;
    /// [`Refusal::Position`] where the layer has no such position.
    ///
    /// ```
    /// # use karonjeenu::{Format, Refusal, Shape, Side, Store};
    /// # let shape = Shape { format: Format::Int8, layers: 1, heads: 1, head_size: 4, capacity: 2 };
    /// let mut store = Store::open(shape)?;
    /// store.append(0, &[127.0, 0.5, -0.5, -2.5], &[0.0; 4])?;
    /// let mut row = [0.0; 4];
    /// store.read_row(0, Side::Keys, 0, 0, &mut row)?;
    /// assert_eq!(row, [127.0, 1.0, -1.0, -3.0]);
    /// # Ok::<(), Refusal>(())
    /// ```
    pub fn read_row(
        &self,
        layer: usize,
        side: Side,
        head: usize,
        position: usize,
        out: &mut [f32],
    ) -> Result<(), Refusal> {
        let (layer, head, position) = (word(layer), word(head), word(position));
        boundary::read_row(&self.lent, layer, side, head, position, out)
    }

    /// Scores the first positions of a head's keys, as many as `out` has places, under a query of `head_size` numbers;
    /// F32 and INT4.
    ///
    /// A NaN is the word 7FC00000.
    ///
    /// # Errors
    ///
    /// [`Refusal::Layer`]; [`Refusal::Head`]; [`Refusal::Format`] in BF16 and INT8; [`Refusal::Size`] where the query is
    /// not `head_size` long; [`Refusal::Position`] where `out` is longer than the layer.
    ///
    /// ```
    /// # use karonjeenu::{Format, Refusal, Shape, Store};
    /// let shape = Shape { format: Format::F32, layers: 1, heads: 1, head_size: 2, capacity: 2 };
    /// let mut store = Store::open(shape)?;
    /// store.append(0, &[3.0, 4.0, 5.0, 6.0], &[0.0; 4])?;
    /// let mut scores = [0.0; 2];
    /// store.scores(0, 0, &[1.0, 2.0], 0.5, &mut scores)?;
    /// assert_eq!(scores, [(1.0 * 3.0 + 2.0 * 4.0) * 0.5, (1.0 * 5.0 + 2.0 * 6.0) * 0.5]);
    /// # Ok::<(), Refusal>(())
    /// ```
    pub fn scores(
        &self,
        layer: usize,
        head: usize,
        query: &[f32],
        scale: f32,
        out: &mut [f32],
    ) -> Result<(), Refusal> {
        boundary::scores(&self.lent, word(layer), word(head), query, scale, out)
    }

    /// Sums the first positions of a head's values, as many as there are weights, each times its weight, into the
    /// `head_size` numbers of `out`; F32 and INT4.
    ///
    /// A NaN is the word 7FC00000.
    ///
    /// # Errors
    ///
    /// [`Refusal::Layer`]; [`Refusal::Head`]; [`Refusal::Format`] in BF16 and INT8; [`Refusal::Size`] where `out` is not
    /// `head_size` long; [`Refusal::Position`] where there are more weights than positions.
    ///
    /// ```
    /// # use karonjeenu::{Format, Refusal, Shape, Store};
    /// let shape = Shape { format: Format::F32, layers: 1, heads: 1, head_size: 2, capacity: 2 };
    /// let mut store = Store::open(shape)?;
    /// store.append(0, &[0.0; 4], &[3.0, 4.0, 5.0, 6.0])?;
    /// let mut sums = [0.0; 2];
    /// store.sums(0, 0, &[0.5, 0.25], &mut sums)?;
    /// assert_eq!(sums, [0.5 * 3.0 + 0.25 * 5.0, 0.5 * 4.0 + 0.25 * 6.0]);
    /// # Ok::<(), Refusal>(())
    /// ```
    pub fn sums(
        &self,
        layer: usize,
        head: usize,
        weights: &[f32],
        out: &mut [f32],
    ) -> Result<(), Refusal> {
        boundary::sums(&self.lent, word(layer), word(head), weights, out)
    }
}

impl Clone for Store {
    /// As [`try_clone`](Store::try_clone), with a panic where there is no memory.
    fn clone(&self) -> Store {
        match self.try_clone() {
            Ok(copy) => copy,
            Err(refusal) => panic!("no copy of the store: {refusal}"),
        }
    }
}

impl fmt::Debug for Store {
    fn fmt(&self, f: &mut fmt::Formatter<'_>) -> fmt::Result {
        // What was typed is nobody's business in a log, so the buffers stay out.
        f.debug_struct("Store")
            .field("shape", &self.shape)
            .field("seq_len", &self.seq_len())
            .field("lens", &self.lens())
            .field("memory_bytes", &self.memory_bytes())
            .finish_non_exhaustive()
    }
}
