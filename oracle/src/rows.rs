//! The rows of the lifted store, and where the paper puts them in the two lent buffers.
use crate::record::{Lent, Record, Shape, BF16, F32, INT4, INT8};
use crate::rules;
use crate::rust_store::{KvLayerData, KvQuantType, KvStore};
use std::ops::Range;

/// What one position of a side and head is stored as.
pub struct Row {
    pub cells: Vec<u8>,
    pub scales: Vec<u32>,
}

impl Row {
    /// The words that a row reads as.
    pub fn read(&self, format: u32) -> Vec<u32> {
        match format {
            F32 => floats(&self.cells),
            BF16 => halves(&self.cells).map(rules::read_bf16).collect(),
            INT8 => self.read_codes(),
            _ => self.read_groups(),
        }
    }

    /// The words that INT8 codes read as.
    fn read_codes(&self) -> Vec<u32> {
        let scale = f32::from_bits(self.scales[0]);
        let read = |code: &u8| rules::read_i8(*code, scale);
        self.cells.iter().map(read).collect()
    }

    /// The words that INT4 groups read as.
    fn read_groups(&self) -> Vec<u32> {
        let groups = self.cells.chunks_exact(16).zip(&self.scales);
        groups
            .flat_map(|(packed, scale)| rules::read_i4_group(packed, f32::from_bits(*scale)))
            .collect()
    }
}

/// The row of a layer of the lifted store.
pub fn row_of(data: &KvLayerData, side: usize, head: usize, p: usize, head_size: usize) -> Row {
    let numbers = p * head_size..(p + 1) * head_size;
    match data {
        KvLayerData::F32 {
            keys_per_head,
            values_per_head,
        } => {
            let row = &[keys_per_head, values_per_head][side][head][numbers];
            let cells = row.iter().flat_map(|x| x.to_bits().to_le_bytes());
            Row {
                cells: cells.collect(),
                scales: Vec::new(),
            }
        }
        KvLayerData::BF16 {
            keys_per_head,
            values_per_head,
        } => {
            let row = &[keys_per_head, values_per_head][side][head][numbers];
            let cells = row.iter().flat_map(|half| half.to_le_bytes());
            Row {
                cells: cells.collect(),
                scales: Vec::new(),
            }
        }
        KvLayerData::INT8 {
            keys_per_head,
            values_per_head,
            keys_scales,
            values_scales,
        } => {
            let row = &[keys_per_head, values_per_head][side][head][numbers];
            let scale = [keys_scales, values_scales][side][head][p];
            Row {
                cells: row.iter().map(|code| *code as u8).collect(),
                scales: vec![scale.to_bits()],
            }
        }
        KvLayerData::INT4 {
            keys_per_head,
            values_per_head,
            keys_scales,
            values_scales,
        } => {
            let (bytes, groups) = (head_size / 2, head_size / 32);
            let row = &[keys_per_head, values_per_head][side][head][p * bytes..(p + 1) * bytes];
            let scales = &[keys_scales, values_scales][side][head][p * groups..(p + 1) * groups];
            Row {
                cells: row.to_vec(),
                scales: scales.iter().map(|scale| scale.to_bits()).collect(),
            }
        }
    }
}

/// Puts a row behind the others of a layer of the lifted store.
fn push_row(data: &mut KvLayerData, side: usize, head: usize, cells: &[u8], scales: &[u32]) {
    let scales = scales.iter().map(|word| f32::from_bits(*word));
    match data {
        KvLayerData::F32 {
            keys_per_head,
            values_per_head,
        } => {
            let row = floats(cells).into_iter().map(f32::from_bits);
            [keys_per_head, values_per_head][side][head].extend(row);
        }
        KvLayerData::BF16 {
            keys_per_head,
            values_per_head,
        } => {
            [keys_per_head, values_per_head][side][head].extend(halves(cells));
        }
        KvLayerData::INT8 {
            keys_per_head,
            values_per_head,
            keys_scales,
            values_scales,
        } => {
            let row = cells.iter().map(|byte| *byte as i8);
            [keys_per_head, values_per_head][side][head].extend(row);
            [keys_scales, values_scales][side][head].extend(scales);
        }
        KvLayerData::INT4 {
            keys_per_head,
            values_per_head,
            keys_scales,
            values_scales,
        } => {
            [keys_per_head, values_per_head][side][head].extend_from_slice(cells);
            [keys_scales, values_scales][side][head].extend(scales);
        }
    }
}

/// The words of cells that hold floats.
fn floats(cells: &[u8]) -> Vec<u32> {
    let words = cells.chunks_exact(4);
    words
        .map(|b| u32::from_le_bytes([b[0], b[1], b[2], b[3]]))
        .collect()
}

/// The halves of cells that hold BF16.
fn halves(cells: &[u8]) -> impl Iterator<Item = u16> + '_ {
    cells
        .chunks_exact(2)
        .map(|b| u16::from_le_bytes([b[0], b[1]]))
}

/// The sizes of a shape inside the limits, for finding its rows.
#[derive(Clone, Copy)]
pub struct Room {
    pub heads: usize,
    pub head_size: usize,
    capacity: usize,
    row_bytes: usize,
    row_scales: usize,
}

impl Room {
    /// The sizes of a shape.
    pub fn of(shape: &Shape) -> Room {
        Room {
            heads: shape.heads as usize,
            head_size: shape.head_size as usize,
            capacity: shape.capacity as usize,
            row_bytes: shape.row_bytes() as usize,
            row_scales: shape.row_scales() as usize,
        }
    }

    /// The places of some positions of a block in both buffers.
    fn places(&self, block: usize, positions: Range<usize>) -> (Range<usize>, Range<usize>) {
        let first = block * self.capacity + positions.start;
        let end = block * self.capacity + positions.end;
        (
            first * self.row_bytes..end * self.row_bytes,
            first * self.row_scales..end * self.row_scales,
        )
    }

    /// Every side and head of a layer with the number of its block.
    fn blocks(&self, layer: usize) -> impl Iterator<Item = (usize, usize, usize)> {
        let heads = self.heads;
        (0..2).flat_map(move |side| {
            (0..heads).map(move |head| (side, head, (2 * layer + side) * heads + head))
        })
    }
}

/// Two buffers whose front parts a store lies in.
pub struct Picture<'a> {
    pub cells: &'a mut [u8],
    pub scales: &'a mut [u32],
}

impl Picture<'_> {
    /// Draws some positions of a layer of the lifted store.
    pub fn draw(&mut self, room: &Room, store: &KvStore, layer: usize, positions: Range<usize>) {
        for (side, head, block) in room.blocks(layer) {
            for p in positions.clone() {
                let row = row_of(&store.layer_data[layer], side, head, p, room.head_size);
                let (cells, scales) = room.places(block, p..p + 1);
                self.cells[cells].copy_from_slice(&row.cells);
                self.scales[scales].copy_from_slice(&row.scales);
            }
        }
    }

    /// Draws zeros at some positions of a layer.
    pub fn wipe(&mut self, room: &Room, layer: usize, positions: Range<usize>) {
        for (_, _, block) in room.blocks(layer) {
            let (cells, scales) = room.places(block, positions.clone());
            self.cells[cells].fill(0);
            self.scales[scales].fill(0);
        }
    }

    /// Draws zeros over all that is lent.
    pub fn wipe_all(&mut self, lent: Lent) {
        self.cells[..lent.cells].fill(0);
        self.scales[..lent.scales].fill(0);
    }
}

/// The lifted store of a shape, with nothing in it.
pub fn empty_store(shape: &Shape, reserve: usize) -> KvStore {
    let kind = match shape.format {
        F32 => KvQuantType::F32,
        BF16 => KvQuantType::BF16,
        INT8 => KvQuantType::INT8,
        INT4 => KvQuantType::INT4,
        format => unreachable!("format {format}"),
    };
    let (layers, heads) = (shape.layers as usize, shape.heads as usize);
    KvStore::new_with_quant(layers, heads, shape.head_size as usize, reserve, kind)
}

/// The lifted store that lies in two buffers under a record.
pub fn store_in(record: &Record, cells: &[u8], scales: &[u32]) -> KvStore {
    let shape = record.shape();
    let room = Room::of(&shape);
    let mut store = empty_store(&shape, 0);
    store.seq_len = record.seq_len() as usize;
    for (layer, data) in store.layer_data.iter_mut().enumerate() {
        for (side, head, block) in room.blocks(layer) {
            for p in 0..record.lengths()[layer] as usize {
                let (row_cells, row_scales) = room.places(block, p..p + 1);
                push_row(data, side, head, &cells[row_cells], &scales[row_scales]);
            }
        }
    }
    store
}
