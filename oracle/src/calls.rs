//! The calls of a store, what a caller holds, and what a call answers.
use crate::dice::Dice;
use crate::record::{Lent, Record, Shape, WORDS};
use crate::replies::{Head, Place};
use std::fmt;

/// Places behind what is lent of each buffer.
const GUARD: usize = 16;
/// Words of a list that a text shows.
const SHOWN: usize = 48;

/// One call.
#[derive(Clone)]
pub enum Call {
    Open(Shape),
    Append {
        layer: u32,
        keys: Vec<u32>,
        values: Vec<u32>,
    },
    Truncate {
        layer: u32,
        to: u32,
    },
    Advance {
        count: u32,
    },
    CachedLen {
        layer: u32,
    },
    MemoryBytes,
    /// The front of `output` is lent.
    ReadRow {
        place: Place,
        output: Vec<u32>,
        lent: usize,
    },
    /// The front of `output` is lent.
    Scores {
        head: Head,
        query: Vec<u32>,
        scale: u32,
        output: Vec<u32>,
        lent: usize,
    },
    /// The front of `output` is lent.
    Sums {
        head: Head,
        weights: Vec<u32>,
        output: Vec<u32>,
        lent: usize,
    },
}

/// The number of a call's kind; 8 to 11 are those of a caller's changes, 14 is that of a comparison with a fresh store.
pub fn kind(call: &Call) -> u32 {
    match call {
        Call::Open(_) => 1,
        Call::Append { .. } => 2,
        Call::Truncate { .. } => 3,
        Call::Advance { .. } => 4,
        Call::CachedLen { .. } => 5,
        Call::MemoryBytes => 6,
        Call::ReadRow { .. } => 7,
        Call::Scores { .. } => 12,
        Call::Sums { .. } => 13,
    }
}

/// What a caller does to its own things between calls.
#[derive(Clone, Copy)]
pub enum Change {
    Lend(Lent),
    RecordWord(usize, u32),
    CellByte(usize, u8),
    ScaleWord(usize, u32),
}

/// One step of a history.
#[derive(Clone)]
pub enum Step {
    Call(Call),
    Change(Change),
}

/// What a call answers: its reply, and the count or the whole output where it has one.
#[derive(Debug, PartialEq)]
pub struct Answer {
    pub reply: u32,
    pub told: Told,
}

#[derive(Debug, PartialEq)]
pub enum Told {
    Nothing,
    Count(u64),
    Output(Vec<u32>),
}

/// What a caller holds: a record, and two buffers of which the front is lent.
#[derive(Clone)]
pub struct Holdings {
    pub record: Record,
    pub cells: Vec<u8>,
    pub scales: Vec<u32>,
    pub lent: Lent,
}

impl Holdings {
    /// Dirty holdings in which no store was opened, of which a shape's need is lent.
    pub fn dirty(shape: &Shape, dice: &mut Dice) -> Holdings {
        let lent = Lent::exact(shape).expect("the shape is not too large");
        let mut record = Record::NONE;
        record.0.copy_from_slice(&dice.words(WORDS));
        Holdings {
            record,
            cells: dice.bytes(lent.cells + GUARD),
            scales: dice.words(lent.scales + GUARD),
            lent,
        }
    }

    /// Makes a change.
    pub fn make(&mut self, change: Change) {
        match change {
            Change::Lend(lent) => self.lent = lent,
            Change::RecordWord(place, word) => self.record.0[place] = word,
            Change::CellByte(place, byte) => self.cells[place] = byte,
            Change::ScaleWord(place, word) => self.scales[place] = word,
        }
    }
}

impl fmt::Display for Shape {
    fn fmt(&self, text: &mut fmt::Formatter) -> fmt::Result {
        let format = self.format;
        let (layers, heads) = (self.layers, self.heads);
        let (head_size, capacity) = (self.head_size, self.capacity);
        write!(
            text,
            "format {format} L {layers} H {heads} D {head_size} C {capacity}"
        )
    }
}

impl fmt::Display for Head {
    fn fmt(&self, text: &mut fmt::Formatter) -> fmt::Result {
        let Head { layer, head } = self;
        write!(text, "layer {layer} head {head}")
    }
}

impl fmt::Display for Call {
    fn fmt(&self, text: &mut fmt::Formatter) -> fmt::Result {
        match self {
            Call::Open(shape) => write!(text, "open {shape}"),
            Call::Append {
                layer,
                keys,
                values,
            } => {
                let (keys, values) = (listed(keys), listed(values));
                write!(text, "append to layer {layer} keys {keys} values {values}")
            }
            Call::Truncate { layer, to } => write!(text, "truncate layer {layer} to {to}"),
            Call::Advance { count } => write!(text, "advance by {count}"),
            Call::CachedLen { layer } => write!(text, "length of layer {layer}"),
            Call::MemoryBytes => write!(text, "byte count"),
            Call::ReadRow { place, lent, .. } => {
                let Place {
                    layer,
                    side,
                    head,
                    position,
                } = place;
                write!(text, "read layer {layer} side {side} head {head} ")?;
                write!(text, "position {position} into {lent} places")
            }
            Call::Scores {
                head,
                query,
                scale,
                lent,
                ..
            } => {
                let query = listed(query);
                write!(text, "{lent} scores of {head} by query {query} ")?;
                write!(text, "times {scale:08x}")
            }
            Call::Sums {
                head,
                weights,
                lent,
                ..
            } => {
                let weights = listed(weights);
                write!(text, "{lent} sums of {head} by weights {weights}")
            }
        }
    }
}

/// A list's length and its first words.
fn listed(words: &[u32]) -> String {
    let first = &words[..words.len().min(SHOWN)];
    let rest = if first.len() < words.len() { " .." } else { "" };
    format!("{} {first:08x?}{rest}", words.len())
}
