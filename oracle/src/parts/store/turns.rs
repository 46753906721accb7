//! What a random sequence does next.
use crate::calls::{Call, Holdings, Step};
use crate::dice::Dice;
use crate::draws::{any_call, filled_layer, read_into, rows_of};
use crate::mishaps::{damaged, fits, lend, with_wrong_room, word_of, wrong_room};
use crate::record::{Lent, Record, Shape, SEQ_LEN, WORDS};
use crate::replies;
use crate::shapes::{huge, spoiled, Size};

/// The most rows that are read in a row.
const ROWS: usize = 48;
/// The most bytes of both buffers that a store is given.
const MOST_BYTES: u128 = 1 << 24;

/// The kind of stores of a sequence, and its first one.
pub struct Script {
    size: Size,
    first: Shape,
}

impl Script {
    /// A script with a random first store.
    pub fn new(dice: &mut Dice) -> Script {
        let size = Size::drawn(dice);
        Script {
            size,
            first: size.shape(MOST_BYTES, dice),
        }
    }

    /// Dirty holdings with room for the first store and more.
    pub fn holdings(&self, dice: &mut Dice) -> Holdings {
        let need = exact(&self.first);
        let (times, cells, scales) = match self.size {
            Size::Limit => (1, 64, 16),
            _ => (2, 64, 256),
        };
        let mut record = Record::NONE;
        record.0.copy_from_slice(&dice.words(WORDS));
        Holdings {
            record,
            cells: dice.bytes(times * need.cells + cells),
            scales: dice.words(times * need.scales + scales),
            lent: Lent {
                cells: 0,
                scales: 0,
            },
        }
    }

    /// The next steps.
    pub fn turn(&self, holdings: &Holdings, dice: &mut Dice) -> Vec<Step> {
        let usable = replies::truncate(&holdings.record, holdings.lent, 0) == 0;
        if !usable && dice.below(5) != 0 {
            return self.open(holdings, dice);
        }
        match dice.below(64) {
            0 => self.open(holdings, dice),
            1 => open_refused(holdings, dice),
            2 => open_with_wrong_room(holdings, dice),
            3..=5 => with_wrong_room(holdings, any_call, dice),
            6..=12 => damaged(&holdings.record, any_call, dice),
            13 => without_buffers(dice),
            14 | 15 => rows_of_a_layer(&holdings.record, dice),
            _ => vec![Step::Call(any_call(&holdings.record, dice))],
        }
    }

    /// Opens a store, over a used one or not.
    fn open(&self, holdings: &Holdings, dice: &mut Dice) -> Vec<Step> {
        let drawn = self.size.shape(MOST_BYTES, dice);
        let shape = if fits(exact(&drawn), holdings) {
            drawn
        } else {
            self.first
        };
        vec![lend(exact(&shape)), Step::Call(Call::Open(shape))]
    }
}

/// The exact need of a shape that is not too large.
fn exact(shape: &Shape) -> Lent {
    Lent::exact(shape).expect("the shape is not too large")
}

/// An open of a shape outside the limits, with what it would need where that is at hand.
fn open_refused(holdings: &Holdings, dice: &mut Dice) -> Vec<Step> {
    let shape = match dice.below(2) {
        0 => spoiled(&holdings.record.shape(), dice),
        _ => huge(dice),
    };
    let in_32_bits = |need: u128| need as u32 as usize;
    let need = Lent {
        cells: in_32_bits(shape.cells()),
        scales: in_32_bits(shape.scales()),
    };
    let lent = if fits(need, holdings) {
        need
    } else {
        holdings.lent
    };
    vec![lend(lent), Step::Call(Call::Open(shape))]
}

/// An open with a buffer that is too short or too long.
fn open_with_wrong_room(holdings: &Holdings, dice: &mut Dice) -> Vec<Step> {
    let shape = holdings.record.shape();
    vec![
        lend(wrong_room(holdings, dice)),
        Step::Call(Call::Open(shape)),
        lend(holdings.lent),
    ]
}

/// Questions and advances on a record of any shape and any lengths, which has no buffers.
fn without_buffers(dice: &mut Dice) -> Vec<Step> {
    let record = record_without_buffers(dice);
    let mut steps: Vec<Step> = (0..WORDS).map(|place| word_of(&record, place)).collect();
    let layer = dice.below(record.shape().layers + 1);
    let count = dice.word();
    let calls = [
        Call::MemoryBytes,
        Call::CachedLen { layer },
        Call::Advance { count },
    ];
    steps.extend(calls.map(Step::Call));
    steps
}

/// A record of a huge shape whose layers are all full, or of random lengths.
fn record_without_buffers(dice: &mut Dice) -> Record {
    let mut shape = huge(dice);
    if dice.below(3) == 0 {
        shape.layers = 1 + dice.below(shape.layers);
    }
    let mut record = Record::opened(&shape);
    record.0[SEQ_LEN] = dice.word();
    let full = dice.below(2) == 0;
    for layer in 0..shape.layers as usize {
        let capacity = shape.capacity as usize;
        let length = if full {
            capacity
        } else {
            dice.place(capacity + 1)
        };
        record.set_length(layer, length);
    }
    record
}

/// Every row of a layer, as far as they are not too many.
fn rows_of_a_layer(record: &Record, dice: &mut Dice) -> Vec<Step> {
    let layer = filled_layer(record, dice);
    let row = record.shape().head_size as usize;
    let read = |place| Step::Call(read_into(place, row, dice));
    rows_of(record, layer).take(ROWS).map(read).collect()
}

#[cfg(test)]
mod tests {
    use super::*;
    use crate::calls::kind;
    use crate::wanted::Wanted;
    use std::collections::BTreeSet;

    /// The kinds of calls in some sequences, each with its replies.
    fn replies_of(sequences: u64) -> BTreeSet<(u32, u32)> {
        let mut seen = BTreeSet::new();
        for piece in 0..sequences {
            let mut dice = Dice::of("test", piece);
            let script = Script::new(&mut dice);
            let mut wanted = Wanted::new(script.holdings(&mut dice));
            for _ in 0..32 {
                for step in script.turn(&wanted.holdings, &mut dice) {
                    match step {
                        Step::Change(change) => wanted.make(change),
                        Step::Call(call) => {
                            seen.insert((kind(&call), wanted.play(&call).reply));
                        }
                    }
                }
            }
        }
        seen
    }

    #[test]
    fn every_call_gives_each_of_its_replies() {
        assert_eq!(replies_of(400), replies::each());
    }
}
