//! The steps that the second fixed list is put together from.
use super::{CELLS, OUTPUT, SCALES};
use crate::calls::{Call, Change, Step};
use crate::record::{Lent, Record, Shape, INT8};
use crate::replies::{Head, Place};

/// Two layers of two positions, two heads of two numbers: the store that refusals are tried on.
pub const SMALL: Shape = shape(INT8, 2, 2, 2, 2);

pub const fn shape(format: u32, layers: u32, heads: u32, head_size: u32, capacity: u32) -> Shape {
    Shape {
        format,
        layers,
        heads,
        head_size,
        capacity,
    }
}

/// The small store with two positions in its first layer and one in its second.
pub fn filled() -> Vec<Step> {
    let numbers = |first: u16, count: u16| -> Vec<u32> {
        let numbers = first..first + count;
        numbers.map(|i| f32::from(i).to_bits()).collect()
    };
    let mut steps = opened(&SMALL);
    steps.push(append(0, &numbers(1, 8), &numbers(11, 8)));
    steps.push(append(1, &numbers(21, 4), &numbers(31, 4)));
    steps
}

/// A word of the small store's record after it was filled.
pub fn word_of_filled(place: usize) -> u32 {
    let mut record = Record::opened(&SMALL);
    record.set_length(0, 2);
    record.set_length(1, 1);
    record.0[place]
}

/// Each call but open, with arguments that a filled small store takes.
pub fn each_call() -> Vec<Step> {
    vec![
        append(1, &[1; 4], &[2; 4]),
        truncate(0, 1),
        Step::Call(Call::Advance { count: 3 }),
        cached_len(0),
        Step::Call(Call::MemoryBytes),
        read(0, 1, 1, 0, 2),
        scores(0, 1, &[1; 2], 1, 1),
        sums(0, 1, &[1], 2),
    ]
}

/// Every length, the byte count, and every row of both sides.
pub fn questions(lengths: &[u32], heads: u32, head_size: u32) -> Vec<Step> {
    let mut steps: Vec<Step> = (0..lengths.len() as u32).map(cached_len).collect();
    steps.push(Step::Call(Call::MemoryBytes));
    for (layer, &length) in (0..).zip(lengths) {
        for (side, head) in (0..2).flat_map(|side| (0..heads).map(move |head| (side, head))) {
            let row = |position| read(layer, side, head, position, head_size as usize);
            steps.extend((0..length).map(row));
        }
    }
    steps
}

/// What a shape needs; nothing where that is not at hand.
pub fn exact(shape: &Shape) -> Lent {
    let at_hand = |need: u128, most: usize| match need <= most as u128 {
        true => need as usize,
        false => 0,
    };
    Lent {
        cells: at_hand(shape.cells(), CELLS.0),
        scales: at_hand(shape.scales(), SCALES.0),
    }
}

/// Lengths of which one is one short or one long.
pub fn beside(lent: Lent) -> [Lent; 4] {
    let Lent { cells, scales } = lent;
    [
        (cells - 1, scales),
        (cells + 1, scales),
        (cells, scales - 1),
        (cells, scales + 1),
    ]
    .map(|(cells, scales)| Lent { cells, scales })
}

pub fn opened(shape: &Shape) -> Vec<Step> {
    vec![lend(exact(shape)), Step::Call(Call::Open(*shape))]
}

pub fn append(layer: u32, keys: &[u32], values: &[u32]) -> Step {
    Step::Call(Call::Append {
        layer,
        keys: keys.to_vec(),
        values: values.to_vec(),
    })
}

pub fn truncate(layer: u32, to: u32) -> Step {
    Step::Call(Call::Truncate { layer, to })
}

pub fn cached_len(layer: u32) -> Step {
    Step::Call(Call::CachedLen { layer })
}

pub fn read(layer: u32, side: u32, head: u32, position: u32, places: usize) -> Step {
    let place = Place {
        layer,
        side,
        head,
        position,
    };
    Step::Call(with_output(Call::ReadRow {
        place,
        output: Vec::new(),
        lent: places,
    }))
}

pub fn scores(layer: u32, head: u32, query: &[u32], scale: u32, places: usize) -> Step {
    Step::Call(with_output(Call::Scores {
        head: Head { layer, head },
        query: query.to_vec(),
        scale,
        output: Vec::new(),
        lent: places,
    }))
}

pub fn sums(layer: u32, head: u32, weights: &[u32], places: usize) -> Step {
    Step::Call(with_output(Call::Sums {
        head: Head { layer, head },
        weights: weights.to_vec(),
        output: Vec::new(),
        lent: places,
    }))
}

/// The same call, where it has an output with the one that the program lends.
pub fn with_output(mut call: Call) -> Call {
    if let Call::ReadRow { output, lent, .. }
    | Call::Scores { output, lent, .. }
    | Call::Sums { output, lent, .. } = &mut call
    {
        *output = vec![OUTPUT; *lent];
    }
    call
}

pub fn lend(lent: Lent) -> Step {
    Step::Change(Change::Lend(lent))
}

pub fn record_word(place: usize, word: u32) -> Step {
    Step::Change(Change::RecordWord(place, word))
}
