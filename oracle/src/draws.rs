//! Random calls on the store of a record.
pub mod heads;

use crate::calls::Call;
use crate::dice::Dice;
use crate::record::{Record, Shape, LENGTHS};
use crate::replies::{self, Place};
use crate::words;

/// Places behind what is lent of an output.
const GUARD: usize = 8;
/// Numbers of a side that an append exceeds only where it fills a layer.
const MANY: u64 = 1 << 14;
/// Numbers of a side that no append exceeds by more than a position.
const MOST_NUMBERS: u64 = (1 << 20) + 256;
/// The most places of an output.
const MOST_PLACES: usize = 600;

/// What draws a call on the store of a record.
pub type Draw = fn(&Record, &mut Dice) -> Call;

/// A call on the store, or one on a head of it.
pub fn any_call(record: &Record, dice: &mut Dice) -> Call {
    match dice.below(6) {
        0 => heads::call(record, dice),
        _ => call(record, dice),
    }
}

/// A call on the store with arguments that are mostly right.
pub fn call(record: &Record, dice: &mut Dice) -> Call {
    match dice.below(16) {
        0..=4 => append(record, dice),
        5..=7 => truncate(record, dice),
        8 => advance(record, dice),
        9 => Call::CachedLen {
            layer: layer_of(record, dice),
        },
        10 => Call::MemoryBytes,
        _ => read_row(record, dice),
    }
}

/// An append to a layer that is mostly there.
fn append(record: &Record, dice: &mut Dice) -> Call {
    append_to(layer_of(record, dice), record, dice)
}

/// An append of none, some, all or too many positions, sometimes of a wrong length.
pub fn append_to(layer: u32, record: &Record, dice: &mut Dice) -> Call {
    let shape = record.shape();
    let position = shape.position_numbers().min(1 << 14) as usize;
    let positions = positions(record, layer, dice);
    let exact = positions * position;
    let (keys, values) = match dice.below(20) {
        0 => (exact + 1, exact + 1),
        1 => (exact.saturating_sub(1), exact.saturating_sub(1)),
        2 => (exact, exact + 1),
        3 => (exact, exact.saturating_sub(1)),
        4 => (exact, exact + position),
        5 => (exact, exact.saturating_sub(position)),
        6 => (exact + position / 2, exact + position / 2),
        _ => (exact, exact),
    };
    Call::Append {
        layer,
        keys: numbers(keys, &shape, dice),
        values: numbers(values, &shape, dice),
    }
}

/// How many positions to append: none, one, some, all that are free or one more; few to a record that has no store.
fn positions(record: &Record, layer: u32, dice: &mut Dice) -> usize {
    let shape = record.shape();
    let free = match replies::memory_bytes(record) {
        0 => shape.capacity.saturating_sub(record.length(layer)),
        _ => 2,
    };
    let (positions, most) = match dice.below(8) {
        0 => (0, MANY),
        1 | 2 => (1, MANY),
        3 => (free, MOST_NUMBERS),
        4 => (free + 1, MOST_NUMBERS),
        _ => (dice.below(free + 1), MANY),
    };
    let most = most / shape.position_numbers().max(1);
    u64::from(positions).min(most) as usize
}

/// So many numbers, each head a run of one kind.
fn numbers(length: usize, shape: &Shape, dice: &mut Dice) -> Vec<u32> {
    let head = shape.head_size.clamp(1, 256) as usize;
    let mut numbers = Vec::with_capacity(length);
    while numbers.len() < length {
        let next = head.min(length - numbers.len());
        numbers.extend(words::run(next, dice));
    }
    numbers
}

/// A truncation below, at or past the length.
pub fn truncate(record: &Record, dice: &mut Dice) -> Call {
    let layer = match dice.below(3) {
        0 => layer_of(record, dice),
        _ => filled_layer(record, dice),
    };
    let length = record.length(layer);
    let to = match dice.below(8) {
        0 => 0,
        1 => length,
        2 => length.saturating_add(1),
        3 => [record.shape().capacity, dice.word(), u32::MAX][dice.place(3)],
        4 => length.saturating_sub(1),
        _ => dice.below(length.saturating_add(1)),
    };
    Call::Truncate { layer, to }
}

/// An advance, sometimes to the largest word or past it.
pub fn advance(record: &Record, dice: &mut Dice) -> Call {
    let left = u32::MAX - record.seq_len();
    let count = match dice.below(12) {
        0 => left,
        1 => left.saturating_add(1),
        2 => u32::MAX,
        3 => 0,
        4 => dice.word(),
        _ => dice.below(9),
    };
    Call::Advance { count }
}

/// A row that is mostly there.
fn read_row(record: &Record, dice: &mut Dice) -> Call {
    let layer = match dice.below(8) {
        0 => layer_of(record, dice),
        _ => filled_layer(record, dice),
    };
    let shape = record.shape();
    let length = record.length(layer);
    let place = Place {
        layer,
        side: below_or(2, 64, dice),
        head: below_or(shape.heads, 64, dice),
        position: below_or(length, shape.capacity, dice),
    };
    let exact = shape.head_size as usize;
    let lent = match dice.below(24) {
        0 => exact.saturating_sub(1),
        1 => exact + 1,
        2 => [0, 2 * exact][dice.place(2)],
        _ => exact,
    };
    read_into(place, lent, dice)
}

/// A row read into an output of so many NaN, as far as they are not too many.
pub fn read_into(place: Place, lent: usize, dice: &mut Dice) -> Call {
    let lent = lent.min(MOST_PLACES);
    Call::ReadRow {
        place,
        output: words::nans(lent + GUARD, dice),
        lent,
    }
}

/// The places of a layer's rows.
pub fn rows_of(record: &Record, layer: u32) -> impl Iterator<Item = Place> {
    let (heads, length) = (record.shape().heads.min(64), record.length(layer).min(4096));
    let place = move |side, head, position| Place {
        layer,
        side,
        head,
        position,
    };
    let of_head = move |side, head| (0..length).map(move |position| place(side, head, position));
    (0..2).flat_map(move |side| (0..heads).flat_map(move |head| of_head(side, head)))
}

/// A number below a bound, or sometimes one that is not.
fn below_or(bound: u32, other: u32, dice: &mut Dice) -> u32 {
    match dice.below(24) {
        0 => [bound, other, u32::MAX][dice.place(3)],
        _ => dice.below(bound),
    }
}

/// A layer, often the first or the last one, sometimes none of the store's.
pub fn layer_of(record: &Record, dice: &mut Dice) -> u32 {
    let layers = record.shape().layers;
    match dice.below(24) {
        0 => [layers, layers.saturating_add(1), 127, 128, u32::MAX][dice.place(5)],
        1..=8 => 0,
        9..=16 => layers.saturating_sub(1),
        _ => dice.below(layers),
    }
}

/// A layer with positions, where one is found.
pub fn filled_layer(record: &Record, dice: &mut Dice) -> u32 {
    let layers = record.shape().layers.clamp(1, LENGTHS as u32);
    let start = dice.below(layers);
    let around = (0..layers).map(|i| (start + i) % layers);
    let mut filled = around.filter(|layer| record.length(*layer) > 0);
    filled.next().unwrap_or(start)
}
