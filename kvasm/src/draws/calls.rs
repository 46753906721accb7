//! Random records for the store that is open.
use super::shapes;
use crate::dice::Dice;
use crate::model::Store;
use crate::records::{Record, MOST_NUMBERS};
use crate::shape::{Shape, INT8};

/// Where no store is open, calls are drawn for one of this shape.
const NONE: Shape = Shape::new(INT8, [2, 1, 4, 3]);
/// Patterns of special floats: infinities, NaN, zeros, the smallest and the largest number.
const SPECIAL: [u32; 8] = [
    0x7F80_0000,
    0xFF80_0000,
    0x7FC0_0001,
    0xFF80_0001,
    0,
    0x8000_0000,
    1,
    0x7F7F_FFFF,
];

/// A record with arguments that are mostly right.
pub fn record(store: Option<&Store>, dice: &mut Dice) -> Record {
    let opens = if store.is_some() { 2 } else { 6 };
    match dice.below(20 + opens) {
        0..=7 => append(store, dice),
        8..=11 => truncate(store, dice),
        12..=14 => advance(store, dice),
        15..=19 => Record::Report,
        _ => open(dice),
    }
}

/// An open that is accepted or refused.
fn open(dice: &mut Dice) -> Record {
    Record::Open(match dice.below(2) {
        0 => shapes::at_hand(dice),
        _ => shapes::refused(dice),
    })
}

/// An append of none, some, all or too many positions, sometimes of a torn one.
fn append(store: Option<&Store>, dice: &mut Dice) -> Record {
    let shape = store.map_or(NONE, Store::shape);
    let layer = layer(shape.layers, dice);
    let length = store.map_or(0, |store| store.length(layer) as usize);
    let free = usize::from(shape.capacity) - length;
    let position = shape.position_numbers();
    let positions = match dice.below(9) {
        0 => 0,
        1 | 2 => 1,
        3 => free,
        4 => free + 1,
        5 => free + 1 + dice.place(4),
        _ => dice.place(free + 1),
    };
    // A record has room for so many, where it has room for one.
    let exact = position * positions.min(MOST_NUMBERS / position);
    let numbers = match dice.below(12) {
        0 => exact + 1,
        1 => exact.saturating_sub(1),
        2 => exact + position / 2,
        3 if dice.one_of(4) => dice.place(MOST_NUMBERS + 1),
        _ => exact,
    };
    let numbers = numbers.min(MOST_NUMBERS);
    Record::Append {
        layer,
        keys: (0..numbers).map(|_| float(dice)).collect(),
        values: (0..numbers).map(|_| float(dice)).collect(),
    }
}

/// The bits of a moderate number, of a special one, or any.
fn float(dice: &mut Dice) -> u32 {
    match dice.below(16) {
        0 => dice.pick(&SPECIAL),
        1 | 2 => dice.word(),
        _ => (dice.below(2001) as f32 / 8.0 - 125.0).to_bits(),
    }
}

/// A truncation below, at or past the length.
fn truncate(store: Option<&Store>, dice: &mut Dice) -> Record {
    let layer = layer(store.map_or(NONE, Store::shape).layers, dice);
    let length = store.map_or(0, |store| store.length(layer) as u16);
    let to = match dice.below(8) {
        0 => 0,
        1 => length,
        2 => length + 1,
        3 => length.saturating_sub(1),
        4 => dice.pick(&[255, 256, 4096, 32_768, u16::MAX]),
        _ => dice.below(u32::from(length) + 1) as u16,
    };
    Record::Truncate { layer, to }
}

/// An advance, sometimes to the largest word or past it.
fn advance(store: Option<&Store>, dice: &mut Dice) -> Record {
    let left = u32::MAX - store.map_or(0, Store::seq_len);
    let count = match dice.below(12) {
        0 => left,
        1 | 2 => left.saturating_add(1),
        3 => u32::MAX,
        4 => left.saturating_sub(dice.below(4)),
        5 => dice.word(),
        6 => 0,
        _ => dice.below(9),
    };
    Record::Advance { count }
}

/// A layer, often the first or the last one, sometimes none of the store's.
fn layer(layers: u16, dice: &mut Dice) -> u16 {
    match dice.below(24) {
        0 => layers,
        1 => dice.pick(&[layers + 1, 127, 128, 255, 256, 32_768, u16::MAX]),
        2..=9 => 0,
        10..=15 => layers - 1,
        _ => dice.below(layers.into()) as u16,
    }
}
