//! Random call files: histories, damaged ones, garbage, and files about as long as the program takes.
mod calls;
mod shapes;
mod wounds;

use crate::dice::Dice;
use crate::history::History;
use crate::model::{Player, MOST_BYTES};
use crate::records::{Record, MARK, MOST_NUMBERS};

/// Bytes of any file at most; a pipe holds them, so that nobody waits for a program to read.
pub const MOST_FILE: usize = 40_000;

/// A file of any kind.
pub fn file(dice: &mut Dice) -> Vec<u8> {
    let file = match dice.below(100) {
        0..=57 => random_history(dice).bytes(),
        58..=86 => wounds::wounded(random_history(dice).bytes(), dice),
        87..=91 => garbage(dice),
        92..=95 => marked_garbage(dice),
        _ => long(dice),
    };
    debug_assert!(file.len() <= MOST_FILE);
    file
}

/// Records that are whole; most of the calls are accepted.
fn random_history(dice: &mut Dice) -> History {
    let mut draft = Draft::default();
    if !dice.one_of(12) {
        draft.add(&Record::Open(shapes::at_hand(dice)));
    }
    for _ in 0..dice.below(28) {
        draft.add(&calls::record(draft.player.store.as_ref(), dice));
    }
    if dice.one_of(2) {
        draft.add(&Record::Report);
    }
    draft.history
}

/// A history and the store that it leaves, which the next record is drawn for.
#[derive(Default)]
struct Draft {
    history: History,
    player: Player,
}

impl Draft {
    /// Adds a record while the program would take the file.
    fn add(&mut self, record: &Record) {
        let bytes = record.bytes();
        if self.history.len() + bytes.len() <= MOST_BYTES {
            self.player.answer(record);
            self.history = std::mem::take(&mut self.history).raw(&bytes);
        }
    }
}

/// Bytes that hardly ever begin with a mark.
fn garbage(dice: &mut Dice) -> Vec<u8> {
    let length = dice.place(64);
    dice.bytes(length)
}

/// Marks, each with a kind and some bytes, after a good record or none.
fn marked_garbage(dice: &mut Dice) -> Vec<u8> {
    let mut file = match dice.below(2) {
        0 => Vec::new(),
        _ => Record::Open(shapes::at_hand(dice)).bytes(),
    };
    for _ in 0..=dice.below(4) {
        file.extend(MARK);
        file.push(dice.below(7) as u8);
        // Small bytes make small sizes and layers.
        let bound = dice.pick(&[2, 8, 256]);
        file.extend((0..dice.below(14)).map(|_| dice.below(bound) as u8));
    }
    file
}

/// A file about as long as the program takes, or too long by far; sometimes damaged.
fn long(dice: &mut Dice) -> Vec<u8> {
    let start = random_history(dice);
    let length = match dice.below(4) {
        0 => MOST_BYTES,
        1 => MOST_BYTES + 1,
        2 => MOST_BYTES - 4 + dice.place(12),
        _ => MOST_FILE - dice.place(MOST_FILE - MOST_BYTES),
    };
    let file = match start.len() + MOST_NUMBERS < length {
        true => start.filled_to(length).bytes(),
        false => start.bytes(),
    };
    match dice.below(3) {
        0 => wounds::changed(file, dice),
        _ => file,
    }
}
