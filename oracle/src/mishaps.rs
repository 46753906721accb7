//! What a caller does wrong between calls: too short or too long a buffer is lent, a record is changed by hand.
use crate::calls::{Change, Holdings, Step};
use crate::dice::Dice;
use crate::draws::{layer_of, Draw};
use crate::record::{Lent, Record, FIRST_LENGTH, LENGTHS, SEQ_LEN};

/// Whether so much is at hand.
pub fn fits(lent: Lent, holdings: &Holdings) -> bool {
    lent.cells <= holdings.cells.len() && lent.scales <= holdings.scales.len()
}

/// The step that lends so much.
pub fn lend(lent: Lent) -> Step {
    Step::Change(Change::Lend(lent))
}

/// A call with a buffer that is too short or too long.
pub fn with_wrong_room(holdings: &Holdings, call: Draw, dice: &mut Dice) -> Vec<Step> {
    vec![
        lend(wrong_room(holdings, dice)),
        Step::Call(call(&holdings.record, dice)),
        lend(holdings.lent),
    ]
}

/// Lengths of which one, or each, is not what is lent now.
pub fn wrong_room(holdings: &Holdings, dice: &mut Dice) -> Lent {
    let Lent { cells, scales } = holdings.lent;
    let wrong = match dice.below(6) {
        0 => (cells.saturating_sub(1), scales),
        1 => (cells + 1, scales),
        2 => (cells, scales.saturating_sub(1)),
        3 => (cells, scales + 1),
        4 => (0, 0),
        _ => (dice.place(cells + 1), dice.place(scales + 1)),
    };
    let wrong = Lent {
        cells: wrong.0,
        scales: wrong.1,
    };
    if fits(wrong, holdings) {
        wrong
    } else {
        holdings.lent
    }
}

/// One or two calls on a record that was changed by hand, and then the words as they were.
pub fn damaged(before: &Record, call: Draw, dice: &mut Dice) -> Vec<Step> {
    let damage = damage(before, dice);
    let mut record = *before;
    for &(place, word) in &damage {
        record.0[place] = word;
    }
    let mut steps: Vec<Step> = damage
        .iter()
        .map(|(place, _)| word_of(&record, *place))
        .collect();
    for _ in 0..1 + dice.below(2) {
        steps.push(Step::Call(call(&record, dice)));
    }
    steps.extend(damage.iter().map(|(place, _)| word_of(before, *place)));
    steps
}

/// The step that gives a place of the record its word.
pub fn word_of(record: &Record, place: usize) -> Step {
    Step::Change(Change::RecordWord(place, record.0[place]))
}

/// New words for some places of a record: inside the limits, beside them, and far off.
fn damage(record: &Record, dice: &mut Dice) -> Vec<(usize, u32)> {
    let shape = record.shape();
    let layer = layer_of(record, dice).min(LENGTHS as u32 - 1) as usize;
    let past = (shape.layers as usize).min(LENGTHS - 1);
    let past = [past, LENGTHS - 1, past + dice.place(LENGTHS - past)][dice.place(3)];
    match dice.below(10) {
        0 => vec![(0, [4, 5, u32::MAX, dice.below(4)][dice.place(4)])],
        1 => vec![(1, beside(shape.layers, 128, dice))],
        2 => vec![(2, beside(shape.heads, 64, dice))],
        3 => vec![(3, beside(shape.head_size, 256, dice))],
        4 => vec![(4, beside(shape.capacity, 4096, dice))],
        5 => vec![(SEQ_LEN, u32::MAX - [0, 1, dice.below(9)][dice.place(3)])],
        6 => vec![(
            FIRST_LENGTH + layer,
            beside(shape.capacity, shape.capacity, dice),
        )],
        7 => vec![(
            FIRST_LENGTH + past,
            [1, 1, shape.capacity, u32::MAX][dice.place(4)],
        )],
        8 => vec![(
            FIRST_LENGTH + layer,
            dice.below(shape.capacity.saturating_add(1)),
        )],
        _ => vec![(1, shape.heads), (2, shape.layers)],
    }
}

/// A word that stands beside another one or beside its limit.
fn beside(word: u32, limit: u32, dice: &mut Dice) -> u32 {
    let words = [
        0,
        word.wrapping_sub(1),
        word.wrapping_add(1),
        limit.wrapping_add(1),
        u32::MAX,
    ];
    words[dice.place(words.len())]
}
