//! The steps of the second fixed list.
use super::steps::{
    append, beside, cached_len, each_call, exact, filled, lend, opened, questions, read,
    record_word, scores, shape, sums, truncate, with_output, word_of_filled, SMALL,
};
use super::{at_first, heads, lines, undo, Line};
use crate::calls::{Call, Change, Step};
use crate::dice::Dice;
use crate::draws;
use crate::record::{Lent, Record, Shape, BF16, F32, FIRST_LENGTH, INT4, INT8, SEQ_LEN};
use crate::words::{INFINITY, SIGN};

/// Random calls in one history.
const CALLS: usize = 25;
/// The most numbers of a side of a random append.
const MOST_NUMBERS: usize = 72;
/// Shapes of random histories.
const SHAPES: [Shape; 10] = [
    shape(F32, 2, 1, 2, 3),
    shape(F32, 1, 2, 3, 2),
    shape(F32, 3, 1, 1, 2),
    shape(BF16, 2, 2, 3, 2),
    shape(BF16, 1, 1, 5, 4),
    shape(INT8, 2, 1, 5, 3),
    shape(INT8, 1, 3, 2, 2),
    shape(INT4, 1, 1, 32, 3),
    shape(INT4, 2, 1, 32, 1),
    shape(INT4, 1, 1, 64, 1),
];

/// Every line: by hand at each edge, then random histories, then those that take back.
pub fn all() -> Vec<Line> {
    let mut steps = each_call();
    steps.extend(largest());
    steps.extend(opens());
    steps.extend(whole_case());
    steps.extend(halves());
    steps.extend(long_head());
    steps.extend(ends_of_capacity());
    steps.extend(truncations());
    steps.extend(refused_between_two_good_ones());
    steps.extend(damaged_records());
    steps.extend(wrong_rooms());
    steps.extend(wrong_arguments());
    steps.extend(last_advance());
    steps.extend(lowest_numbers());
    steps.extend(cells_by_hand());
    steps.extend(lengths_by_hand());
    steps.extend(heads::all());
    for (shape, piece) in SHAPES.iter().zip(0..) {
        steps.extend(random_history(shape, piece));
    }
    [lines(steps), undo::all()].concat()
}

/// P10: what the largest store would need is not at hand, and one layer more is too many.
pub fn largest() -> Vec<Step> {
    [2, 3]
        .map(|layers| Step::Call(Call::Open(shape(F32, layers, 64, 256, 4096))))
        .into()
}

/// Opens at the limits, each over the one before; then past them and with nearly the exact room, over a filled store.
fn opens() -> Vec<Step> {
    let accepted = [
        shape(F32, 1, 1, 1, 1),
        shape(BF16, 128, 1, 1, 1),
        shape(INT8, 1, 64, 1, 1),
        shape(INT8, 1, 1, 256, 1),
        shape(INT4, 1, 1, 32, 1),
    ];
    let refused = [
        shape(INT4, 1, 1, 48, 1),
        shape(INT4, 1, 1, 16, 1),
        shape(4, 1, 1, 1, 1),
        shape(F32, 0, 1, 1, 1),
        shape(F32, 129, 1, 1, 1),
        shape(F32, 1, 0, 1, 1),
        shape(F32, 1, 65, 1, 1),
        shape(F32, 1, 1, 0, 1),
        shape(INT8, 1, 1, 257, 1),
        shape(F32, 1, 1, 1, 0),
        shape(F32, 1, 1, 1, 4097),
        shape(F32, 128, 64, 256, 4096),
    ];
    let mut steps: Vec<Step> = accepted.iter().flat_map(opened).collect();
    steps.extend(filled());
    steps.extend(refused.iter().flat_map(opened));
    for lent in beside(exact(&SMALL)) {
        steps.extend([lend(lent), Step::Call(Call::Open(SMALL))]);
    }
    steps
}

/// P1 through an append, and the whole case's questions.
pub fn whole_case() -> Vec<Step> {
    let keys = [127.0, 0.5, -0.5, -2.5].map(f32::to_bits);
    let mut steps = opened(&shape(INT8, 1, 1, 4, 2));
    steps.push(append(0, &keys, &[0; 4]));
    steps.extend(questions(&[1], 1, 4));
    steps.push(truncate(1, 0));
    steps
}

/// P8 through a BF16 store, and NaN patterns of which the sum carries into the sign or wraps.
fn halves() -> Vec<Step> {
    let mut steps = opened(&shape(BF16, 1, 1, 3, 2));
    steps.push(append(
        0,
        &[0x3F80_8000, 0x3F81_8000, 0x7F7F_FFFF],
        &[0x7FFF_FFFF, 0xFFFF_FFFF, 0x7F80_0001],
    ));
    steps.extend(questions(&[1], 1, 3));
    steps
}

/// A head of INT8 that is longer than a group and has its largest number at the end.
fn long_head() -> Vec<Step> {
    let keys: Vec<u32> = (1..=40).map(|i: u16| f32::from(i).to_bits()).collect();
    let values: Vec<u32> = keys.iter().rev().map(|key| SIGN | key).collect();
    let mut steps = opened(&shape(INT8, 1, 1, 40, 1));
    steps.push(append(0, &keys, &values));
    steps.extend(questions(&[1], 1, 40));
    steps
}

/// One position less than the capacity, two more refused, one more accepted, and none on top.
fn ends_of_capacity() -> Vec<Step> {
    let mut steps = opened(&shape(F32, 1, 1, 1, 3));
    let counts: [u32; 6] = [2, 2, 1, 1, 0, 4];
    for (count, first) in counts.into_iter().zip((0..).step_by(16)) {
        let keys: Vec<u32> = (0..count).map(|i| INFINITY + first + i).collect();
        let values: Vec<u32> = keys.iter().map(|key| SIGN | key).collect();
        steps.push(append(0, &keys, &values));
    }
    steps.extend(questions(&[3], 1, 1));
    steps
}

/// Truncations below, at and past the length in each format, both layers.
fn truncations() -> Vec<Step> {
    let mut steps = Vec::new();
    for (format, head_size) in [(F32, 1), (BF16, 2), (INT8, 3), (INT4, 32)] {
        let shape = shape(format, 2, 1, head_size, 3);
        let position: Vec<u32> = (1..=head_size as u16)
            .map(|i| f32::from(i).to_bits())
            .collect();
        let three = position.repeat(3);
        steps.extend(opened(&shape));
        steps.push(append(1, &three, &three));
        steps.push(append(0, &position, &position));
        for to in [u32::MAX, 4, 3, 2] {
            steps.push(truncate(1, to));
        }
        steps.push(append(1, &position, &position));
        steps.push(truncate(1, 0));
        steps.extend(questions(&[1, 0], 1, head_size));
    }
    steps
}

/// A refused append between two good ones.
fn refused_between_two_good_ones() -> Vec<Step> {
    let mut steps = opened(&shape(INT8, 1, 2, 2, 3));
    let numbers = |first: u16, count: u16| -> Vec<u32> {
        (first..first + count)
            .map(|i| f32::from(i).to_bits())
            .collect()
    };
    steps.push(append(0, &numbers(1, 4), &numbers(5, 4)));
    steps.push(append(0, &numbers(20, 12), &numbers(40, 12)));
    steps.push(append(0, &numbers(60, 5), &numbers(70, 5)));
    steps.push(append(0, &numbers(9, 4), &numbers(13, 4)));
    steps.extend(questions(&[2], 2, 2));
    steps
}

/// Every call on records with one word outside its limits, and with a wrong length.
fn damaged_records() -> Vec<Step> {
    let outside = [
        (0, 4),
        (1, 0),
        (1, 129),
        (2, 0),
        (2, 65),
        (3, 0),
        (3, 257),
        (4, 0),
        (4, 4097),
    ];
    let lengths = [
        (FIRST_LENGTH, 3),
        (FIRST_LENGTH + 1, u32::MAX),
        (FIRST_LENGTH + 2, 1),
        (FIRST_LENGTH + 127, 1),
    ];
    let mut steps = filled();
    for (place, word) in outside.into_iter().chain(lengths) {
        let before = word_of_filled(place);
        steps.push(record_word(place, word));
        steps.extend(each_call());
        steps.push(record_word(place, before));
    }
    steps.extend(questions(&[2, 1], 2, 2));
    steps
}

/// Every call with a buffer one short or one long.
fn wrong_rooms() -> Vec<Step> {
    let mut steps = filled();
    for lent in beside(exact(&SMALL)) {
        steps.push(lend(lent));
        steps.extend(each_call());
    }
    steps.push(lend(exact(&SMALL)));
    steps.extend(questions(&[2, 1], 2, 2));
    steps
}

/// Layers, sides, heads, positions, outputs and appends that a store does not have.
fn wrong_arguments() -> Vec<Step> {
    let mut steps = filled();
    for layer in [2, 127, 128, u32::MAX] {
        steps.push(append(layer, &[1; 4], &[2; 4]));
        steps.push(truncate(layer, 0));
        steps.push(cached_len(layer));
        steps.push(read(layer, 0, 0, 0, 2));
    }
    for (side, head) in [(2, 0), (u32::MAX, 1), (0, 2), (1, 64), (0, u32::MAX)] {
        steps.push(read(0, side, head, 0, 2));
    }
    for places in [0, 1, 3, 256] {
        steps.push(read(0, 1, 1, 0, places));
    }
    for position in [1, 2, u32::MAX] {
        steps.push(read(1, 1, 1, position, 2));
    }
    for (keys, values) in [
        (1, 1),
        (3, 3),
        (5, 5),
        (4, 3),
        (4, 5),
        (4, 8),
        (4, 0),
        (0, 4),
    ] {
        steps.push(append(1, &vec![1; keys], &vec![2; values]));
    }
    steps.push(append(1, &[3; 8], &[4; 8]));
    steps.push(append(0, &[], &[]));
    steps.extend(questions(&[2, 1], 2, 2));
    steps
}

/// Advances to the largest word and past it.
fn last_advance() -> Vec<Step> {
    let mut steps = filled();
    for count in [0, 7, u32::MAX, u32::MAX - 8, 2, 1, 1, 0] {
        steps.push(Step::Call(Call::Advance { count }));
    }
    steps.push(truncate(0, 1));
    steps
}

/// Calls to which several refusals apply.
fn lowest_numbers() -> Vec<Step> {
    let mut steps = filled();
    let exact = exact(&SMALL);
    let short = Lent {
        cells: exact.cells - 1,
        ..exact
    };
    steps.push(record_word(SEQ_LEN, u32::MAX));
    let wrong = [
        append(2, &[1; 5], &[2; 13]),
        truncate(2, 0),
        Step::Call(Call::Advance { count: 1 }),
        cached_len(2),
        read(2, 2, 2, 2, 3),
        scores(2, 2, &[1; 3], 1, 3),
        sums(2, 2, &[1; 3], 3),
    ];
    let damages = [Some((0, 4)), Some((FIRST_LENGTH + 5, 1)), None];
    for lent in [short, exact] {
        for damage in damages {
            steps.push(lend(lent));
            steps.extend(damage.map(|(place, word)| record_word(place, word)));
            steps.extend(wrong.iter().cloned());
            steps.extend(damage.map(|(place, _)| record_word(place, word_of_filled(place))));
        }
    }
    steps.extend([
        append(0, &[1; 13], &[2; 13]),
        append(0, &[1; 12], &[2; 12]),
        read(0, 2, 0, 2, 3),
        read(0, 0, 0, 2, 3),
        read(0, 0, 0, 2, 2),
    ]);
    steps
}

/// Rows whose cells and scales were set by hand: the byte 80, infinite and NaN scales, NaN patterns.
fn cells_by_hand() -> Vec<Step> {
    let scales = [
        0,
        0x3F80_0000,
        INFINITY,
        SIGN | INFINITY,
        0x7F80_0001,
        1,
        0x7F7F_FFFF,
    ];
    let mut steps = opened(&shape(INT8, 1, 1, 4, 1));
    steps.push(record_word(FIRST_LENGTH, 1));
    for (place, byte) in (0..).zip([0x80, 0xFF, 0x00, 0x7F]) {
        steps.push(Step::Change(Change::CellByte(place, byte)));
    }
    for scale in scales {
        steps.push(Step::Change(Change::ScaleWord(0, scale)));
        steps.push(read(0, 0, 0, 0, 4));
    }
    steps.extend(opened(&shape(INT4, 1, 1, 64, 1)));
    steps.push(record_word(FIRST_LENGTH, 1));
    for place in 0..32 {
        steps.push(Step::Change(Change::CellByte(place, (place * 37) as u8)));
    }
    for scale in scales {
        steps.push(Step::Change(Change::ScaleWord(1, scale)));
        steps.push(read(0, 0, 0, 0, 64));
    }
    steps.extend(opened(&shape(F32, 1, 1, 1, 1)));
    steps.push(record_word(FIRST_LENGTH, 1));
    for (place, byte) in (0..).zip([0x01, 0x02, 0x80, 0xFF]) {
        steps.push(Step::Change(Change::CellByte(place, byte)));
    }
    steps.push(read(0, 0, 0, 0, 1));
    steps
}

/// Lengths that were lowered or raised by hand: only the positions of a call change.
fn lengths_by_hand() -> Vec<Step> {
    let mut steps = opened(&shape(INT8, 1, 1, 2, 4));
    let three = [1, 2, 3, 4, 5, 6].map(|i: u16| f32::from(i).to_bits());
    steps.push(append(0, &three, &three));
    steps.push(record_word(FIRST_LENGTH, 1));
    steps.push(append(0, &three[4..], &three[4..]));
    steps.push(Step::Change(Change::CellByte(6, 0x55)));
    steps.push(Step::Change(Change::ScaleWord(7, 0x55)));
    steps.push(truncate(0, 1));
    steps.push(record_word(FIRST_LENGTH, 4));
    steps.extend(questions(&[4], 1, 2));
    steps.push(truncate(0, 3));
    steps.push(truncate(0, 0));
    steps
}

/// Random calls on one store, then every length, the byte count and every row.
fn random_history(shape: &Shape, piece: u64) -> Vec<Step> {
    let mut dice = Dice::of("histories", piece);
    let mut wanted = at_first();
    wanted.make(Change::Lend(exact(shape)));
    wanted.play(&Call::Open(*shape));
    let mut steps = opened(shape);
    for _ in 0..CALLS {
        let call = random_call(&wanted.holdings.record, &mut dice);
        wanted.play(&call);
        steps.push(Step::Call(call));
    }
    let lengths = &wanted.holdings.record.lengths()[..shape.layers as usize];
    steps.extend(questions(lengths, shape.heads, shape.head_size));
    steps
}

/// A random call that fits on a line.
fn random_call(record: &Record, dice: &mut Dice) -> Call {
    loop {
        match draws::any_call(record, dice) {
            Call::Append { keys, values, .. } if keys.len().max(values.len()) > MOST_NUMBERS => {}
            call => return with_output(call),
        }
    }
}
