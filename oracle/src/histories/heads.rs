//! The steps of the second fixed list that ask for scores and sums.
use super::steps::{append, opened, record_word, scores, shape, sums};
use crate::calls::{Change, Step};
use crate::record::{BF16, F32, FIRST_LENGTH, INT4, INT8};
use crate::words::{INFINITY, SIGN};

/// The words of some numbers.
const ONE: u32 = 0x3F80_0000;
const SEVEN: u32 = 0x40E0_0000;
const LARGEST: u32 = 0x7F7F_FFFF;
/// A number beside which 1 is lost.
const LARGE: f32 = 16_777_216.0;
/// Subnormals, a zero, the largest number, infinities and NaN, both signs among them.
const SPECIALS: [u32; 8] = [
    0x0000_0001,
    0x807F_FFFF,
    SIGN,
    LARGEST,
    INFINITY,
    SIGN | INFINITY,
    0x7FC0_0000,
    0xFF80_0001,
];

/// Every such step by hand.
pub fn all() -> Vec<Step> {
    let mut steps = group_of_p2();
    steps.extend(each_head());
    steps.extend(orders());
    steps.extend(long_layer());
    steps.extend(three_groups());
    steps.extend(special_numbers());
    steps.extend(special_groups());
    steps.extend(cells_by_hand());
    steps.extend(groups_by_hand());
    steps.extend(refusals());
    steps
}

/// P9: the group of P2 as key and as value.
pub fn group_of_p2() -> Vec<Step> {
    let [two, three, half, quarter] = [2.0, 3.0, 0.5, 0.25].map(f32::to_bits);
    let mut steps = opened(&shape(INT4, 1, 1, 32, 2));
    steps.push(append(0, &p2(), &p2()));
    steps.push(scores(0, 0, &group(&[(0, two), (16, three)]), half, 1));
    steps.push(sums(0, 0, &[quarter], 32));
    steps
}

/// No position, all and one more, of both heads of both layers.
fn each_head() -> Vec<Step> {
    let mut steps = Vec::new();
    for (format, head_size) in [(F32, 2), (INT4, 32)] {
        steps.extend(opened(&shape(format, 2, 2, head_size.into(), 3)));
        for (layer, turn) in [(0, 0), (0, 4), (0, 8), (1, 12), (1, 16)] {
            let position = |turn| [varied(head_size, turn), varied(head_size, turn + 1)].concat();
            steps.push(append(layer, &position(turn), &position(turn + 2)));
        }
        for (layer, head) in [(0, 0), (0, 1), (1, 0), (1, 1)] {
            let length = 3 - layer as u16;
            for positions in [0, length, length + 1] {
                let (query, weights) = (varied(head_size, 1), varied(positions, 2));
                steps.push(scores(layer, head, &query, ONE, positions.into()));
                steps.push(sums(layer, head, &weights, head_size.into()));
            }
        }
    }
    steps
}

/// Rows of keys, and the same as columns of values, that tell another order, a fused product or a wider sum.
pub fn orders() -> Vec<Step> {
    let (large, largest) = (LARGE, f32::MAX);
    // The square of `more` is rounded to `square`.
    let (more, square) = (1.0 + 1.0 / 4096.0, 1.0 + 1.0 / 2048.0);
    let rows = [
        [large, 1.0, -large, 1.0],
        [1.0, large, 1.0, -large],
        [-square, more, 0.0, 0.0],
        [largest, largest, -largest, -largest],
    ]
    .map(|row| row.map(f32::to_bits));
    let columns: Vec<u32> = (0..4).flat_map(|d| rows.map(|row| row[d])).collect();
    let mut steps = opened(&shape(F32, 1, 1, 4, 4));
    steps.push(append(0, &rows.concat(), &columns));
    for numbers in [[1.0; 4], [1.0, more, 1.0, 1.0], [0.1, 0.2, 0.3, 0.7]] {
        let numbers = numbers.map(f32::to_bits);
        for scale in [1.0f32, 0.25, 0.1] {
            steps.push(scores(0, 0, &numbers, scale.to_bits(), 4));
        }
        steps.push(sums(0, 0, &numbers, 4));
    }
    steps
}

/// As many positions as the Rust's small context has, and more.
fn long_layer() -> Vec<Step> {
    let mut steps = opened(&shape(F32, 1, 1, 1, 66));
    steps.push(append(0, &varied(66, 0), &varied(66, 1)));
    for positions in [64, 65, 66] {
        steps.push(scores(0, 0, &varied(1, 2), ONE, positions.into()));
        steps.push(sums(0, 0, &varied(positions, 3), 1));
    }
    steps
}

/// Rows of three groups, the fewest whose order shows: a small sum before two large ones that cancel is lost.
fn three_groups() -> Vec<Step> {
    let firsts = |numbers: [u32; 3]| numbers.map(|number| group(&[(0, number)])).concat();
    let [half, large] = [0.5, LARGE].map(f32::to_bits);
    let mut steps = opened(&shape(INT4, 1, 1, 96, 3));
    for (keys, turn) in [
        (groups(3, 0), 3),
        (groups(3, 1), 4),
        (firsts([SEVEN; 3]), 5),
    ] {
        steps.push(append(0, &keys, &groups(3, turn)));
    }
    for positions in [1, 2, 3] {
        let scale = varied(1, positions)[0];
        steps.push(scores(0, 0, &groups(3, positions), scale, positions.into()));
        steps.push(sums(0, 0, &varied(positions, 7), 96));
    }
    steps.push(scores(0, 0, &firsts([half, large, SIGN | large]), ONE, 3));
    steps
}

/// Special numbers as keys, values, queries, scales and weights, each times each.
fn special_numbers() -> Vec<Step> {
    let row = |first: u32, others: u32| [&[first][..], &[others; 7]].concat();
    let keys = SPECIALS.map(|special| row(special, ONE)).concat();
    let rotated = |p| [&SPECIALS[p..], &SPECIALS[..p]].concat();
    let values: Vec<u32> = (0..8).flat_map(rotated).collect();
    let mut steps = opened(&shape(F32, 1, 1, 8, 8));
    steps.push(append(0, &keys, &values));
    for special in SPECIALS {
        steps.push(scores(0, 0, &row(special, SIGN), ONE, 8));
        steps.push(scores(0, 0, &row(ONE, SIGN), special, 8));
        steps.push(sums(0, 0, &[special], 8));
        steps.push(sums(0, 0, &[ONE, special], 8));
    }
    steps
}

/// The same on the groups of P2, P5, P3 and P4.
fn special_groups() -> Vec<Step> {
    let mut steps = opened(&shape(INT4, 1, 1, 32, 4));
    for numbers in [
        p2(),
        group(&[(0, 3), (16, SIGN | 3)]),
        [0x7FC0_0000; 32],
        group(&[(0, ONE), (16, INFINITY)]),
    ] {
        steps.push(append(0, &numbers, &numbers));
    }
    for special in SPECIALS {
        steps.push(scores(0, 0, &group(&[(0, special)]), ONE, 4));
        steps.push(scores(0, 0, &group(&[(16, ONE)]), special, 4));
        steps.push(sums(0, 0, &[special], 32));
    }
    steps.push(sums(0, 0, &[ONE; 3], 32));
    steps.push(sums(0, 0, &[ONE; 4], 32));
    steps
}

/// Positions that no call wrote, and cells changed under a query and weights.
fn cells_by_hand() -> Vec<Step> {
    let mut steps = opened(&shape(F32, 1, 1, 1, 2));
    steps.push(record_word(FIRST_LENGTH, 2));
    for bytes in [
        [(3, 0x00), (15, 0x00)],
        [(3, 0x40), (15, 0xC0)],
        [(7, 0x80), (11, 0x7F)],
        [(6, 0x01), (10, 0xFF)],
    ] {
        steps.extend(bytes.map(|(place, byte)| Step::Change(Change::CellByte(place, byte))));
        steps.push(scores(0, 0, &[ONE], ONE, 2));
        steps.push(sums(0, 0, &[ONE; 2], 1));
    }
    steps
}

/// Cells and scale words of groups changed under a query and a weight.
fn groups_by_hand() -> Vec<Step> {
    let mut steps = opened(&shape(INT4, 1, 1, 64, 1));
    steps.push(append(0, &groups(2, 0), &groups(2, 1)));
    for (place, byte) in [(0, 0x00), (17, 0x0F), (32, 0xF0), (63, 0x00)] {
        steps.push(Step::Change(Change::CellByte(place, byte)));
    }
    for pair in SPECIALS.windows(2) {
        let scale = |place| Step::Change(Change::ScaleWord(place, pair[place % 2]));
        steps.extend((0..4).map(scale));
        steps.push(scores(0, 0, &groups(2, 2), ONE, 1));
        steps.push(sums(0, 0, &[ONE], 64));
    }
    steps
}

/// Layers, heads, lengths and positions that a store does not have, alone and together; formats that have no scores.
fn refusals() -> Vec<Step> {
    let mut steps = opened(&shape(F32, 2, 2, 2, 2));
    steps.push(append(0, &varied(8, 0), &varied(8, 1)));
    steps.push(append(1, &varied(4, 2), &varied(4, 3)));
    for layer in [2, 127, 128, u32::MAX] {
        steps.extend(scores_and_sums(layer, 0, 2, 1));
    }
    for head in [2, 64, u32::MAX] {
        steps.extend(scores_and_sums(1, head, 2, 1));
    }
    for row in [0, 1, 3, 251] {
        steps.extend(scores_and_sums(0, 1, row, 1));
    }
    for positions in [2, 3, 251] {
        steps.extend(scores_and_sums(1, 1, 2, positions));
    }
    for (layer, head, row) in [(2, 2, 3), (1, 2, 3), (1, 1, 3)] {
        steps.extend(scores_and_sums(layer, head, row, 3));
    }
    for format in [BF16, INT8] {
        steps.extend(opened(&shape(format, 1, 1, 2, 1)));
        steps.push(append(0, &varied(2, 0), &varied(2, 1)));
        for (head, row, positions) in [(0, 2, 0), (0, 2, 1), (0, 3, 2), (1, 2, 1)] {
            steps.extend(scores_and_sums(0, head, row, positions));
        }
    }
    steps
}

/// Both calls, with so many numbers for one row and so many for the first positions.
fn scores_and_sums(layer: u32, head: u32, row: usize, positions: usize) -> [Step; 2] {
    [
        scores(layer, head, &vec![ONE; row], ONE, positions),
        sums(layer, head, &vec![ONE; positions], row),
    ]
}

/// The group of P2.
fn p2() -> [u32; 32] {
    group(&[(0, SEVEN), (16, SIGN | SEVEN)])
}

/// 32 numbers, zeros but for those given with their places.
fn group(numbers: &[(usize, u32)]) -> [u32; 32] {
    let mut group = [0; 32];
    for &(place, number) in numbers {
        group[place] = number;
    }
    group
}

/// So many groups whose scales differ.
fn groups(count: u16, turn: u16) -> Vec<u32> {
    (turn..turn + count)
        .flat_map(|turn| varied(32, turn))
        .collect()
}

/// So many numbers of both signs, of which most are rounded; others at another turn.
fn varied(count: u16, turn: u16) -> Vec<u32> {
    let whole = |i: u16| f32::from((37 * i + 11 * turn) % 41) - 20.0;
    let number = |i: u16| whole(i) / f32::from(2 * turn + 3);
    (0..count).map(|i| number(i).to_bits()).collect()
}
