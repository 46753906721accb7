//! The runs of the fixed list.
use crate::dice::Dice;
use crate::rust::INT4_GROUP_SIZE;
use crate::words::{self, INFINITY, SIGN};

/// The longest run of the list.
pub const LONGEST: usize = 64;
/// Lengths of which the list has two random runs each.
const LENGTHS: [usize; 6] = [1, 2, 31, 32, 33, 64];
/// Random runs of random length.
const RANDOM_RUNS: u64 = 20;

/// The runs of the list: the paper's examples, others by hand, random ones, and an empty one last.
pub fn all() -> Vec<Vec<u32>> {
    let mut runs = examples();
    runs.extend(boundaries());
    runs.extend(random_runs());
    runs.push(Vec::new());
    runs
}

/// The examples P1 to P8 of the paper.
pub fn examples() -> Vec<Vec<u32>> {
    vec![
        floats(&[127.0, 0.5, -0.5, -2.5]),
        group(&[(0, 7.0f32.to_bits()), (16, (-7.0f32).to_bits())]),
        group(&[]),
        (0..32).map(varied_nan).collect(),
        group(&[(0, 1.0f32.to_bits()), (5, INFINITY), (31, SIGN | 1)]),
        subnormals(3, 32),
        subnormals(4, 32),
        subnormals(63, 8),
        subnormals(64, 8),
        vec![
            127.0f32.to_bits(),
            0x3EFF_FFFF,
            0x3F00_0000,
            0xBF00_0000,
            0xBEFF_FFFF,
            0x3F00_0001,
            0xBF00_0001,
        ],
        vec![0x3F80_8000, 0x3F81_8000, 0x7F7F_FFFF],
    ]
}

/// Runs at the edges of the codes, of the range and of the patterns.
fn boundaries() -> Vec<Vec<u32>> {
    let nan_halves = vec![
        0x7FFF_FFFF,
        0xFFFF_FFFF,
        0x7F80_0001,
        0xFF80_0001,
        0x7FFF_7FFF,
        0x7FFF_8000,
    ];
    vec![
        Vec::new(),
        (0..64).map(|i| i % 2 * SIGN).collect(),
        (0..64).map(varied_nan).collect(),
        group(&[(31, SIGN | INFINITY), (0, 0x7F7F_FFFF), (1, 0x7FC0_0000)]),
        subnormals(10, 32),
        subnormals(63, 32),
        subnormals(64, 32),
        subnormals(190, 33),
        subnormals(191, 33),
        halves(7, 32),
        beside_halves(7, 32),
        halves(127, 64),
        beside_halves(127, 64),
        group(&[
            (0, 0x7F7F_FFFF),
            (16, 0xFF7F_FFFF),
            (17, 0x0080_0000),
            (30, 0x8000_0001),
        ]),
        group(&[(3, 0x0080_0000), (4, 0x807F_FFFF), (20, 0x0040_0000)]),
        nan_halves,
    ]
}

/// Random runs of fixed lengths, then of random ones.
fn random_runs() -> impl Iterator<Item = Vec<u32>> {
    let fixed = LENGTHS.into_iter().flat_map(|length| [length, length]);
    let lengths = fixed.map(Some).chain((0..RANDOM_RUNS).map(|_| None));
    lengths.zip(0..).map(|(length, piece)| {
        let mut dice = Dice::of("vectors", piece);
        let length = length.unwrap_or_else(|| dice.place(LONGEST + 1));
        words::run(length, &mut dice)
    })
}

/// The words of some numbers.
fn floats(numbers: &[f32]) -> Vec<u32> {
    numbers.iter().map(|number| number.to_bits()).collect()
}

/// A group of zeros but for the words given with their places.
fn group(words: &[(usize, u32)]) -> Vec<u32> {
    let mut group = vec![0; INT4_GROUP_SIZE];
    for &(place, word) in words {
        group[place] = word;
    }
    group
}

/// NaN words of both signs, quiet and signalling, each with its own payload.
fn varied_nan(i: u32) -> u32 {
    i % 2 * SIGN + INFINITY + 1 + i * 0x3_FFFF % 0x7F_FFFF
}

/// Smallest subnormals in threes: some, as many less than none, and none.
fn subnormals(most: u32, length: u32) -> Vec<u32> {
    let word = |i: u32| {
        let count = most - i / 3 % (most + 1);
        [count, SIGN | count, 0][i as usize % 3]
    };
    (0..length).map(word).collect()
}

/// The largest magnitude, which makes the scale 1.0, then halves below it of both signs.
fn halves(largest: u16, length: u16) -> Vec<u32> {
    let word = |i: u16| {
        let whole = i / 2 * 5 % largest;
        let half = (f32::from(whole) + 0.5).to_bits();
        u32::from(i % 2) * SIGN + half
    };
    let mut run: Vec<u32> = (0..length).map(word).collect();
    run[0] = f32::from(largest).to_bits();
    run
}

/// The same with every half one step further from zero or nearer to it.
fn beside_halves(largest: u16, length: u16) -> Vec<u32> {
    let mut run = halves(largest, length);
    for (i, word) in run.iter_mut().enumerate().skip(1) {
        *word = if i % 4 < 2 { *word - 1 } else { *word + 1 };
    }
    run
}
