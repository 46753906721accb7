//! The scale of a run, against `compute_int8_scale` and `compute_int4_scale`.
use crate::dice::Dice;
use crate::part::{Part, Reach};
use crate::patterns::each_pattern;
use crate::tally::Tally;
use crate::words;
use crate::{boundary, rust};

/// The longest run: a whole head.
const LONGEST: u64 = 256;
/// Runs of each length in one round.
const RUNS: u64 = 50;

/// Every run of one number, and many of each length.
pub fn parts(reach: Reach) -> Vec<Part> {
    let rounds = reach.pick(200, 8);
    vec![
        each_pattern("scales of each pattern alone", reach, |word, tally| {
            scales(&[word], &[words::quiet(f32::from_bits(word))], tally)
        }),
        Part::new("scales of runs of 0 to 256", rounds * (LONGEST + 1), runs),
    ]
}

/// Compares both scales of a run.
#[inline]
fn scales(run: &[u32], numbers: &[f32], tally: &mut Tally) {
    tally.equal(
        rust::compute_int8_scale(numbers).to_bits(),
        boundary::int8_scale(run).to_bits(),
        || format!("int8 run {run:08x?}"),
    );
    tally.equal(
        rust::compute_int4_scale(numbers).to_bits(),
        boundary::int4_scale(run).to_bits(),
        || format!("int4 run {run:08x?}"),
    );
}

/// Both scales of a run that the dice make.
pub fn play(dice: &mut Dice, tally: &mut Tally) {
    let run = words::run(dice.place(LONGEST as usize + 1), dice);
    scales(&run, &words::measured(&run), tally);
}

/// Runs of one length.
fn runs(piece: u64, tally: &mut Tally) {
    let mut dice = Dice::of("runs", piece);
    let length = (piece % (LONGEST + 1)) as usize;
    for _ in 0..RUNS {
        let run = words::run(length, &mut dice);
        scales(&run, &words::measured(&run), tally);
    }
}
