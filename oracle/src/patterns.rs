//! Every pattern of 32 bits, or a slice of them.
use crate::part::{Part, Reach};
use crate::tally::Tally;
use crate::words::landmarks;

const ALL: u64 = 1 << 32;
/// Patterns in one stretch of the sweep.
const STRETCH: u64 = 1 << 20;
/// Patterns that one stretch of the slice reaches over.
const SLICE_STRETCH: u64 = 1 << 24;
/// The slice takes one pattern of so many.
const SLICE_STEP: usize = 61;
/// The slice takes every pattern at most so far from a landmark.
const WINDOW: u64 = 512;
/// Lower halves at which the rounding to BF16 changes: the slice takes each with every upper half.
const LOWER_HALVES: [u64; 9] = [0, 1, 0x7FFE, 0x7FFF, 0x8000, 0x8001, 0x8002, 0xFFFE, 0xFFFF];

/// Patterns from `first` to before `end`, `step` apart.
#[derive(Clone, Copy)]
struct Stretch {
    first: u64,
    end: u64,
    step: usize,
}

impl Stretch {
    /// The words of the stretch.
    fn words(self) -> impl Iterator<Item = u32> {
        (self.first..self.end)
            .step_by(self.step)
            .map(|pattern| pattern as u32)
    }
}

/// A part that judges each pattern.
pub fn each_pattern(
    name: &'static str,
    reach: Reach,
    judge: impl Fn(u32, &mut Tally) + Sync + 'static,
) -> Part {
    let stretches = reach.pick(every_pattern(), slice_of_patterns());
    Part::new(name, stretches.len() as u64, move |piece, tally| {
        for word in stretches[piece as usize].words() {
            judge(word, tally);
        }
    })
}

/// All patterns, in stretches.
fn every_pattern() -> Vec<Stretch> {
    evenly(STRETCH, 1)
}

/// Patterns evenly spaced, those around the landmarks, and those where BF16 changes.
fn slice_of_patterns() -> Vec<Stretch> {
    let mut stretches = evenly(SLICE_STRETCH, SLICE_STEP);
    stretches.extend(landmarks().into_iter().map(window));
    stretches.extend(LOWER_HALVES.map(|first| Stretch {
        first,
        end: ALL,
        step: 1 << 16,
    }));
    stretches
}

/// Stretches of equal size over all patterns.
fn evenly(size: u64, step: usize) -> Vec<Stretch> {
    (0..ALL / size)
        .map(|i| Stretch {
            first: i * size,
            end: (i + 1) * size,
            step,
        })
        .collect()
}

/// The patterns around one word.
fn window(word: u32) -> Stretch {
    let word = u64::from(word);
    Stretch {
        first: word.saturating_sub(WINDOW),
        end: (word + WINDOW + 1).min(ALL),
        step: 1,
    }
}
