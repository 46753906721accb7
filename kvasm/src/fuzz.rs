//! Holds a program to the model on random files.
use crate::dice;
use crate::draws;
use crate::judge;
use crate::model;
use crate::runs::Program;
use crate::tally::Tally;
use std::io;
use std::sync::atomic::{AtomicU64, Ordering};
use std::thread;

const THREADS: usize = 2;
/// A program that so often does not end is tried no further.
const MOST_ENDLESS: u64 = 4;
/// One file of so many comes in two pieces.
const IN_PIECES: u64 = 32;

/// What is to be tried: a program on the files 0 to below `count` of a seed.
pub struct Trial {
    pub program: Program,
    pub count: u64,
    pub seed: u64,
}

/// What came out.
#[derive(Default)]
pub struct Outcome {
    pub tally: Tally,
    pub differing: u64,
    endless: u64,
    pub smallest: Option<Difference>,
}

/// A file on which the program differs, and how.
pub struct Difference {
    pub number: u64,
    pub file: Vec<u8>,
    pub how: String,
}

impl Trial {
    /// Tries every file; an error where the program cannot be run at all.
    pub fn run(&self) -> io::Result<Outcome> {
        let next = AtomicU64::new(0);
        let mut whole = Outcome::default();
        thread::scope(|scope| {
            let workers: Vec<_> = (0..THREADS)
                .map(|_| scope.spawn(|| self.take_files(&next)))
                .collect();
            for worker in workers {
                match worker.join() {
                    Ok(outcome) => whole.join(outcome?),
                    Err(panic) => std::panic::resume_unwind(panic),
                }
            }
            Ok(whole)
        })
    }

    /// Tries the files that no other thread has taken.
    fn take_files(&self, next: &AtomicU64) -> io::Result<Outcome> {
        let mut outcome = Outcome::default();
        while outcome.endless < MOST_ENDLESS {
            let number = next.fetch_add(1, Ordering::Relaxed);
            if number >= self.count {
                break;
            }
            self.try_file(number, &mut outcome)?;
        }
        Ok(outcome)
    }

    fn try_file(&self, number: u64, outcome: &mut Outcome) -> io::Result<()> {
        let mut dice = dice::of(self.seed, number);
        let file = draws::file(&mut dice);
        let (front, back) = file.split_at(dice.place(file.len()));
        let played = model::play(&file);
        outcome.tally.count(&file, &played);
        let run = match number % IN_PIECES {
            0 => self.program.run(&[front, back])?,
            _ => self.program.run(&[&file])?,
        };
        outcome.endless += u64::from(run.is_none());
        let how = judge::difference(&played.output(), run.as_ref(), self.program.is_wrapped);
        if let Some(how) = how {
            outcome.differing += 1;
            outcome.keep(Difference { number, file, how });
        }
        Ok(())
    }
}

impl Outcome {
    /// Keeps the smaller file, of two as small the one that is drawn first.
    fn keep(&mut self, other: Difference) {
        let size = |difference: &Difference| (difference.file.len(), difference.number);
        let kept = self.smallest.as_ref();
        if kept.is_none_or(|kept| size(&other) < size(kept)) {
            self.smallest = Some(other);
        }
    }

    fn join(&mut self, other: Outcome) {
        self.tally.join(other.tally);
        self.differing += other.differing;
        if let Some(difference) = other.smallest {
            self.keep(difference);
        }
    }
}
