//! One part of the comparison, cut into pieces that the threads share.
use crate::tally::Tally;
use std::io::{self, IsTerminal};
use std::sync::atomic::{AtomicU64, Ordering};
use std::thread;

/// How far a comparison goes.
#[derive(Clone, Copy)]
pub enum Reach {
    Sweep,
    Slice,
}

impl Reach {
    /// The first of a sweep, the second of a slice.
    pub fn pick<T>(self, sweep: T, slice: T) -> T {
        match self {
            Reach::Sweep => sweep,
            Reach::Slice => slice,
        }
    }
}

type Judge = Box<dyn Fn(u64, &mut Tally) + Sync>;

/// A part: its name, the number of its pieces, and what is compared in a piece.
pub struct Part {
    pub name: &'static str,
    pieces: u64,
    judge: Judge,
}

impl Part {
    /// A part of so many pieces.
    pub fn new(
        name: &'static str,
        pieces: u64,
        judge: impl Fn(u64, &mut Tally) + Sync + 'static,
    ) -> Part {
        Part {
            name,
            pieces,
            judge: Box::new(judge),
        }
    }

    /// Compares every piece, on all cores.
    pub fn run(&self) -> Tally {
        let next = AtomicU64::new(0);
        let cores = thread::available_parallelism().map_or(1, |cores| cores.get());
        let mut whole = Tally::default();
        thread::scope(|scope| {
            let workers: Vec<_> = (0..cores)
                .map(|_| scope.spawn(|| self.take_pieces(&next)))
                .collect();
            for worker in workers {
                match worker.join() {
                    Ok(tally) => whole.join(tally),
                    Err(panic) => std::panic::resume_unwind(panic),
                }
            }
        });
        whole
    }

    /// Compares the pieces that no other thread has taken.
    fn take_pieces(&self, next: &AtomicU64) -> Tally {
        let mut tally = Tally::default();
        loop {
            let piece = next.fetch_add(1, Ordering::Relaxed);
            if piece >= self.pieces {
                return tally;
            }
            self.show_progress(piece);
            tally.turn_to(piece);
            (self.judge)(piece, &mut tally);
        }
    }

    /// Shows the share of pieces taken, once for each percent, to somebody who watches.
    fn show_progress(&self, piece: u64) {
        if !io::stderr().is_terminal() {
            return;
        }
        let percent = |piece: u64| piece * 100 / self.pieces;
        if piece == 0 || percent(piece) != percent(piece - 1) {
            eprint!("\r{}: {} %", self.name, percent(piece));
        }
    }
}
