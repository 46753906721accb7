//! The times of a kernel's ways, run in turn.
use super::kernel::{Bench, Kernel, Way};
use super::stores::Inputs;
use std::time::Instant;

/// The rounds over which the runs of a row are spread, with those of other rows between them, so that a time in which the
/// machine is slow does not fall on one row alone.
pub const ROUNDS: usize = 3;
/// Runs of each way in a round where they are cheap, and where they are not.
const MOST_RUNS: usize = 7;
const LEAST_RUNS: usize = 2;
/// The nanoseconds within which the runs of a way should stay in a round.
const ALL_RUNS: f64 = 0.4e9 / ROUNDS as f64;
/// The nanoseconds that a run has to take, so that reading the clock is no matter.
const SHORTEST_RUN: f64 = 20e3;
/// Calls of a run at most.
const MOST_CALLS: usize = 1 << 14;
/// Runs of which the shortest tells how long a run is.
const TRIALS: usize = 2;

/// The nanoseconds for one number in every run of each way.
#[derive(Clone, Default)]
pub struct Times {
    ours: Vec<f64>,
    rust: Vec<f64>,
    memory: Vec<f64>,
}

impl Times {
    /// The times of a way; none where the kernel is not done that way.
    pub fn of(&self, way: Way) -> &[f64] {
        match way {
            Way::Ours => &self.ours,
            Way::Rust => &self.rust,
            Way::Memory => &self.memory,
        }
    }

    /// Adds the time of a run.
    pub fn push(&mut self, way: Way, time: f64) {
        match way {
            Way::Ours => self.ours.push(time),
            Way::Rust => self.rust.push(time),
            Way::Memory => self.memory.push(time),
        }
    }

    /// Takes in the times of further runs.
    pub fn join(&mut self, further: &Times) {
        self.ours.extend(&further.ours);
        self.rust.extend(&further.rust);
        self.memory.extend(&further.memory);
    }

    /// The least time of a way.
    pub fn least(&self, way: Way) -> Option<f64> {
        least(self.of(way))
    }

    /// The median time of a way.
    pub fn median(&self, way: Way) -> Option<f64> {
        median(self.of(way))
    }

    /// The least time of ours by that of another way.
    pub fn ratio(&self, other: Way) -> Option<f64> {
        Some(self.least(Way::Ours)? / self.least(other)?)
    }
}

/// The least of some times.
fn least(times: &[f64]) -> Option<f64> {
    times.iter().copied().min_by(f64::total_cmp)
}

/// The one in the middle, the later of two.
fn median(times: &[f64]) -> Option<f64> {
    let mut times = times.to_vec();
    times.sort_by(f64::total_cmp);
    times.get(times.len() / 2).copied()
}

/// Measures some ways of a kernel on some inputs in one round, after its results were compared.
pub fn round(kernel: &Kernel, inputs: &Inputs, ways: &[Way]) -> Result<Times, String> {
    let mut bench = kernel.compared(inputs)?;
    let numbers = kernel.numbers(&inputs.size);
    Ok(times(&mut *bench, numbers, ways))
}

/// The times of some ways for one of so many numbers, a run of each way in turn.
fn times(bench: &mut dyn Bench, numbers: usize, ways: &[Way]) -> Times {
    let (calls, longest) = lengthened(bench, ways);
    let numbers = (calls * numbers) as f64;
    let mut times = Times::default();
    for _ in 0..runs(longest) {
        for &way in ways {
            times.push(way, timed(bench, way) / numbers);
        }
    }
    times
}

/// Doubles the calls of a run until the quickest way takes long enough; the calls, and the slowest way's time.
fn lengthened(bench: &mut dyn Bench, ways: &[Way]) -> (usize, f64) {
    let mut calls = 1;
    loop {
        bench.repeat(calls);
        let mut trial = |way: &Way| {
            let trials: Vec<f64> = (0..TRIALS).map(|_| timed(bench, *way)).collect();
            least(&trials).unwrap_or(0.0)
        };
        let trials: Vec<f64> = ways.iter().map(&mut trial).collect();
        let shortest = trials.iter().copied().fold(f64::INFINITY, f64::min);
        let longest = trials.iter().copied().fold(0.0, f64::max);
        if shortest >= SHORTEST_RUN || calls >= MOST_CALLS {
            return (calls, longest);
        }
        calls *= 2;
    }
}

/// How many runs of so many nanoseconds each way is given.
fn runs(run: f64) -> usize {
    ((ALL_RUNS / run) as usize).clamp(LEAST_RUNS, MOST_RUNS)
}

/// The nanoseconds of a run that was prepared.
fn timed(bench: &mut dyn Bench, way: Way) -> f64 {
    bench.prepare(way);
    let start = Instant::now();
    bench.run(way);
    start.elapsed().as_secs_f64() * 1e9
}

#[cfg(test)]
mod tests {
    use super::*;

    #[test]
    fn the_least_and_the_median_of_an_odd_and_an_even_number() {
        assert_eq!(least(&[3.0, 1.0, 2.0]), Some(1.0));
        assert_eq!(median(&[3.0, 1.0, 2.0]), Some(2.0));
        assert_eq!(median(&[4.0, 1.0, 3.0, 2.0]), Some(3.0));
        assert_eq!(median(&[7.0]), Some(7.0));
        assert_eq!((least(&[]), median(&[])), (None, None));
    }

    #[test]
    fn a_ratio_is_of_the_least_times_and_needs_both() {
        let mut times = Times::default();
        for (way, time) in [(Way::Ours, 9.0), (Way::Ours, 3.0), (Way::Memory, 6.0)] {
            times.push(way, time);
        }
        assert_eq!(times.ratio(Way::Memory), Some(0.5));
        assert_eq!(times.ratio(Way::Rust), None);
    }

    #[test]
    fn joined_times_are_those_of_both() {
        let mut times = Times::default();
        times.push(Way::Rust, 2.0);
        let mut further = Times::default();
        further.push(Way::Rust, 1.0);
        further.push(Way::Ours, 5.0);
        times.join(&further);
        assert_eq!(
            (times.of(Way::Rust), times.of(Way::Ours)),
            (&[2.0, 1.0][..], &[5.0][..])
        );
    }

    #[test]
    fn long_runs_are_fewer() {
        for (run, wanted) in [(0.0, 7), (1e3, 7), (4e7, 3), (1e12, 2)] {
            assert_eq!(runs(run), wanted, "{run}");
        }
    }

    /// Counts what is asked of a bench.
    #[derive(Default)]
    struct Counted {
        calls: usize,
        prepared: usize,
        run: usize,
    }

    impl Bench for Counted {
        fn agrees(&mut self) -> bool {
            true
        }
        fn repeat(&mut self, calls: usize) {
            self.calls = calls;
        }
        fn prepare(&mut self, _: Way) {
            self.prepared += 1;
        }
        fn run(&mut self, _: Way) {
            assert_eq!(self.prepared, self.run + 1, "a run without preparation");
            self.run += 1;
        }
    }

    #[test]
    fn every_run_is_prepared_and_every_way_has_as_many() {
        let mut bench = Counted::default();
        let times = times(&mut bench, 1, &[Way::Ours, Way::Memory]);
        let runs = times.of(Way::Ours).len();
        assert!((LEAST_RUNS..=MOST_RUNS).contains(&runs));
        assert_eq!(times.of(Way::Memory).len(), runs);
        assert!(times.of(Way::Rust).is_empty());
        assert!((1..=MOST_CALLS).contains(&bench.calls));
    }
}
