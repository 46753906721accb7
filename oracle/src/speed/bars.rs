//! The bars: how fast each kernel has to be beside the other way, and how fast it is, three times over.
use super::kernel::{Call, Kernel, Way};
use super::measure::{self, Times, ROUNDS};
use super::progress::Progress;
use super::stores::{Inputs, Size};
use super::table::{line, number, number_or_dash, whole, Column};
use crate::record::{BF16, F32, INT4, INT8};

/// The layer that the bars are set for.
pub const SIZE: Size = Size {
    head_size: 128,
    heads: 8,
    positions: 1024,
};
/// How many times over each kernel is measured.
const MEASUREMENTS: usize = 3;

/// Ratios to the other way: one to stay within, and one to aim at.
#[derive(Clone, Copy, Debug, PartialEq)]
pub struct Goal {
    pub bar: f64,
    pub moonshot: f64,
}

/// A kernel and its goal; none until the bar is set.
#[derive(Clone, Copy)]
pub struct Bar {
    pub kernel: Kernel,
    pub goal: Option<Goal>,
}

/// Every kernel that is held to a bar, or will be.
pub const BARS: &[Bar] = &[
    bar(Call::Scores, F32, 0.75, 0.55),
    bar(Call::Sums, F32, 1.18, 1.0),
    bar(Call::Scores, INT4, 0.35, 0.28),
    bar(Call::Sums, INT4, 0.62, 0.5),
    bar(Call::Append, F32, 1.0, 0.85),
    bar(Call::Append, BF16, 0.3, 0.2),
    bar(Call::Append, INT8, 0.6, 0.33),
    bar(Call::Append, INT4, 0.6, 0.40),
    no_bar(Call::Magnitude, INT8),
    bar(Call::Truncate, F32, 1.05, 1.0),
    bar(Call::Truncate, BF16, 1.05, 1.0),
    bar(Call::Truncate, INT8, 1.05, 1.0),
    bar(Call::Truncate, INT4, 1.05, 1.0),
    bar(Call::Open, F32, 1.05, 1.0),
    bar(Call::Open, BF16, 1.05, 1.0),
    bar(Call::Open, INT8, 1.05, 1.0),
    bar(Call::Open, INT4, 1.05, 1.0),
];

/// A kernel with a bar and a moonshot.
const fn bar(call: Call, format: u32, bar: f64, moonshot: f64) -> Bar {
    Bar {
        kernel: Kernel { call, format },
        goal: Some(Goal { bar, moonshot }),
    }
}

/// A kernel whose bar is not set.
const fn no_bar(call: Call, format: u32) -> Bar {
    Bar {
        kernel: Kernel { call, format },
        goal: None,
    }
}

/// What a goal says of the worst of some ratios.
#[derive(Clone, Copy, Debug, PartialEq)]
pub enum Verdict {
    NotMet,
    Met,
    Towards,
    Beyond,
}

impl Verdict {
    /// The verdict on a ratio: `Towards` from halfway between bar and moonshot, `Beyond` from the moonshot.
    fn on(worst: f64, goal: Goal) -> Verdict {
        if worst <= goal.moonshot {
            Verdict::Beyond
        } else if worst <= (goal.bar + goal.moonshot) / 2.0 {
            Verdict::Towards
        } else if worst <= goal.bar {
            Verdict::Met
        } else {
            Verdict::NotMet
        }
    }

    /// The word of the table.
    fn word(self) -> &'static str {
        match self {
            Verdict::NotMet => "NOT MET",
            Verdict::Met => "met",
            Verdict::Towards => "towards",
            Verdict::Beyond => "beyond",
        }
    }
}

/// A kernel's times in all measurements, and the ratio of the least times in each.
pub struct Judged {
    pub bar: Bar,
    times: Times,
    ratios: Vec<f64>,
}

impl Judged {
    /// Nothing measured.
    fn new(bar: &Bar) -> Judged {
        Judged {
            bar: *bar,
            times: Times::default(),
            ratios: Vec::new(),
        }
    }

    /// A kernel of which only the ratios are known.
    #[cfg(test)]
    pub fn with_ratios(bar: &Bar, ratios: Vec<f64>) -> Judged {
        Judged {
            ratios,
            ..Judged::new(bar)
        }
    }

    /// Takes in a measurement.
    fn push(&mut self, times: &Times) {
        self.times.join(times);
        self.ratios.extend(times.ratio(self.bar.kernel.other()));
    }

    /// The largest ratio.
    pub fn worst(&self) -> f64 {
        self.ratios.iter().copied().fold(0.0, f64::max)
    }

    /// What the goal says, where there is one.
    pub fn verdict(&self) -> Option<Verdict> {
        let goal = self.bar.goal?;
        Some(Verdict::on(self.worst(), goal))
    }

    /// Its line of the table.
    fn cells(&self) -> Vec<String> {
        let other = self.bar.kernel.other();
        let mut cells = vec![self.bar.kernel.name()];
        for way in [Way::Ours, other] {
            cells.push(number_or_dash(self.times.least(way)));
            cells.push(number_or_dash(self.times.median(way)));
        }
        cells.extend(self.ratios.iter().copied().map(number));
        cells.push(goal_text(self.bar.goal.map(|goal| goal.bar)));
        cells.push(goal_text(self.bar.goal.map(|goal| goal.moonshot)));
        cells.push(self.verdict().map_or("-", Verdict::word).to_string());
        cells
    }
}

/// A bar or a moonshot, or a dash where none is set.
fn goal_text(goal: Option<f64>) -> String {
    goal.map_or("-".to_string(), |goal| format!("{goal:.2}"))
}

/// Measures every kernel, all of them once before any of them again.
pub fn judge(progress: &mut Progress) -> Result<Vec<Judged>, String> {
    let inputs = Inputs::new(SIZE);
    let mut table: Vec<Judged> = BARS.iter().map(Judged::new).collect();
    for _ in 0..MEASUREMENTS {
        let measured = measured(&inputs, progress)?;
        for (judged, times) in table.iter_mut().zip(&measured) {
            judged.push(times);
        }
    }
    Ok(table)
}

/// The times of every kernel in one measurement.
fn measured(inputs: &Inputs, progress: &mut Progress) -> Result<Vec<Times>, String> {
    let mut measured = vec![Times::default(); BARS.len()];
    for _ in 0..ROUNDS {
        for (Bar { kernel, .. }, times) in BARS.iter().zip(&mut measured) {
            progress.begin(&kernel.name());
            let ways = [Way::Ours, kernel.other()];
            times.join(&measure::round(kernel, inputs, &ways)?);
        }
    }
    Ok(measured)
}

/// How often `judge` begins a row.
pub const ROWS: usize = MEASUREMENTS * ROUNDS * BARS.len();

/// The columns of the table.
const COLUMNS: [Column; 11] = [
    Column::Text(17),
    Column::Number(6),
    Column::Number(6),
    Column::Number(6),
    Column::Number(6),
    Column::Number(6),
    Column::Number(6),
    Column::Number(6),
    Column::Number(5),
    Column::Number(8),
    Column::Text(7),
];

/// Prints the table.
pub fn print(table: &[Judged]) {
    println!(
        "Bars: {} positions, H {}, D {}; each kernel measured three times over, against the lifted Rust,",
        whole(SIZE.positions),
        SIZE.heads,
        SIZE.head_size
    );
    println!(
        "truncate and open against clearing as many bytes. The ratios are of the least times."
    );
    let above = ["", "ours", "", "other", "", "ratio"];
    let header = [
        "", "min", "median", "min", "median", "first", "second", "third", "bar", "moonshot", "",
    ];
    println!("{}", line(&COLUMNS, &above));
    println!("{}", line(&COLUMNS, &header));
    for judged in table {
        println!("{}", line(&COLUMNS, &judged.cells()));
    }
}

#[cfg(test)]
mod tests {
    use super::*;

    const GOAL: Goal = Goal {
        bar: 1.0,
        moonshot: 0.5,
    };

    #[test]
    fn verdicts_change_at_their_edges() {
        for (worst, word) in [
            (0.0, "beyond"),
            (0.5, "beyond"),
            (0.500_001, "towards"),
            (0.75, "towards"),
            (0.750_001, "met"),
            (1.0, "met"),
            (1.000_001, "NOT MET"),
            (f64::INFINITY, "NOT MET"),
        ] {
            assert_eq!(Verdict::on(worst, GOAL).word(), word, "{worst}");
        }
    }

    #[test]
    fn one_ratio_of_three_decides() {
        let bar = bar(Call::Sums, F32, 1.0, 0.5);
        let verdict = |ratios: [f64; 3]| Judged::with_ratios(&bar, ratios.to_vec()).verdict();
        assert_eq!(verdict([0.4, 1.1, 0.4]), Some(Verdict::NotMet));
        assert_eq!(verdict([0.4, 0.4, 0.9]), Some(Verdict::Met));
        assert_eq!(verdict([0.6, 0.4, 0.4]), Some(Verdict::Towards));
        assert_eq!(verdict([0.5, 0.4, 0.4]), Some(Verdict::Beyond));
    }

    #[test]
    fn without_a_bar_there_is_no_verdict() {
        let judged = Judged::with_ratios(&no_bar(Call::Magnitude, INT8), vec![2.0; 3]);
        assert_eq!(judged.verdict(), None);
        let cells = judged.cells();
        assert_eq!(cells[5..], ["2.000", "2.000", "2.000", "-", "-", "-"]);
        assert_eq!(cells.len(), COLUMNS.len());
    }

    #[test]
    fn no_two_kernels_have_one_name() {
        let mut names: Vec<String> = BARS.iter().map(|bar| bar.kernel.name()).collect();
        names.sort();
        names.dedup();
        assert_eq!(names.len(), BARS.len());
    }

    #[test]
    fn a_moonshot_is_below_its_bar() {
        for goal in BARS.iter().filter_map(|bar| bar.goal) {
            assert!(goal.moonshot < goal.bar, "{goal:?}");
        }
    }

    #[test]
    fn every_kernel_has_the_other_way_and_its_format() {
        for Bar { kernel, .. } in BARS {
            assert!(kernel.call.formats().contains(&kernel.format));
            assert_ne!(kernel.other(), Way::Ours);
        }
    }
}
