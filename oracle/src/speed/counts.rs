//! The instructions of the bars' kernels, and of scores and sums of few positions, counted by valgrind or by an emulator: no
//! clock, and the same on a busy machine.
use super::bars::{Bar, BARS, SIZE};
use super::callgrind;
use super::kernel::{Call, Kernel, Way};
use super::machine;
use super::progress::Progress;
use super::stores::{Inputs, Size};
use super::table::{line, number, whole, Column};
use std::collections::HashMap;
use std::path::Path;
use std::process::{self, Command, Stdio};
use std::{env, fs, io};

/// The command under which the oracle runs where it is counted.
pub const COUNTING: &str = "counting";

/// The few positions of which scores and sums are counted besides: the cost of a call shows where it has little to do.
const FEW: [usize; 2] = [16, 1];

/// Instructions by the name of what they were counted for.
type Counts = HashMap<String, u64>;

/// What is counted: a kernel on a layer.
#[derive(Clone, Copy)]
struct Row {
    kernel: Kernel,
    size: Size,
}

impl Row {
    /// The kernel, and how many positions the layer has where they are few.
    fn name(&self) -> String {
        match self.size {
            SIZE => self.kernel.name(),
            Size { positions, .. } => format!("{} at {positions}", self.kernel.name()),
        }
    }

    /// The two ways in which it is run, in their order.
    fn ways(&self) -> [Way; 2] {
        [Way::Ours, self.kernel.other()]
    }

    /// What its instructions are counted as.
    fn label(&self, way: Way) -> String {
        format!("{}, {way:?}", self.name())
    }
}

/// Every row: the kernels of the bars, and those of them that take few positions too, on layers that have few.
fn rows() -> Vec<Row> {
    let at = |size| {
        BARS.iter().map(move |Bar { kernel, .. }| Row {
            kernel: *kernel,
            size,
        })
    };
    let few = FEW
        .into_iter()
        .flat_map(|positions| at(Size { positions, ..SIZE }));
    at(SIZE)
        .chain(few.filter(|row| matches!(row.kernel.call, Call::Scores | Call::Sums)))
        .collect()
}

/// Runs every row once each way and has its instructions counted.
pub fn run_counted() -> Result<(), String> {
    let rows = rows();
    let mut progress = Progress::of(rows.len());
    for of_size in rows.chunk_by(|one, next| one.size == next.size) {
        let inputs = Inputs::new(of_size[0].size);
        for row in of_size {
            progress.begin(&row.name());
            let mut bench = row.kernel.compared(&inputs)?;
            for way in row.ways() {
                bench.prepare(way);
                callgrind::counted(&row.label(way), || bench.run(way));
            }
        }
    }
    Ok(())
}

/// Prints what an emulator counted into a file, or runs the oracle within valgrind and prints what that counted.
pub fn print(file: Option<&Path>) -> Result<(), String> {
    let counts = match file {
        Some(file) => fs::read_to_string(file).map(|lines| in_order(&lines)),
        None => taken(),
    };
    print_table(&counts.map_err(|error| error.to_string())?)
}

/// The counts of lines, one each, in the order in which kernels are run; none where they are not as many.
fn in_order(lines: &str) -> Counts {
    let counts: Vec<u64> = lines.lines().map_while(|line| line.parse().ok()).collect();
    if counts.len() != labels().count() {
        return Counts::new();
    }
    labels().zip(counts).collect()
}

/// The counts of a run within valgrind, whose files go to a folder that is gone afterwards.
fn taken() -> io::Result<Counts> {
    let folder = env::temp_dir().join(format!("oracle-counts-{}", process::id()));
    fs::create_dir_all(&folder)?;
    let counts = run_in(&folder).and_then(|()| counts_in(&folder));
    fs::remove_dir_all(&folder)?;
    counts
}

/// Runs the oracle within valgrind, which writes to a folder.
fn run_in(folder: &Path) -> io::Result<()> {
    let log = folder.join("log");
    let ran = Command::new("valgrind")
        .args(["--tool=callgrind", "--instr-atstart=no"])
        .arg(format!(
            "--callgrind-out-file={}",
            folder.join("counts").display()
        ))
        .arg(format!("--log-file={}", log.display()))
        .arg(env::current_exe()?)
        .arg(COUNTING)
        .stdout(Stdio::null())
        .status()
        .map_err(|error| io::Error::other(format!("valgrind: {error}")))?;
    if ran.success() {
        return Ok(());
    }
    let said = fs::read_to_string(log).unwrap_or_default();
    Err(io::Error::other(format!("valgrind: {ran}\n{said}")))
}

/// The counts that stand in the files of a folder.
fn counts_in(folder: &Path) -> io::Result<Counts> {
    let mut counts = Counts::new();
    for file in fs::read_dir(folder)? {
        counts.extend(callgrind::parsed(&fs::read_to_string(file?.path())?));
    }
    Ok(counts)
}

/// What is counted, in the order in which it is run.
fn labels() -> impl Iterator<Item = String> {
    let rows = rows().into_iter();
    rows.flat_map(|row| row.ways().map(|way| row.label(way)))
}

/// The columns of the table.
const COLUMNS: [Column; 4] = [
    Column::Text(17),
    Column::Number(6),
    Column::Number(6),
    Column::Number(6),
];

/// What the instruction counts as by which the C library clears a long stretch.
const CLEARED: &str = if cfg!(target_arch = "x86_64") {
    "A byte that one instruction clears in its turn counts as one."
} else {
    "An instruction that clears 64 bytes counts as one."
};

/// Prints what is counted, the instructions for one number, and their ratio.
fn print_table(counts: &Counts) -> Result<(), String> {
    println!("{}", machine::build());
    println!(
        "Instructions for one number: {} positions, or as many as a row says, H {}, D {}, against the lifted Rust, truncate and",
        whole(SIZE.positions),
        SIZE.heads,
        SIZE.head_size
    );
    println!("open against clearing as many bytes. {CLEARED}");
    println!("{}", line(&COLUMNS, &["", "ours", "other", "ratio"]));
    for row in rows() {
        println!("{}", line(&COLUMNS, &cells(&row, counts)?));
    }
    Ok(())
}

/// A row's line of the table.
fn cells(row: &Row, counts: &Counts) -> Result<[String; 4], String> {
    let each = |way| {
        let label = row.label(way);
        let count = counts.get(&label).ok_or(format!("{label}: not counted"))?;
        Ok::<f64, String>(*count as f64 / row.kernel.numbers(&row.size) as f64)
    };
    let (ours, other) = (each(Way::Ours)?, each(row.kernel.other())?);
    Ok([
        row.name(),
        number(ours),
        number(other),
        number(ours / other),
    ])
}

#[cfg(test)]
mod tests {
    use super::*;

    #[test]
    fn a_line_has_both_counts_for_a_number_and_their_ratio() {
        let rows = rows();
        for (row, name) in [
            (rows[0], "scores F32"),
            (rows[BARS.len()], "scores F32 at 16"),
        ] {
            let numbers = row.kernel.numbers(&row.size) as u64;
            let mut counts = Counts::new();
            counts.insert(row.label(Way::Ours), 3 * numbers);
            assert!(cells(&row, &counts).is_err());
            counts.insert(row.label(row.kernel.other()), 4 * numbers);
            let wanted = [name, "3.000", "4.000", "0.750"];
            assert_eq!(cells(&row, &counts).unwrap(), wanted);
        }
    }

    #[test]
    fn few_positions_are_those_of_scores_and_sums() {
        let names: Vec<String> = rows().iter().map(Row::name).collect();
        let few = names.iter().filter(|name| name.contains(" at "));
        assert_eq!(few.count(), 4 * FEW.len());
        assert!(names.contains(&"sums INT4 at 1".to_string()));
    }

    #[test]
    fn lines_are_counts_in_the_order_of_the_runs() {
        let rows = rows();
        let lines: String = (30..)
            .take(2 * rows.len())
            .map(|n| format!("{n}\n"))
            .collect();
        let counts = in_order(&lines);
        let (first, second) = (rows[0], rows[1]);
        assert_eq!(counts[&first.label(Way::Ours)], 30);
        assert_eq!(counts[&first.label(first.kernel.other())], 31);
        assert_eq!(counts[&second.label(Way::Ours)], 32);
        assert_eq!(counts.len(), 2 * rows.len());
        for wrong in [
            &lines[3..],
            &format!("{lines}7\n"),
            &lines.replace("31", "many"),
        ] {
            assert!(in_order(wrong).is_empty(), "{wrong}");
        }
    }

    #[test]
    fn no_two_counts_have_one_label() {
        let mut labels: Vec<String> = labels().collect();
        labels.sort();
        labels.dedup();
        assert_eq!(labels.len(), 2 * rows().len());
    }
}
