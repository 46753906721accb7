//! Every call and format at many sizes.
use super::kernel::{Call, Kernel, Way};
use super::measure::{self, Times, ROUNDS};
use super::progress::Progress;
use super::stores::{Inputs, Size};
use super::table::{line, number_or_dash, whole, Column};

/// The calls of the grid.
pub const CALLS: [Call; 6] = [
    Call::Open,
    Call::Append,
    Call::Truncate,
    Call::Read,
    Call::Scores,
    Call::Sums,
];
/// The sizes of the grid.
pub const HEAD_SIZES: [usize; 3] = [64, 128, 256];
pub const HEADS: [usize; 2] = [1, 8];
pub const POSITIONS: [usize; 4] = [16, 64, 512, 4096];

/// A kernel at a size, and its times.
pub struct Row {
    pub kernel: Kernel,
    pub size: Size,
    pub times: Times,
}

impl Row {
    /// Its line of the table.
    fn cells(&self) -> Vec<String> {
        vec![
            self.kernel.name(),
            self.size.head_size.to_string(),
            self.size.heads.to_string(),
            whole(self.size.positions),
            number_or_dash(self.times.least(Way::Ours)),
            number_or_dash(self.times.median(Way::Ours)),
            number_or_dash(self.times.ratio(Way::Rust)),
            number_or_dash(self.times.ratio(Way::Memory)),
        ]
    }

    /// What it is, in words.
    fn name(&self) -> String {
        format!(
            "{}, D {}, H {}, {} positions",
            self.kernel.name(),
            self.size.head_size,
            self.size.heads,
            whole(self.size.positions)
        )
    }
}

/// The kernels of the grid.
pub fn kernels() -> impl Iterator<Item = Kernel> {
    CALLS.into_iter().flat_map(|call| {
        let formats = call.formats().iter();
        formats.map(move |&format| Kernel { call, format })
    })
}

/// The head sizes of the grid with each number of heads.
fn layers() -> impl Iterator<Item = (usize, usize)> {
    HEAD_SIZES
        .into_iter()
        .flat_map(|head_size| HEADS.into_iter().map(move |heads| (head_size, heads)))
}

/// The sizes with a head size and a number of heads.
fn sizes(head_size: usize, heads: usize) -> [Size; POSITIONS.len()] {
    POSITIONS.map(|positions| Size {
        head_size,
        heads,
        positions,
    })
}

/// How often `measure` begins a row.
pub fn rows() -> usize {
    ROUNDS * layers().count() * POSITIONS.len() * kernels().count()
}

/// Measures every kernel at every size; the rows of a kernel stand together.
pub fn measure(progress: &mut Progress) -> Result<Vec<Row>, String> {
    let mut grid = Vec::new();
    for (head_size, heads) in layers() {
        let inputs = sizes(head_size, heads).map(Inputs::new);
        let mut rows: Vec<Row> = kernels()
            .flat_map(|kernel| inputs.iter().map(move |inputs| unmeasured(kernel, inputs)))
            .collect();
        for _ in 0..ROUNDS {
            for (row, inputs) in rows.iter_mut().zip(inputs.iter().cycle()) {
                progress.begin(&row.name());
                let ways = row.kernel.ways();
                row.times.join(&measure::round(&row.kernel, inputs, ways)?);
            }
        }
        grid.append(&mut rows);
    }
    grid.sort_by_key(|row| (row.kernel, row.size));
    Ok(grid)
}

/// A row without times.
fn unmeasured(kernel: Kernel, inputs: &Inputs) -> Row {
    Row {
        kernel,
        size: inputs.size,
        times: Times::default(),
    }
}

/// The columns of the table.
const COLUMNS: [Column; 8] = [
    Column::Text(15),
    Column::Number(3),
    Column::Number(1),
    Column::Number(9),
    Column::Number(6),
    Column::Number(6),
    Column::Number(7),
    Column::Number(9),
];

/// Prints the table.
pub fn print(grid: &[Row]) {
    println!("Grid: ours, and the least time of ours by that of the lifted Rust and of memory. Memory is what has to be");
    println!("moved at least: append copies the numbers, open and truncate clear the bytes, read a row copies the row");
    println!("that is read, scores and sums read the cells and scale words.");
    let header = [
        "",
        "D",
        "H",
        "positions",
        "min",
        "median",
        "to Rust",
        "to memory",
    ];
    println!("{}", line(&COLUMNS, &header));
    for row in grid {
        println!("{}", line(&COLUMNS, &row.cells()));
    }
}

#[cfg(test)]
mod tests {
    use super::*;

    #[test]
    fn the_grid_has_every_kernel_at_every_size_once() {
        let sizes = layers().flat_map(|(head_size, heads)| sizes(head_size, heads));
        let mut all: Vec<(Kernel, Size)> = sizes
            .flat_map(|size| kernels().map(move |kernel| (kernel, size)))
            .collect();
        all.sort();
        all.dedup();
        assert_eq!((all.len(), rows()), (480, ROUNDS * 480));
    }

    #[test]
    fn a_way_that_is_not_there_is_a_dash() {
        let mut times = Times::default();
        times.push(Way::Ours, 1.0);
        times.push(Way::Memory, 0.25);
        let row = Row {
            kernel: kernels().next().unwrap(),
            size: sizes(256, 8)[3],
            times,
        };
        let wanted = [
            "open F32", "256", "8", "4,096", "1.000", "1.000", "-", "4.000",
        ];
        assert_eq!(row.cells(), wanted);
    }
}
