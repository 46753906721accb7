//! What a position costs in a long layer by what it costs in a short one.
use super::grid::Row;
use super::kernel::{Call, Kernel, Way};
use super::stores::Size;
use super::table::{bytes, line, number_or_dash, whole, Column};

/// The positions of the short layer and of the long one.
const SHORT: usize = 64;
const LONG: usize = 4096;
/// The growth above which a row is marked, and by which it is about as much as another.
const MOST: f64 = 1.3;

/// A short row of the grid and the long one of the same kernel, head size and heads.
struct Grown<'a> {
    short: &'a Row,
    long: &'a Row,
}

impl Grown<'_> {
    /// The time for a number in the long layer by that in the short one, and so for a position.
    fn growth(&self, way: Way) -> Option<f64> {
        Some(self.long.times.least(way)? / self.short.times.least(way)?)
    }

    /// Whether ours grows too much, and whether memory grows about as much beside it.
    fn mark(&self) -> &'static str {
        let [ours, memory] = [Way::Ours, Way::Memory].map(|way| self.growth(way).unwrap_or(0.0));
        if ours <= MOST {
            ""
        } else if ours <= MOST * memory {
            "over, as memory"
        } else {
            "over"
        }
    }

    /// Its line of the table.
    fn cells(&self) -> Vec<String> {
        let Row { kernel, size, .. } = self.long;
        let touched = Touched::by(kernel, size);
        let mut cells = vec![
            kernel.name(),
            size.head_size.to_string(),
            size.heads.to_string(),
        ];
        let ways = [Way::Ours, Way::Rust, Way::Memory];
        cells.extend(ways.map(|way| number_or_dash(self.growth(way))));
        cells.extend([bytes(touched.call), bytes(touched.all)]);
        cells.push(self.mark().to_string());
        cells
    }
}

/// The bytes of a store that one call touches, and that all calls of a row do.
#[derive(Debug, PartialEq)]
struct Touched {
    call: usize,
    all: usize,
}

impl Touched {
    /// By a kernel at a size: a call for every row, for every head, or for the whole layer.
    fn by(kernel: &Kernel, size: &Size) -> Touched {
        let row = size.row_bytes(kernel.format);
        let head = size.positions * row;
        let side = size.heads * head;
        match kernel.call {
            Call::Read => Touched {
                call: row,
                all: 2 * side,
            },
            Call::Scores | Call::Sums => Touched {
                call: head,
                all: side,
            },
            _ => Touched {
                call: 2 * side,
                all: 2 * side,
            },
        }
    }
}

/// The pairs of a grid.
fn grown(grid: &[Row]) -> impl Iterator<Item = Grown<'_>> {
    let long = grid.iter().filter(|row| row.size.positions == LONG);
    long.filter_map(|long| {
        let size = Size {
            positions: SHORT,
            ..long.size
        };
        let is_short = |row: &&Row| row.kernel == long.kernel && row.size == size;
        let short = grid.iter().find(is_short)?;
        Some(Grown { short, long })
    })
}

/// The columns of the table.
const COLUMNS: [Column; 9] = [
    Column::Text(15),
    Column::Number(3),
    Column::Number(1),
    Column::Number(6),
    Column::Number(6),
    Column::Number(6),
    Column::Number(9),
    Column::Number(9),
    Column::Text(15),
];

/// Prints the table.
pub fn print(grid: &[Row]) {
    println!(
        "Growth: the least time for a position of {} by that for one of {}, and the bytes of the {} positions that",
        whole(LONG),
        SHORT,
        whole(LONG)
    );
    println!("one call touches and that all do. Ours over {MOST} is marked; as memory: at most {MOST} of memory's growth.");
    let header = [
        "", "D", "H", "ours", "Rust", "memory", "a call", "in all", "",
    ];
    println!("{}", line(&COLUMNS, &header));
    for grown in grown(grid) {
        println!("{}", line(&COLUMNS, &grown.cells()));
    }
}

#[cfg(test)]
mod tests {
    use super::super::measure::Times;
    use super::*;
    use crate::record::{F32, INT4};

    /// A row of scores in INT4 with a time for some ways.
    fn row(positions: usize, times_of: &[(Way, f64)]) -> Row {
        let mut times = Times::default();
        for &(way, time) in times_of {
            times.push(way, time);
        }
        Row {
            kernel: Kernel {
                call: Call::Scores,
                format: INT4,
            },
            size: Size {
                head_size: 128,
                heads: 8,
                positions,
            },
            times,
        }
    }

    /// The growth and the mark of a pair whose short row takes 1 in each way.
    fn marked(ours: f64, memory: f64) -> (Option<f64>, &'static str) {
        let short = row(SHORT, &[(Way::Ours, 1.0), (Way::Memory, 1.0)]);
        let long = row(LONG, &[(Way::Ours, ours), (Way::Memory, memory)]);
        let grown = Grown {
            short: &short,
            long: &long,
        };
        (grown.growth(Way::Ours), grown.mark())
    }

    #[test]
    fn growth_is_marked_above_its_edge() {
        assert_eq!(marked(0.5, 0.5), (Some(0.5), ""));
        assert_eq!(marked(1.3, 9.0), (Some(1.3), ""));
        assert_eq!(marked(1.301, 1.0), (Some(1.301), "over"));
        assert_eq!(marked(1.301, 1.001), (Some(1.301), "over, as memory"));
        assert_eq!(marked(2.6, 2.0), (Some(2.6), "over, as memory"));
        assert_eq!(marked(2.601, 2.0), (Some(2.601), "over"));
    }

    #[test]
    fn long_rows_are_paired_with_short_ones_of_their_kind() {
        let mut other = row(SHORT, &[(Way::Ours, 7.0)]);
        other.size.heads = 1;
        let grid = [
            other,
            row(512, &[(Way::Ours, 9.0)]),
            row(SHORT, &[(Way::Ours, 2.0)]),
            row(LONG, &[(Way::Ours, 3.0), (Way::Rust, 1.0)]),
        ];
        let pairs: Vec<Grown> = grown(&grid).collect();
        assert_eq!(pairs.len(), 1);
        assert_eq!(pairs[0].growth(Way::Ours), Some(1.5));
        assert_eq!(pairs[0].growth(Way::Rust), None);
        assert_eq!(pairs[0].cells().len(), COLUMNS.len());
    }

    #[test]
    fn bytes_are_those_of_rows_with_their_scales() {
        let size = row(LONG, &[]).size;
        let by = |call, format| Touched::by(&Kernel { call, format }, &size);
        let touched = |call, all| Touched { call, all };
        assert_eq!(by(Call::Read, INT4), touched(80, 2 * 8 * 4096 * 80));
        assert_eq!(by(Call::Sums, INT4), touched(4096 * 80, 8 * 4096 * 80));
        assert_eq!(by(Call::Open, F32), touched(32 << 20, 32 << 20));
    }
}
