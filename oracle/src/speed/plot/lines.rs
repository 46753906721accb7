//! The right panel: the time for one number over the positions, both axes by their logarithms.
use super::super::grid::{Row, POSITIONS};
use super::super::kernel::{Call, Kernel, Way};
use super::super::svg::{dashed, solid, Anchor, Stroke, Svg};
use super::super::table::whole;
use super::{DARK, FOOT, LEGEND, PALE, TEXT, TITLE, TITLES, TOP};
use crate::record::{F32, INT4};

/// The sides of the panel.
const SIDES: (f64, f64) = (650.0, 1120.0);
/// The head size and the heads that the panel is of.
const HEAD_SIZE: usize = 128;
const HEADS: usize = 8;
/// The kernels of the panel, each with its colour.
const KERNELS: [(Call, u32, &str); 4] = [
    (Call::Scores, F32, "#0072b2"),
    (Call::Sums, F32, "#d55e00"),
    (Call::Scores, INT4, "#009e73"),
    (Call::Sums, INT4, "#cc79a7"),
];
/// The distance of two names in the legend.
const LEGEND_PITCH: f64 = 118.0;

/// Draws the panel.
pub fn draw(svg: &mut Svg, grid: &[Row]) {
    let title = format!("Nanoseconds for one number over the positions, D {HEAD_SIZE}, H {HEADS}");
    svg.text((SIDES.0 - 40.0, TITLES), Anchor::Start, TITLE, &title);
    let lines = all_lines(grid);
    let times = lines.iter().flat_map(|line| &line.times);
    let times: Vec<f64> = times.map(|(_, time)| *time).collect();
    let panel = Panel {
        across: Axis {
            from: POSITIONS[0] as f64,
            to: POSITIONS[POSITIONS.len() - 1] as f64,
            sides: SIDES,
        },
        up: Axis::around(&times, (FOOT, TOP)),
    };
    panel.draw_axes(svg);
    for line in &lines {
        panel.draw_line(svg, line);
    }
    draw_legend(svg);
}

/// The times of a kernel over the positions, done in a way.
struct Line {
    stroke: Stroke,
    times: Vec<(usize, f64)>,
}

/// The lines of the panel: ours solid, the Rust's dashed.
fn all_lines(grid: &[Row]) -> Vec<Line> {
    let both = |(call, format, colour)| {
        let kernel = Kernel { call, format };
        let ways = [
            (Way::Ours, solid(colour, 2)),
            (Way::Rust, dashed(colour, 2)),
        ];
        ways.map(|(way, stroke)| Line {
            stroke,
            times: times_of(grid, kernel, way),
        })
    };
    KERNELS.into_iter().flat_map(both).collect()
}

/// The least times of a kernel for each number of positions.
fn times_of(grid: &[Row], kernel: Kernel, way: Way) -> Vec<(usize, f64)> {
    let rows = grid.iter().filter(|row| {
        row.kernel == kernel && row.size.head_size == HEAD_SIZE && row.size.heads == HEADS
    });
    rows.filter_map(|row| Some((row.size.positions, row.times.least(way)?)))
        .collect()
}

/// The axes of the panel.
struct Panel {
    across: Axis,
    up: Axis,
}

impl Panel {
    /// Draws the named times and the positions, each with a line across the panel.
    fn draw_axes(&self, svg: &mut Svg) {
        for tick in self.up.ticks() {
            let y = self.up.place(tick);
            svg.line(&[(SIDES.0, y), (SIDES.1, y)], solid(PALE, 1));
            svg.text(
                (SIDES.0 - 8.0, y + 4.0),
                Anchor::End,
                TEXT,
                &tick.to_string(),
            );
        }
        for positions in POSITIONS {
            let x = self.across.place(positions as f64);
            svg.line(&[(x, TOP), (x, FOOT)], solid(PALE, 1));
            svg.text((x, FOOT + 18.0), Anchor::Middle, TEXT, &whole(positions));
        }
    }

    /// Draws a line and a dot at each of its times.
    fn draw_line(&self, svg: &mut Svg, line: &Line) {
        let place = |(positions, time): &(usize, f64)| {
            (self.across.place(*positions as f64), self.up.place(*time))
        };
        let points: Vec<(f64, f64)> = line.times.iter().map(place).collect();
        svg.line(&points, line.stroke);
        for point in points {
            svg.dot(point, line.stroke.colour);
        }
    }
}

/// What the colours and dashes say.
fn draw_legend(svg: &mut Svg) {
    for (place, (call, format, colour)) in KERNELS.into_iter().enumerate() {
        let corner = (SIDES.0 + LEGEND_PITCH * place as f64, LEGEND.0);
        draw_sample(
            svg,
            corner,
            solid(colour, 3),
            &Kernel { call, format }.name(),
        );
    }
    draw_sample(svg, (SIDES.0, LEGEND.1), solid(DARK, 2), "ours");
    let second = (SIDES.0 + LEGEND_PITCH, LEGEND.1);
    draw_sample(svg, second, dashed(DARK, 2), "the Rust");
}

/// A short line, and what it stands for.
fn draw_sample(svg: &mut Svg, (x, y): (f64, f64), stroke: Stroke, text: &str) {
    svg.line(&[(x, y - 4.0), (x + 22.0, y - 4.0)], stroke);
    svg.text((x + 30.0, y), Anchor::Start, TEXT, text);
}

/// An axis by the logarithm, between two sides of a panel.
struct Axis {
    from: f64,
    to: f64,
    sides: (f64, f64),
}

impl Axis {
    /// An axis that begins and ends at the named numbers around some times.
    fn around(times: &[f64], sides: (f64, f64)) -> Axis {
        let least = times.iter().copied().fold(f64::INFINITY, f64::min);
        let most = times.iter().copied().fold(0.0, f64::max);
        let from = named().rev().skip(1).find(|tick| *tick <= least);
        let to = named().find(|tick| *tick >= most && Some(*tick) > from);
        Axis {
            from: from.unwrap_or(NAMED.0),
            to: to.unwrap_or(NAMED.1),
            sides,
        }
    }

    /// The times that are named.
    fn ticks(&self) -> impl Iterator<Item = f64> + '_ {
        named().filter(|tick| (self.from..=self.to).contains(tick))
    }

    /// Where a number is between the sides.
    fn place(&self, number: f64) -> f64 {
        let share = (number / self.from).log2() / (self.to / self.from).log2();
        self.sides.0 + (self.sides.1 - self.sides.0) * share.clamp(0.0, 1.0)
    }
}

/// The least and the largest time that an axis can name.
const NAMED: (f64, f64) = (1e-4, 5e4);

/// One, two and five times each power of ten, so far as an axis can name them.
fn named() -> impl DoubleEndedIterator<Item = f64> {
    (-4..=4).flat_map(|power| [1, 2, 5].map(|digit| f64::from(digit) * 10f64.powi(power)))
}

#[cfg(test)]
pub mod tests {
    use super::super::super::measure::Times;
    use super::super::super::stores::Size;
    use super::*;

    /// The panel's rows, each with some times.
    pub fn grid(time: impl Fn(usize) -> f64) -> Vec<Row> {
        let kernels = KERNELS.into_iter().enumerate();
        let rows = kernels.flat_map(|(place, (call, format, _))| {
            POSITIONS.map(|positions| {
                let mut times = Times::default();
                times.push(Way::Ours, time(place));
                times.push(Way::Rust, 1.5 * time(place + 1));
                Row {
                    kernel: Kernel { call, format },
                    size: Size {
                        head_size: HEAD_SIZE,
                        heads: HEADS,
                        positions,
                    },
                    times,
                }
            })
        });
        rows.collect()
    }

    #[test]
    fn the_axis_reaches_around_what_it_shows() {
        let axis = Axis::around(&[0.3, 1.5], (FOOT, TOP));
        let ticks: Vec<String> = axis.ticks().map(|tick| tick.to_string()).collect();
        assert_eq!(ticks, ["0.2", "0.5", "1", "2"]);
        assert_eq!((axis.place(0.2), axis.place(2.0)), (FOOT, TOP));
    }

    #[test]
    fn a_named_time_is_short() {
        for tick in named() {
            assert!(tick.to_string().len() <= 6, "{tick}");
        }
        let ends = (named().next(), named().last());
        assert_eq!(ends, (Some(NAMED.0), Some(NAMED.1)));
    }

    #[test]
    fn each_kernel_is_drawn_solid_and_dashed() {
        let lines = all_lines(&grid(|_| 1.0));
        assert_eq!(lines.len(), 2 * KERNELS.len());
        assert!(lines.iter().all(|line| line.times.len() == POSITIONS.len()));
        let dashes = lines.iter().filter(|line| line.stroke.is_dashed);
        assert_eq!(dashes.count(), KERNELS.len());
    }
}
