//! The left panel: a bar for each kernel's worst ratio, with its goal.
use super::super::bars::{Judged, Verdict, SIZE};
use super::super::svg::{dashed, solid, Anchor, Stroke, Svg};
use super::super::table::{number, whole};
use super::{DARK, FOOT, LEGEND, MARGIN, PALE, SMALL, SUBTITLES, TEXT, TITLE, TITLES, TOP};

/// The sides of the panel, and where the numbers beside it end.
const SIDES: (f64, f64) = (150.0, 490.0);
const NUMBERS: f64 = 550.0;
/// How much of a row its bar takes, and how much a mark across it.
const THICKNESS: f64 = 0.6;
const MARK: f64 = 0.84;
/// The colours of a bar that is met, of one that is not, and of a kernel without one.
const MET: &str = "#7fb2d9";
const NOT_MET: &str = "#e39a8b";
const UNJUDGED: &str = "#c4c4c4";
/// The colour of the moonshot.
const MOON: &str = "#0b7d57";
/// The largest ratio that the axis reaches.
const LONGEST: f64 = 64.0;

/// Draws the panel.
pub fn draw(svg: &mut Svg, table: &[Judged]) {
    draw_titles(svg);
    let axis = Axis::of(table);
    for tick in axis.ticks() {
        let x = axis.place(tick);
        svg.line(&[(x, TOP), (x, FOOT)], solid(PALE, 1));
        svg.text((x, FOOT + 18.0), Anchor::Middle, TEXT, &tick.to_string());
    }
    let pitch = (FOOT - TOP) / table.len() as f64;
    for (row, judged) in table.iter().enumerate() {
        let middle = TOP + pitch * (row as f64 + 0.5);
        draw_row(svg, &axis, (middle, pitch), judged);
    }
    let even = axis.place(1.0);
    svg.line(&[(even, TOP - 4.0), (even, FOOT)], dashed(DARK, 1));
    draw_legend(svg);
}

/// What the panel shows.
fn draw_titles(svg: &mut Svg) {
    let title = "Ours by the other: the worst of three ratios";
    svg.text((MARGIN, TITLES), Anchor::Start, TITLE, title);
    let layer = format!(
        "D {}, H {}, {} positions; truncate and open by clearing memory, the rest by the Rust",
        SIZE.head_size,
        SIZE.heads,
        whole(SIZE.positions)
    );
    svg.text((MARGIN, SUBTITLES), Anchor::Start, SMALL, &layer);
}

/// One kernel's name, bar, goal and ratio, at a height and in a row so high.
fn draw_row(svg: &mut Svg, axis: &Axis, (middle, pitch): (f64, f64), judged: &Judged) {
    let (name, worst) = (judged.bar.kernel.name(), judged.worst());
    let fill = match judged.verdict() {
        None => UNJUDGED,
        Some(Verdict::NotMet) => NOT_MET,
        Some(_) => MET,
    };
    let thickness = THICKNESS * pitch;
    let (corner, length) = (
        (SIDES.0, middle - thickness / 2.0),
        axis.place(worst) - SIDES.0,
    );
    svg.text((SIDES.0 - 8.0, middle + 4.0), Anchor::End, TEXT, &name);
    svg.rectangle(corner, (length, thickness), fill);
    if let Some(goal) = judged.bar.goal {
        for (ratio, colour) in [(goal.bar, DARK), (goal.moonshot, MOON)] {
            draw_mark(
                svg,
                (axis.place(ratio), middle),
                MARK * pitch,
                solid(colour, 3),
            );
        }
    }
    svg.text((NUMBERS, middle + 4.0), Anchor::End, TEXT, &number(worst));
}

/// A mark of a height across a bar.
fn draw_mark(svg: &mut Svg, (x, middle): (f64, f64), height: f64, stroke: Stroke) {
    let (top, foot) = (middle - height / 2.0, middle + height / 2.0);
    svg.line(&[(x, top), (x, foot)], stroke);
}

/// What the colours and marks say.
fn draw_legend(svg: &mut Svg) {
    let columns = [SIDES.0, SIDES.0 + 100.0, SIDES.0 + 220.0];
    let fills = [
        (MET, "bar met"),
        (NOT_MET, "bar not met"),
        (UNJUDGED, "no bar yet"),
    ];
    for (x, (fill, text)) in columns.into_iter().zip(fills) {
        svg.rectangle((x, LEGEND.0 - 10.0), (18.0, 12.0), fill);
        svg.text((x + 26.0, LEGEND.0), Anchor::Start, TEXT, text);
    }
    let middle = LEGEND.1 - 4.0;
    for (x, colour) in [(columns[0], DARK), (columns[1], MOON)] {
        draw_mark(svg, (x + 9.0, middle), 20.0, solid(colour, 3));
    }
    svg.line(
        &[(columns[2], middle), (columns[2] + 18.0, middle)],
        dashed(DARK, 1),
    );
    for (x, text) in columns.into_iter().zip(["bar", "moonshot", "as fast"]) {
        svg.text((x + 26.0, LEGEND.1), Anchor::Start, TEXT, text);
    }
}

/// The axis of ratios, from 0 in steps.
struct Axis {
    step: f64,
    steps: usize,
}

impl Axis {
    /// An axis that reaches every bar and ratio of a table.
    fn of(table: &[Judged]) -> Axis {
        let bars = table.iter().filter_map(|judged| judged.bar.goal);
        let ratios = table.iter().map(Judged::worst);
        let most = bars.map(|goal| goal.bar).chain(ratios).fold(1.0, f64::max);
        Axis::up_to(most)
    }

    /// An axis that reaches so far, in steps that leave room for their numbers; a bar that is longer still ends with it.
    fn up_to(most: f64) -> Axis {
        let most = most.min(LONGEST);
        let mut step = 0.25;
        while most / step > 8.0 {
            step *= 2.0;
        }
        Axis {
            step,
            steps: (most / step).ceil() as usize,
        }
    }

    /// The ratios that are named.
    fn ticks(&self) -> impl Iterator<Item = f64> + '_ {
        (0..=self.steps).map(|tick| self.step * tick as f64)
    }

    /// Where a ratio is between the sides.
    fn place(&self, ratio: f64) -> f64 {
        let share = ratio / (self.step * self.steps as f64);
        SIDES.0 + (SIDES.1 - SIDES.0) * share.clamp(0.0, 1.0)
    }
}

#[cfg(test)]
mod tests {
    use super::*;

    #[test]
    fn the_axis_reaches_what_it_shows() {
        let ticks: Vec<f64> = Axis::up_to(1.1).ticks().collect();
        assert_eq!(ticks, [0.0, 0.25, 0.5, 0.75, 1.0, 1.25]);
        assert!(Axis::up_to(f64::INFINITY).ticks().count() <= 9);
        let axis = Axis::up_to(3.0);
        assert_eq!((axis.place(0.0), axis.place(3.0)), SIDES);
        assert_eq!(axis.place(1e9), SIDES.1);
    }
}
