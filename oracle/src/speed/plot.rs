//! A drawing of the bars, and of scores and sums over the positions.
mod lines;
mod ratios;

use super::bars::Judged;
use super::grid::Row;
use super::svg::{Anchor, Svg};

/// The sheet.
const WIDTH: f64 = 1160.0;
const HEIGHT: f64 = 620.0;
/// The top and the foot of both panels, and the lines of their legends.
const TOP: f64 = 76.0;
const FOOT: f64 = 490.0;
const LEGEND: (f64, f64) = (550.0, 574.0);
/// The left end of what stands above and below the panels, and the heights of titles.
const MARGIN: f64 = 30.0;
const TITLES: f64 = 36.0;
const SUBTITLES: f64 = 56.0;
/// The sizes of a title, of a text, and of what stands beside.
const TITLE: u32 = 15;
const TEXT: u32 = 12;
const SMALL: u32 = 11;
/// The colours of what stands out in a panel, and of what is drawn all across it.
const DARK: &str = "#222222";
const PALE: &str = "#dddddd";

/// The drawing of a table of bars and a grid, with what they were measured on.
pub fn drawing(table: &[Judged], grid: &[Row], machine: &str) -> String {
    let mut svg = Svg::new(WIDTH, HEIGHT);
    ratios::draw(&mut svg, table);
    lines::draw(&mut svg, grid);
    svg.text((MARGIN, HEIGHT - 14.0), Anchor::Start, SMALL, machine);
    svg.finished()
}

#[cfg(test)]
mod tests {
    use super::super::bars::BARS;
    use super::lines::tests::grid;
    use super::*;
    use std::collections::HashMap;

    /// Bars beyond those that there are.
    const FURTHER: usize = 6;

    /// Bars of every kernel, and further ones, with some ratios.
    fn table(ratio: impl Fn(usize) -> f64) -> Vec<Judged> {
        let bars = BARS.iter().cycle().take(BARS.len() + FURTHER).enumerate();
        bars.map(|(row, bar)| Judged::with_ratios(bar, vec![ratio(row), 0.1]))
            .collect()
    }

    /// Drawings of small and large ratios and times, and of none.
    fn drawings() -> [String; 4] {
        let machine = "A processor of some name @ 2.80GHz, cores: 2, archive aarch64-android, \
                       rustc 1.85.0 (4d91de4e4 2025-02-17)";
        [
            drawing(
                &table(|row| 0.1 * row as f64),
                &grid(|place| 0.1 + 0.3 * place as f64),
                machine,
            ),
            drawing(
                &table(|row| 9.0 * row as f64),
                &grid(|place| 1e-3 * 60f64.powi(place as i32)),
                machine,
            ),
            drawing(&table(|_| f64::INFINITY), &grid(|_| 1.0), machine),
            drawing(&[], &[], ""),
        ]
    }

    /// An element of a drawing, or the end of one, with the text behind it.
    struct Element<'a> {
        name: &'a str,
        is_whole: bool,
        attributes: HashMap<&'a str, &'a str>,
        text: &'a str,
    }

    impl Element<'_> {
        /// The number of an attribute.
        fn number(&self, name: &str) -> f64 {
            self.attributes[name].parse().unwrap()
        }

        /// The places that it reaches.
        fn places(&self) -> Vec<[f64; 2]> {
            let number = |name| self.number(name);
            match self.name {
                "rect" => {
                    let (x, y) = (number("x"), number("y"));
                    vec![[x, y], [x + number("width"), y + number("height")]]
                }
                "circle" => vec![[number("cx"), number("cy")]],
                "text" => {
                    let [left, right, top, foot] = self.text_sides();
                    vec![[left, top], [right, foot]]
                }
                "polyline" => {
                    let place = |point: &str| {
                        let (x, y) = point.split_once(',').unwrap();
                        [x.parse().unwrap(), y.parse().unwrap()]
                    };
                    let points = self.attributes["points"].split_whitespace();
                    points.map(place).collect()
                }
                _ => Vec::new(),
            }
        }

        /// The sides of a text, taken to be as wide as in a wide font.
        fn text_sides(&self) -> [f64; 4] {
            let [x, y, size] = ["x", "y", "font-size"].map(|name| self.number(name));
            let width = 0.58 * size * self.text.chars().count() as f64;
            let left = match self.attributes["text-anchor"] {
                "start" => x,
                "middle" => x - width / 2.0,
                _ => x - width,
            };
            [left, left + width, y - size, y + size / 4.0]
        }
    }

    /// The elements of a drawing.
    fn elements(drawing: &str) -> Vec<Element<'_>> {
        let pieces = drawing.split('<').skip(1);
        let element = |piece| {
            let (tag, text): (&str, &str) = str::split_once(piece, '>').expect("a tag ends");
            let (name, rest) = tag.split_once(' ').unwrap_or((tag, ""));
            let quoted: Vec<&str> = rest.split('"').collect();
            let attributes = quoted.chunks_exact(2);
            Element {
                name,
                is_whole: rest.ends_with('/'),
                attributes: attributes
                    .map(|pair| (pair[0].trim().trim_end_matches('='), pair[1]))
                    .collect(),
                text,
            }
        };
        pieces.map(element).collect()
    }

    #[test]
    fn tags_are_balanced() {
        for drawing in drawings() {
            let mut open = Vec::new();
            for element in elements(&drawing) {
                match element.name.strip_prefix('/') {
                    Some(name) => assert_eq!(open.pop(), Some(name)),
                    None if element.is_whole => (),
                    None => open.push(element.name),
                }
            }
            assert!(open.is_empty());
            assert_eq!(drawing.matches('"').count() % 2, 0);
        }
    }

    #[test]
    fn all_is_on_the_sheet() {
        for drawing in drawings() {
            let elements = elements(&drawing);
            let places: Vec<[f64; 2]> = elements.iter().flat_map(Element::places).collect();
            assert!(places.len() > 20);
            for [x, y] in places {
                assert!((0.0..=WIDTH).contains(&x), "{x}");
                assert!((0.0..=HEIGHT).contains(&y), "{y}");
            }
        }
    }

    #[test]
    fn no_text_overlaps_another() {
        for drawing in drawings() {
            let mut texts = elements(&drawing);
            texts.retain(|element| element.name == "text");
            let sides: Vec<[f64; 4]> = texts.iter().map(Element::text_sides).collect();
            for (i, a) in sides.iter().enumerate() {
                for (j, b) in sides.iter().enumerate().skip(i + 1) {
                    let apart = a[1] <= b[0] || b[1] <= a[0] || a[3] <= b[2] || b[3] <= a[2];
                    assert!(apart, "{} and {}", texts[i].text, texts[j].text);
                }
            }
        }
    }
}
