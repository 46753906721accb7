//! What the project's README shows is so: the lines of its two programs, and its table of sizes.
mod common;

use common::{read, FORMATS};
use karonjeenu::Shape;

const README: &str = "../README.md";

const GIB: usize = 1 << 30;

/// A text as the README shows it.
fn shown(text: &str) -> String {
    format!("```text\n{text}```\n")
}

#[test]
fn lines_of_the_sample_are_shown() {
    let sample = read("../samples/withdrawn.txt");
    let printed = sample.lines().filter_map(|line| line.strip_prefix("#> "));
    let printed: String = printed.map(|line| format!("{line}\n")).collect();
    assert!(printed.contains("seq 5 bytes 96 len 3 3"));
    assert!(read(README).contains(&shown(&printed)));
}

#[test]
fn lines_of_the_c_example_are_shown() {
    let printed = read("../examples/undo.txt");
    assert!(printed.contains("withdrawn"));
    assert!(read(README).contains(&shown(&printed)));
}

/// A whole number with commas, as the README writes it.
fn with_commas(number: usize) -> String {
    match number {
        0..=999 => number.to_string(),
        _ => format!("{},{:03}", with_commas(number / 1000), number % 1000),
    }
}

#[test]
fn sizes_are_those_of_the_library() {
    let readme = read(README);
    for format in FORMATS {
        let shape = Shape {
            format,
            layers: 32,
            heads: 8,
            head_size: 128,
            capacity: 1,
        };
        let need = shape.need().expect("a shape inside the limits");
        let bytes = need.cells + 4 * need.scales;
        let name = format!("| {format:?} |").to_uppercase();
        let row = readme.lines().find(|line| line.starts_with(&name));
        let end = format!("| {} | {} |", with_commas(bytes), with_commas(GIB / bytes));
        assert!(row.expect("a row").ends_with(&end), "{format:?}: {end}");
    }
}
