//! The samples: each call file is what its text assembles to, and the text says what is printed.
use kvasm::{model, text};
use std::fs;
use std::path::Path;

fn read(name: &str) -> Vec<u8> {
    let samples = Path::new(env!("CARGO_MANIFEST_DIR")).join("../samples");
    fs::read(samples.join(name)).expect("a sample")
}

/// The lines that a text says are printed.
fn told(text: &str) -> String {
    let told = text.lines().filter_map(|line| line.strip_prefix("#> "));
    told.map(|line| format!("{line}\n")).collect()
}

fn sample_is_right(name: &str) {
    let source = read(&format!("{name}.txt"));
    let file = read(&format!("{name}.kv"));
    assert_eq!(text::assembled(&source).as_deref(), Ok(&file[..]));
    let source = String::from_utf8(source).expect("text");
    assert_eq!(told(&source), model::play(&file).output());
}

#[test]
fn withdrawn_is_right() {
    sample_is_right("withdrawn");
}

#[test]
fn refused_is_right() {
    sample_is_right("refused");
}

#[test]
fn bad_is_right() {
    sample_is_right("bad");
}
