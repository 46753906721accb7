//! How what a program printed differs from the model's lines.
use crate::runs::Run;

/// Bytes of a line that are shown.
const SHOWN: usize = 80;

/// How a run, if it ended, differs from what is wanted; under a wrapper, which may speak, standard error is free.
pub fn difference(wanted: &str, run: Option<&Run>, is_wrapped: bool) -> Option<String> {
    let Some(run) = run else {
        return Some("the program does not end in time".into());
    };
    if run.output != wanted.as_bytes() {
        return Some(differing_line(wanted.as_bytes(), &run.output));
    }
    if !run.status.success() {
        return Some(format!("the program ends with {}", run.status));
    }
    if !is_wrapped && !run.errors.is_empty() {
        let first = run.errors.split_inclusive(feed).next();
        return Some(format!("standard error has {}", shown(first)));
    }
    None
}

/// The first line that differs; the line feed belongs to it.
fn differing_line(wanted: &[u8], printed: &[u8]) -> String {
    let mut wanted = wanted.split_inclusive(feed);
    let mut printed = printed.split_inclusive(feed);
    for number in 1.. {
        let (wanted, printed) = (wanted.next(), printed.next());
        if wanted != printed {
            let (wanted, printed) = (shown(wanted), shown(printed));
            return format!("line {number}: wanted {wanted}, printed {printed}");
        }
    }
    unreachable!("equal outputs are not asked about")
}

/// Whether a byte ends a line.
fn feed(byte: &u8) -> bool {
    *byte == b'\n'
}

/// A line in quotes, or as much of it as fits.
fn shown(line: Option<&[u8]>) -> String {
    match line {
        None => "nothing".into(),
        Some(line) => {
            let front = &line[..line.len().min(SHOWN)];
            let rest = if front.len() < line.len() { ".." } else { "" };
            format!("{:?}{rest}", String::from_utf8_lossy(front))
        }
    }
}
