//! A measurement of the library's calls, against the lifted Rust and against moving memory.
mod appending;
mod bars;
mod callgrind;
mod clearing;
mod counts;
mod grid;
mod growth;
mod heads;
mod kernel;
mod machine;
mod magnitude;
mod measure;
mod plot;
mod progress;
mod reading;
mod stores;
mod svg;
mod table;

pub use counts::COUNTING;
use kernel::Call;
use progress::Progress;
use std::path::Path;
use std::process::ExitCode;
use std::{fs, io};

/// Prints the bars, the grid and the growth, and draws them into a folder where one is given; fails where results differ.
pub fn measure(folder: Option<&Path>) -> ExitCode {
    ended(measured(folder))
}

/// Prints the instructions of the bars' kernels, from a file where they were counted into one.
pub fn count(file: Option<&Path>) -> ExitCode {
    ended(counts::print(file))
}

/// What is run where instructions are counted.
pub fn run_counted() -> ExitCode {
    ended(counts::run_counted())
}

/// Says what went wrong, where something did.
fn ended(result: Result<(), String>) -> ExitCode {
    match result {
        Ok(()) => ExitCode::SUCCESS,
        Err(failure) => {
            eprintln!("{failure}");
            ExitCode::FAILURE
        }
    }
}

/// Measures, and prints each table as soon as it is known.
fn measured(folder: Option<&Path>) -> Result<(), String> {
    if let Some(folder) = folder {
        // A folder that cannot be made is told before the minutes that measuring takes.
        fs::create_dir_all(folder).map_err(|error| told(folder, error))?;
    }
    print_header();
    let mut progress = Progress::of(bars::ROWS + grid::rows());
    let table = bars::judge(&mut progress)?;
    progress.clear();
    println!();
    bars::print(&table);
    let grid = grid::measure(&mut progress)?;
    progress.clear();
    println!();
    grid::print(&grid);
    println!();
    growth::print(&grid);
    let Some(folder) = folder else {
        return Ok(());
    };
    let drawing = plot::drawing(&table, &grid, &machine::line());
    let file = folder.join(drawing_name(crate::ARCHIVE));
    fs::write(&file, drawing).map_err(|error| told(&file, error))
}

/// The file that the drawing of an archive's speed is written to: one folder has those of several.
fn drawing_name(archive: &str) -> String {
    format!("speed-{archive}.svg")
}

/// What went wrong with a file or a folder.
fn told(path: &Path, error: io::Error) -> String {
    format!("{}: {error}", path.display())
}

/// Prints what was measured on, and how.
fn print_header() {
    println!("{}", machine::line());
    println!("One layer that is full. Nanoseconds for one number, the least and the median of 6 to 21 runs. Ours, the Rust");
    println!("and memory take turns. Results were compared bit by bit before they were timed.");
    for call in Call::ALL {
        println!("{:<19}{}", call.name(), call.state());
    }
}

#[cfg(test)]
mod tests {
    use super::*;

    #[test]
    fn each_archive_has_a_drawing_of_its_own() {
        assert_eq!(drawing_name("x86-64-v3"), "speed-x86-64-v3.svg");
        assert_eq!(drawing_name("aarch64"), "speed-aarch64.svg");
    }
}
