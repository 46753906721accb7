//! The commands of the comparison.
use oracle::part::{Part, Reach};
use oracle::tally::Tally;
use oracle::{dice, histories, parts, speed, vectors};
use std::env;
use std::ffi::{OsStr, OsString};
use std::io;
use std::path::Path;
use std::process::ExitCode;
use std::time::Instant;

const USAGE: &str =
    "usage: oracle sweep | oracle slice | oracle speed [DIR] | oracle counts [FILE] | oracle vectors DIR | oracle histories DIR";

fn main() -> ExitCode {
    let arguments: Vec<OsString> = env::args_os().skip(1).collect();
    let command = arguments.first().and_then(|word| word.to_str());
    match (command, &arguments[..]) {
        (Some("sweep"), [_]) => compare(Reach::Sweep),
        (Some("slice"), [_]) => compare(Reach::Slice),
        (Some("speed"), [_]) => speed::measure(None),
        (Some("speed"), [_, folder]) => speed::measure(Some(Path::new(folder))),
        (Some("counts"), [_]) => speed::count(None),
        (Some("counts"), [_, file]) => speed::count(Some(Path::new(file))),
        (Some(speed::COUNTING), [_]) => speed::run_counted(),
        (Some("vectors"), [_, folder]) => written(vectors::write, folder),
        (Some("histories"), [_, folder]) => written(histories::write, folder),
        _ => {
            eprintln!("{USAGE}");
            ExitCode::from(2)
        }
    }
}

/// Runs every part and prints its counts; fails on any difference.
fn compare(reach: Reach) -> ExitCode {
    println!("seed {:016x}", dice::SEED);
    let mut total = Tally::default();
    for part in parts::all(reach) {
        let tally = timed(&part);
        println!("{}: {}", part.name, tally.counts());
        for difference in tally.shown() {
            println!("  {difference}");
        }
        total.join(tally);
    }
    println!("total {}", total.counts());
    if total.differing == 0 {
        ExitCode::SUCCESS
    } else {
        ExitCode::FAILURE
    }
}

/// Runs a part and ends its line of progress with the time it took.
fn timed(part: &Part) -> Tally {
    let start = Instant::now();
    let tally = part.run();
    eprintln!("\r{}: {:.1} s   ", part.name, start.elapsed().as_secs_f64());
    tally
}

/// Writes a fixed list to a folder.
fn written(write: fn(&Path) -> io::Result<()>, folder: &OsStr) -> ExitCode {
    let folder = Path::new(folder);
    match write(folder) {
        Ok(()) => ExitCode::SUCCESS,
        Err(error) => {
            eprintln!("{}: {error}", folder.display());
            ExitCode::FAILURE
        }
    }
}
