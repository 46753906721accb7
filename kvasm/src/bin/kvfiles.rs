//! Call files for tests: the fixed folder, and random ones that a program is held to.
use kvasm::dice::SEED;
use kvasm::folder;
use kvasm::fuzz::{Difference, Outcome, Trial};
use kvasm::runs::Program;
use std::ffi::OsString;
use std::path::Path;
use std::process::ExitCode;
use std::{env, fs, io, process};

const USAGE: &str = "usage: kvfiles folder DIR | kvfiles hold PROGRAM DIR [-- WRAPPER WORDS..] \
    | kvfiles fuzz PROGRAM COUNT [SEED] [-- WRAPPER WORDS..]";

fn main() -> ExitCode {
    let arguments: Vec<OsString> = env::args_os().skip(1).collect();
    let command = arguments.first().and_then(|word| word.to_str());
    match (command, &arguments[..]) {
        (Some("folder"), [_, folder]) => write_folder(Path::new(folder)),
        (Some("hold"), [_, words @ ..]) => hold(words),
        (Some("fuzz"), [_, words @ ..]) => trial(words).map_or_else(usage, |trial| fuzz(&trial)),
        _ => usage(),
    }
}

fn usage() -> ExitCode {
    eprintln!("{USAGE}");
    ExitCode::from(2)
}

fn write_folder(folder: &Path) -> ExitCode {
    match folder::write(folder) {
        Ok(()) => ExitCode::SUCCESS,
        Err(error) => failed(&folder.display().to_string(), &error),
    }
}

/// Words, and those of a wrapper behind a `--`.
fn halves(words: &[OsString]) -> (&[OsString], &[OsString]) {
    let mut halves = words.splitn(2, |word| word == "--");
    let mut half = || halves.next().unwrap_or(&[]);
    (half(), half())
}

/// Holds a program to the model on each file of a folder, and tells of those that differ.
fn hold(words: &[OsString]) -> ExitCode {
    let ([program, folder], wrapper) = halves(words) else {
        return usage();
    };
    match folder::hold(&Program::new(program.clone(), wrapper), Path::new(folder)) {
        Ok((files, differing)) => {
            differing.iter().for_each(|line| println!("{line}"));
            println!(
                "{files} files of {}; {} differ",
                Path::new(folder).display(),
                differing.len()
            );
            ExitCode::from(u8::from(files == 0 || !differing.is_empty()))
        }
        Err(error) => failed("hold", &error),
    }
}

/// The trial that the words ask for.
fn trial(words: &[OsString]) -> Option<Trial> {
    let (asked, wrapper) = halves(words);
    let number = |word: &OsString| word.to_str()?.parse().ok();
    let (program, count, seed) = match asked {
        [program, count] => (program, number(count)?, SEED),
        [program, count, seed] => (program, number(count)?, number(seed)?),
        _ => return None,
    };
    Some(Trial {
        program: Program::new(program.clone(), wrapper),
        count,
        seed,
    })
}

/// Tries the files, prints the counts, and tells of the smallest file that differs.
fn fuzz(trial: &Trial) -> ExitCode {
    match trial.run().and_then(|outcome| told(trial, &outcome)) {
        Ok(0) => ExitCode::SUCCESS,
        Ok(_) => ExitCode::FAILURE,
        Err(error) => failed("fuzz", &error),
    }
}

/// Prints what came out; how many files differ.
fn told(trial: &Trial, outcome: &Outcome) -> io::Result<u64> {
    if let Some(difference) = &outcome.smallest {
        let Difference { number, file, how } = difference;
        let (process, length) = (process::id(), file.len());
        let path = env::temp_dir().join(format!("kvfiles-{process}-{number}.kv"));
        fs::write(&path, file)?;
        println!("{}: file {number}, {length} bytes, {how}", path.display());
    }
    let (tally, differing) = (&outcome.tally, outcome.differing);
    println!("seed {} {tally}; {differing} files differ", trial.seed);
    Ok(differing)
}

fn failed(what: &str, error: &io::Error) -> ExitCode {
    eprintln!("{what}: {error}");
    ExitCode::FAILURE
}
