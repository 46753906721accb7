//! Text to call file, and back.
use kvasm::{back, text};
use std::ffi::OsString;
use std::io::{self, Write};
use std::path::Path;
use std::process::ExitCode;
use std::{env, fs};

const USAGE: &str = "usage: kvasm TEXT OUT | kvasm --back FILE";

fn main() -> ExitCode {
    let arguments: Vec<OsString> = env::args_os().skip(1).collect();
    let done = match &arguments[..] {
        [flag, file] if flag == "--back" => print_back(Path::new(file)),
        [text, out] => assemble(Path::new(text), Path::new(out)),
        _ => {
            eprintln!("{USAGE}");
            return ExitCode::from(2);
        }
    };
    match done {
        Ok(()) => ExitCode::SUCCESS,
        Err(fault) => {
            eprintln!("{fault}");
            ExitCode::FAILURE
        }
    }
}

/// Writes the call file of a text; none where the text is wrong.
fn assemble(text: &Path, out: &Path) -> Result<(), String> {
    let read = fs::read(text).map_err(|error| of_file(text, error))?;
    let file = text::assembled(&read)
        .map_err(|fault| format!("{}:{}: {}", text.display(), fault.line, fault.what))?;
    fs::write(out, file).map_err(|error| of_file(out, error))
}

/// Prints the text of a call file.
fn print_back(file: &Path) -> Result<(), String> {
    let read = fs::read(file).map_err(|error| of_file(file, error))?;
    let printed = io::stdout().write_all(back::back(&read).as_bytes());
    printed.map_err(|error| format!("standard output: {error}"))
}

fn of_file(file: &Path, error: io::Error) -> String {
    format!("{}: {error}", file.display())
}
