//! The folder that the program `test_callfiles` is run on, what it has to print, and `kvcalls` on each of its files.
use crate::judge;
use crate::list::{self, Case};
use crate::model::{self, Played};
use crate::runs::Program;
use std::path::Path;
use std::{fs, io};

/// What the folder holds.
pub struct Folder {
    /// Names and bytes of the files in `data`.
    pub data: Vec<(String, Vec<u8>)>,
    pub stdin: String,
    pub stdout: String,
}

/// The folder of the list.
pub fn made() -> Folder {
    let cases = list::all();
    Folder {
        stdin: cases.iter().map(|case| case.name.clone() + "\n").collect(),
        stdout: cases.iter().map(printed).collect(),
        data: cases.into_iter().filter_map(written).collect(),
    }
}

/// Writes the folder.
pub fn write(folder: &Path) -> io::Result<()> {
    let made = made();
    let data = folder.join("data");
    fs::create_dir_all(&data)?;
    for (name, file) in made.data {
        fs::write(data.join(name), file)?;
    }
    fs::write(folder.join("stdin"), made.stdin)?;
    fs::write(folder.join("stdout"), made.stdout)
}

/// Runs a program on each file that stands in the folder; how many there are, and a line for each that differs.
pub fn hold(program: &Program, folder: &Path) -> io::Result<(usize, Vec<String>)> {
    let entries = fs::read_dir(folder.join("data"))?;
    let paths: io::Result<Vec<_>> = entries.map(|entry| Ok(entry?.path())).collect();
    let mut paths = paths?;
    paths.sort();
    let mut differing = Vec::new();
    for path in &paths {
        let file = fs::read(path)?;
        let run = program.run(&[&file])?;
        let wanted = model::play(&file).output();
        if let Some(how) = judge::difference(&wanted, run.as_ref(), program.is_wrapped) {
            differing.push(format!("{}: {how}", path.display()));
        }
    }
    Ok((paths.len(), differing))
}

fn written(case: Case) -> Option<(String, Vec<u8>)> {
    let name = case.name;
    case.file.map(|file| (name, file))
}

/// What the program prints for one name.
fn printed(case: &Case) -> String {
    let lines = match &case.file {
        None => "missing\n".into(),
        Some(file) => played(&model::play(file)),
    };
    format!("{}\n{lines}", case.name)
}

/// The lines of a file, and the store that its replay leaves.
fn played(played: &Played) -> String {
    let lines = played.output();
    match (played.place, &played.store) {
        (None, _) => lines,
        (Some(place), None) => format!("{lines}replay {place} no 1\n"),
        (Some(place), Some(store)) => format!("{lines}replay {place} {store}\n"),
    }
}
