//! Running programs: what a random file asks for, how a difference is told, and the faults that `kvasm` prints.
use kvasm::dice::{self, SEED};
use kvasm::fuzz::Trial;
use kvasm::runs::Program;
use kvasm::tally::Tally;
use kvasm::{draws, folder, model};
use std::path::{Path, PathBuf};
use std::process::Command;
use std::{env, fs, process};

fn trial(program: &str, wrapper: &[&str]) -> Trial {
    let wrapper: Vec<_> = wrapper.iter().map(|word| word.into()).collect();
    Trial {
        program: Program::new(program.into(), &wrapper),
        count: 64,
        seed: SEED,
    }
}

#[test]
fn random_files_ask_for_every_line_often() {
    let mut tally = Tally::default();
    for number in 0..3000 {
        let file = draws::file(&mut dice::of(SEED, number));
        assert!(file.len() <= draws::MOST_FILE);
        tally.count(&file, &model::play(&file));
    }
    for refusal in [1, 2, 4, 7, 9, 10] {
        assert!(tally.refused(refusal) >= 300, "no {refusal}: {tally}");
    }
    assert!(tally.bad >= 600 && tally.reports >= 3000 && tally.ok >= 9000);
    assert_eq!(tally.refusals.len(), 6, "{tally}");
}

#[test]
fn random_files_reach_both_sides_of_both_limits() {
    let mut tally = Tally::default();
    for number in 0..2000 {
        let file = draws::file(&mut dice::of(SEED, number));
        tally.count(&file, &model::play(&file));
    }
    let edges = &tally.edges;
    assert!(edges.all_cells >= 20 && edges.more_cells >= 20, "{edges:?}");
    assert!(
        edges.all_scales >= 10 && edges.more_scales >= 10,
        "{edges:?}"
    );
}

#[test]
fn folder_tells_of_each_file_that_differs() {
    let folder = Path::new(env!("CARGO_MANIFEST_DIR")).join("../crates/test_callfiles");
    let silent = Program::new("true".into(), &[]);
    let (files, differing) = folder::hold(&silent, &folder).expect("it starts");
    // All but the empty file ask for a line.
    assert_eq!((files, differing.len()), (150, 149));
    assert!(differing[0].contains("line 1: wanted "), "{}", differing[0]);
}

#[test]
fn program_gets_the_whole_file_in_any_pieces() {
    let cat = Program::new("cat".into(), &[]);
    let file = dice::of(SEED, 0).bytes(20_000);
    for pieces in [&[&file[..]][..], &[&file[..7], &file[7..]]] {
        let run = cat.run(pieces).expect("it starts").expect("it ends");
        assert!(run.output == file && run.errors.is_empty() && run.status.success());
    }
}

#[test]
fn silent_program_differs_on_the_smallest_file_that_asks_for_a_line() {
    let outcome = trial("true", &[]).run().expect("it starts");
    let smallest = outcome.smallest.expect("a difference");
    assert!(outcome.tally.files == 64 && outcome.differing > 32);
    assert!(
        smallest.how.starts_with("line 1: wanted "),
        "{}",
        smallest.how
    );
    assert!(
        smallest.how.ends_with(", printed nothing"),
        "{}",
        smallest.how
    );
}

#[test]
fn program_that_is_not_there_is_an_error() {
    let error = trial("/nowhere/at/all", &[]).run().err().expect("an error");
    assert!(error.to_string().starts_with("/nowhere/at/all: "));
}

/// Runs `kvasm`; its status and what it says on standard error.
fn kvasm(words: &[PathBuf]) -> (Option<i32>, String) {
    let command = Command::new(env!("CARGO_BIN_EXE_kvasm"))
        .args(words)
        .output();
    let output = command.expect("it starts");
    let errors = String::from_utf8(output.stderr).expect("text");
    (output.status.code(), errors)
}

#[test]
fn fault_is_one_line_with_file_and_line_and_writes_nothing() {
    let folder = env::temp_dir().join(format!("kvasm-test-{}", process::id()));
    fs::create_dir_all(&folder).expect("a folder");
    let (text, out) = (folder.join("wrong.txt"), folder.join("wrong.kv"));
    fs::write(&text, "report\n\nadvance x\n").expect("written");
    let fault = format!(
        "{}:3: \"x\" is no number from 0 to 4294967295\n",
        text.display()
    );
    assert_eq!(kvasm(&[text, out.clone()]), (Some(1), fault));
    assert!(!out.exists());
    let (status, errors) = kvasm(&["--back".into(), out.clone()]);
    assert_eq!((status, errors.lines().count()), (Some(1), 1));
    assert!(errors.starts_with(&out.display().to_string()));
    fs::remove_dir_all(&folder).expect("removed");
}
