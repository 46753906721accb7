//! The folder of the program `test_callfiles` is what `kvfiles folder` writes.
use kvasm::folder;
use std::collections::{BTreeMap, BTreeSet};
use std::fs;
use std::path::{Path, PathBuf};

fn folder() -> PathBuf {
    Path::new(env!("CARGO_MANIFEST_DIR")).join("../crates/test_callfiles")
}

fn files(data: &Path) -> BTreeMap<String, Vec<u8>> {
    let entries = fs::read_dir(data).expect("the folder");
    let paths = entries.map(|entry| entry.expect("an entry").path());
    paths
        .map(|path| {
            let name = path.file_name().expect("a name");
            let bytes = fs::read(&path).expect("a file");
            (name.to_string_lossy().into_owned(), bytes)
        })
        .collect()
}

#[test]
fn folder_holds_the_list() {
    let made = folder::made();
    let (wanted, there) = (
        made.data.into_iter().collect(),
        files(&folder().join("data")),
    );
    let names = |files: &BTreeMap<String, Vec<u8>>| files.keys().cloned().collect::<BTreeSet<_>>();
    assert_eq!(names(&there), names(&wanted));
    for (name, bytes) in wanted {
        assert!(there[&name] == bytes, "{name} differs");
    }
    let read = |name| fs::read_to_string(folder().join(name)).expect("a file");
    assert!(read("stdin") == made.stdin, "stdin differs");
    assert!(read("stdout") == made.stdout, "stdout differs");
}

#[test]
fn names_say_the_case_once() {
    let made = folder::made();
    let names: Vec<&str> = made.stdin.lines().collect();
    let different: BTreeSet<&str> = names.iter().copied().collect();
    assert_eq!(different.len(), names.len());
    // One name is that of a file that is missing.
    assert_eq!(made.data.len() + 1, names.len());
    let plain = |letter: char| matches!(letter, 'a'..='z' | '0'..='9' | '_');
    let stems = names.iter().map(|name| name.strip_suffix(".kv"));
    assert!(
        stems
            .flatten()
            .filter(|stem| stem.chars().all(plain))
            .count()
            == names.len()
    );
}

#[test]
fn no_two_files_are_the_same() {
    let files: BTreeSet<Vec<u8>> = folder::made()
        .data
        .into_iter()
        .map(|(_, file)| file)
        .collect();
    assert_eq!(files.len(), folder::made().data.len());
}
