//! What is kept beside the programs is what the reading says they print.

use printed::{firmware, host, printed};
use std::fs;
use std::path::{Path, PathBuf};

fn repository() -> PathBuf {
    Path::new(env!("CARGO_MANIFEST_DIR")).join("../..")
}

/// The crates that a program's output is kept for.
fn programs() -> Vec<PathBuf> {
    let crates = fs::read_dir(repository().join("crates")).unwrap();
    let folders = crates.map(|entry| entry.unwrap().path());
    folders
        .filter(|folder| folder.join("stdout").exists())
        .collect()
}

#[test]
fn every_kept_output_is_the_readings() {
    let programs = programs();
    assert!(!programs.is_empty());
    for program in programs {
        let name = program.file_name().unwrap().to_str().unwrap();
        let input = fs::read(program.join("stdin")).unwrap_or_default();
        let kept = fs::read_to_string(program.join("stdout")).unwrap();
        assert_eq!(printed(name, &input).as_ref(), Some(&kept), "{name}");
    }
}

#[test]
fn what_the_examples_print_is_the_readings() {
    let examples = repository().join("examples");
    let sheet = fs::read(examples.join("gain.sheet")).unwrap();
    let kept = fs::read_to_string(examples.join("expected.txt")).unwrap();
    assert_eq!(host(&sheet), kept);
    let kept = fs::read_to_string(examples.join("firmware_expected.txt")).unwrap();
    assert_eq!(firmware(&sheet), kept);
}
