//! What the second engine makes of the project's stored texts, prints, responses by marks, days, tables and folders is what is stored.

use std::fs;
use std::path::{Path, PathBuf};

use second::engine::Second;
use second::program_cases::Kept;
use second::{day_lines, mark_lines, print_lines, program_cases, read_lines, table_lines};

/// A path of the repository.
fn path(name: &str) -> PathBuf {
    Path::new(env!("CARGO_MANIFEST_DIR")).join("../..").join(name)
}

/// Holds the output for a stored input to the stored output.
fn held(input: &str, expected: &str, output: impl Fn(&[u8]) -> Vec<u8>) {
    let words = |bytes: &[u8]| String::from_utf8_lossy(bytes).into_owned();
    let given = words(&output(&fs::read(path(input)).unwrap()));
    let wanted = words(&fs::read(path(expected)).unwrap());
    let differing = given.lines().zip(wanted.lines()).find(|(given, wanted)| given != wanted);
    assert_eq!(differing, None);
    assert_eq!(given.len(), wanted.len());
}

#[test]
fn stored_texts_read_as_stored() {
    let output = |input: &[u8]| read_lines::output(&mut Second, input);
    held("tests/stored/texts/input", "tests/stored/texts/expected", output);
}

#[test]
fn stored_prints_are_as_stored() {
    let output = |input: &[u8]| print_lines::output(&mut Second, input);
    held("tests/stored/prints/input", "tests/stored/prints/expected", output);
}

#[test]
fn stored_responses_by_marks_are_as_stored() {
    let output = |input: &[u8]| mark_lines::output(&mut Second, input);
    held("tests/stored/marks/input", "tests/stored/marks/expected", output);
}

#[test]
fn stored_days_are_as_stored() {
    let output = |input: &[u8]| day_lines::output(&mut Second, input);
    held("tests/stored/days/input", "tests/stored/days/expected", output);
}

#[test]
fn stored_tables_are_tested_as_stored() {
    held("crates/strata_cases/stdin", "crates/strata_cases/stdout", table_lines::output);
}

#[test]
fn generated_tables_are_of_the_stored_form() {
    for seed in 1..4 {
        let tables = table_lines::generated(seed);
        assert!(table_lines::output(&tables).len() > 1_000);
    }
}

#[test]
fn stored_cases_of_the_program_are_as_stored() {
    let stored = path("tests/stored/rl");
    let cases = program_cases::cases();
    assert_eq!(fs::read_dir(&stored).unwrap().count(), cases.len());
    for (at, case) in cases.iter().enumerate() {
        for (name, kept) in program_cases::files(case) {
            let place = stored.join(program_cases::folder(at)).join(name);
            let same = match kept {
                Kept::Bytes(bytes) => fs::read(place).ok() == Some(bytes),
                Kept::Nothing => !place.exists(),
                Kept::Folder => place.is_dir(),
            };
            assert!(same, "case {at}, {name}");
        }
    }
}
