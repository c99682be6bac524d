//! Where reading or writing fails, a line on standard error says so, and nothing is written.

use std::fs::File;
use std::process::Stdio;

use checks::examples::repository;
use program::between;

/// The programs that take one file.
const PROGRAMS: [&str; 3] = ["deskcheck", "to_columns", "to_rows"];

/// A file of the repository, opened.
fn opened(path: &str) -> File {
    File::open(repository(path)).expect("it is there")
}

#[test]
fn a_folder_is_not_read() {
    for name in PROGRAMS {
        let (written, said) = between(name, opened("examples"), Stdio::piped());
        assert_eq!(written, [], "{name}");
        assert!(said.starts_with("standard input: "), "{name}: {said}");
    }
}

#[test]
fn a_full_device_is_told() {
    for name in PROGRAMS {
        let full = File::create("/dev/full").expect("it is there");
        let (_, said) = between(name, opened("examples/first.session"), full.into());
        assert!(said.starts_with("standard output: "), "{name}: {said}");
    }
}
