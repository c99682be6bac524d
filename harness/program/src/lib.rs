//! Runs the proved programs: a file on standard input, what is made of it on standard output.

use std::fs::File;
use std::io::Write;
use std::path::PathBuf;
use std::process::{Command, Stdio};
use std::thread;

use checks::examples::repository;

/// Where `tools/program.sh` puts the programs. tools/run.sh runs deskcheck from there.
const PROGRAMS: &str = "target/bin";

/// A program; it must be there.
fn program(name: &str) -> PathBuf {
    let path = repository(PROGRAMS).join(name);
    assert!(
        path.is_file(),
        "{PROGRAMS}/{name} is missing: run tools/program.sh {name} first"
    );
    path
}

/// What a program writes for a file on standard input.
fn output(name: &str, bytes: &[u8]) -> Vec<u8> {
    let mut command = Command::new(program(name));
    command.stdin(Stdio::piped()).stdout(Stdio::piped());
    let mut child = command.spawn().expect("the program starts");
    let mut input = child.stdin.take().expect("a pipe");
    let done = thread::scope(|scope| {
        // A program that has read enough may close its input before all is written.
        scope.spawn(move || input.write_all(bytes).is_ok());
        child.wait_with_output().expect("the program ends")
    });
    assert!(done.status.success(), "{}", done.status);
    done.stdout
}

/// What a program writes to standard output and to standard error, between these two files.
pub fn between(name: &str, input: File, output: Stdio) -> (Vec<u8>, String) {
    let mut command = Command::new(program(name));
    command.stdin(input).stdout(output).stderr(Stdio::piped());
    let done = command.spawn().expect("the program starts");
    let done = done.wait_with_output().expect("the program ends");
    (done.stdout, String::from_utf8(done.stderr).expect("text"))
}

/// The lines that `deskcheck` prints.
pub fn deskcheck(bytes: &[u8]) -> String {
    String::from_utf8(output("deskcheck", bytes)).expect("text")
}

/// The file that `to_columns` writes.
pub fn to_columns(bytes: &[u8]) -> Vec<u8> {
    output("to_columns", bytes)
}

/// The file that `to_rows` writes.
pub fn to_rows(bytes: &[u8]) -> Vec<u8> {
    output("to_rows", bytes)
}
