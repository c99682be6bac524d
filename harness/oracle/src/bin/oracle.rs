//! `oracle FILE` prints what the Rust answers to a session file: every field of every reply,
//! the lists after each pass, and the status bytes after each submission.

use std::{fs, process::ExitCode};

use sessions::reply::full_text;

/// Prints the answers to the file.
fn main() -> ExitCode {
    let arguments: Vec<String> = std::env::args().skip(1).collect();
    let [file] = arguments.as_slice() else {
        eprintln!("oracle FILE");
        return ExitCode::FAILURE;
    };
    match fs::read(file) {
        Ok(bytes) => print!("{}", full_text(&oracle::run(&bytes))),
        Err(wrong) => {
            eprintln!("{file}: {wrong}");
            return ExitCode::FAILURE;
        }
    }
    ExitCode::SUCCESS
}
