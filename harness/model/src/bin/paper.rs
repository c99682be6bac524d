//! `paper FILE` prints the lines of `deskcheck` for a session file, by the model;
//! `paper --full FILE` prints every field of every reply.

use std::{fs, process::ExitCode};

use sessions::reply::full_text;

/// Prints the answers to the file.
fn main() -> ExitCode {
    let arguments: Vec<String> = std::env::args().skip(1).collect();
    let (full, file) = match arguments.as_slice() {
        [file] => (false, file),
        [full, file] if full == "--full" => (true, file),
        _ => {
            eprintln!("paper [--full] FILE");
            return ExitCode::FAILURE;
        }
    };
    match fs::read(file) {
        Ok(bytes) if full => print!("{}", full_text(&model::run(&bytes))),
        Ok(bytes) => print!("{}", model::deskcheck(&bytes)),
        Err(wrong) => {
            eprintln!("{file}: {wrong}");
            return ExitCode::FAILURE;
        }
    }
    ExitCode::SUCCESS
}
