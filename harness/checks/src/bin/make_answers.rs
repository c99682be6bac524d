//! `make-answers OUT [--seed S] [--sessions N]` writes the list of sessions with the Rust's answers
//! that a Rattle program replays. Without the two words it makes the committed list again.

use std::process::ExitCode;

use checks::answers::{list, to_bytes, SEED, SESSIONS};
use checks::words::{only, value};
use sessions::command::{arguments, end};

/// Makes the list and writes it.
fn run(arguments: &[String]) -> Result<(), String> {
    let (out, rest) = arguments
        .split_first()
        .filter(|(out, _)| !out.starts_with("--"))
        .ok_or("make-answers OUT [--seed S] [--sessions N]")?;
    only(rest, &["--seed", "--sessions"], &[])?;
    let seed = value(rest, "--seed", SEED)?;
    let records = list(seed, value(rest, "--sessions", SESSIONS)?);
    let bytes = to_bytes(&records);
    std::fs::write(out, &bytes).map_err(|wrong| format!("{out}: {wrong}"))?;
    println!("seed {seed}");
    println!("sessions {}", records.len());
    println!("bytes {}", bytes.len());
    Ok(())
}

/// Reads the arguments.
fn main() -> ExitCode {
    end(run(&arguments()))
}
