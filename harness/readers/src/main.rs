//! `readers --damaged N --seed S` holds the library's refusal of a session to the harness's own
//! reader: on the systematic short byte strings, on files longer than any session, and on
//! N damaged sessions. Ends with an error at the first difference.

use std::process::ExitCode;

use checks::readers::{damaged, long_files, short_strings, ByNumber};
use checks::words::{only, value, Progress};
use sessions::command::{arguments, end};

/// Prints what a set has seen.
fn print(what: &str, seen: &ByNumber) {
    println!("{what}: {}", seen.values().sum::<u64>());
    for (number, count) in seen {
        println!("  number {number}: {count}");
    }
}

/// Runs the three sets.
fn run(arguments: &[String]) -> Result<(), String> {
    only(arguments, &["--damaged", "--seed"], &[])?;
    let files = value(arguments, "--damaged", 1_000_000)?;
    let seed = value(arguments, "--seed", 6)?;
    print(
        "short byte strings",
        &short_strings(&desk::session_refusal)?,
    );
    print("long files", &long_files(&desk::session_refusal)?);
    let mut progress = Progress::new("damaged sessions", files);
    let seen = damaged(&desk::session_refusal, seed, files, &mut |n| progress.at(n))?;
    print(&format!("damaged sessions, seed {seed}"), &seen);
    println!("no difference");
    Ok(())
}

/// Reads the arguments.
fn main() -> ExitCode {
    end(run(&arguments()))
}
