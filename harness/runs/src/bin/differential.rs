//! `differential [--seed S] [--passes N] [--enumerated]` compares the proved library with the Rust,
//! and with the model where the Rust tells nothing: every field of every reply, every byte of the
//! lent buffers, whole sessions, again on buffers that are short or off by one, and places of
//! surfaces. Random files until there are N passes; `--enumerated` adds the systematic sets. Ends
//! with an error at the first difference.

use std::process::ExitCode;

use checks::differential::{enumerated_run, random_run, Tally};
use checks::words::{only, value, Progress};
use desk::Library;
use runs::{arguments, end};

/// Passes of all systematic sets together, for the progress.
const ENUMERATED: u64 = 107_888;

/// Prints what a run has seen.
fn print(what: &str, tally: &Tally) {
    println!("{what}");
    print!("{tally}");
    println!("no difference");
}

/// Runs what the arguments ask.
fn run(arguments: &[String]) -> Result<(), String> {
    only(arguments, &["--seed", "--passes"], &["--enumerated"])?;
    let seed = value(arguments, "--seed", 9)?;
    let passes = value(arguments, "--passes", 20_000)?;
    if arguments.iter().any(|word| word == "--enumerated") {
        let mut progress = Progress::new("enumerated passes", ENUMERATED);
        let tally = enumerated_run(&Library, seed, 1, &mut |n| progress.at(n))?;
        print("systematic sets", &tally);
    }
    let mut progress = Progress::new("random passes", passes);
    let tally = random_run(&Library, seed, passes, &mut |n| progress.at(n))?;
    print(&format!("random sessions, seed {seed}"), &tally);
    Ok(())
}

fn main() -> ExitCode {
    end(run(&arguments()))
}
