//! `compare --seed S --passes N` compares the Rust with the model on random sessions and prints
//! what it has seen; `compare --enumerated` does so on the systematic sets. Ends with an error
//! at the first difference.

use std::process::ExitCode;

use compare::{enumerated_run, random_run, Counts};
use sessions::command::{arguments, end};

/// The two ways to call the program.
const USE: &str = "compare --seed S --passes N\ncompare --enumerated";

/// Reads the arguments and runs what they ask.
fn run(arguments: &[String]) -> Result<Counts, String> {
    let words: Vec<&str> = arguments.iter().map(String::as_str).collect();
    let number = |word: &str| word.parse().map_err(|_| format!("not a number: {word}"));
    match words[..] {
        ["--seed", seed, "--passes", passes] => random_run(number(seed)?, number(passes)?),
        ["--enumerated"] => enumerated_run(),
        _ => Err(USE.into()),
    }
}

/// Prints the counts, or the first difference.
fn main() -> ExitCode {
    end(run(&arguments()).map(|counts| {
        print!("{counts}");
        println!("no difference");
    }))
}
