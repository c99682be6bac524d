//! `fuzz [--inputs N] [--seed S] [--trace FOLDER]` changes inputs of the C functions at random.
//! Guard bytes stand around every buffer; the answers are the model's, and a refusal leaves every
//! byte. A crash ends the program; `--trace` writes each input to the folder before it is run.

use std::fs;
use std::path::Path;
use std::process::ExitCode;

use checks::examples;
use checks::fuzz::Fuzzer;
use checks::mutate::Input;
use checks::words::{only, text, value, Progress};
use desk::Library;
use runs::{arguments, end};

/// Writes an input's parts into a folder, over those of the input before.
fn trace(folder: &str, input: &Input) -> Result<(), String> {
    let (function, surface) = (input.function, input.surface);
    let call = format!("{function:?} {} {} {surface}", input.pass, input.rows);
    let parts: [(&str, &[u8]); 6] = [
        ("call", call.as_bytes()),
        ("session", &input.session),
        ("discards", &input.lists.discards),
        ("actions", &input.lists.actions),
        ("clears", &input.lists.clears),
        ("status", &input.lists.status),
    ];
    for (name, bytes) in parts {
        let path = Path::new(folder).join(name);
        fs::write(&path, bytes).map_err(|wrong| format!("{}: {wrong}", path.display()))?;
    }
    Ok(())
}

/// Runs the inputs that the arguments ask for.
fn run(arguments: &[String]) -> Result<(), String> {
    only(arguments, &["--inputs", "--seed", "--trace"], &[])?;
    let inputs = value(arguments, "--inputs", 100_000)?;
    let seed = value(arguments, "--seed", 9)?;
    let folder = text(arguments, "--trace");
    let sessions: Vec<Vec<u8>> = examples::sessions().into_iter().map(|(_, b)| b).collect();
    let mut fuzzer = Fuzzer::new(&Library, seed, &sessions);
    let mut progress = Progress::new("inputs", inputs);
    for number in 1..=inputs {
        let input = fuzzer.choose();
        if let Some(folder) = &folder {
            trace(folder, &input)?;
        }
        fuzzer.run(input)?;
        progress.at(number);
    }
    println!("seed {seed}");
    print!("{}", fuzzer.seen);
    println!("no crash, nothing written outside the lent buffers, no refusal that changed a byte");
    Ok(())
}

fn main() -> ExitCode {
    end(run(&arguments()))
}
