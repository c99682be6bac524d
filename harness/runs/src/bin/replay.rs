//! `replay FILE` replays a list of sessions with the Rust's answers through the proved library, and
//! prints how many agree.

use std::process::ExitCode;

use checks::answers::{from_bytes, replay};
use desk::Library;
use runs::{arguments, end};

/// Replays the list of a file.
fn run(arguments: &[String]) -> Result<(), String> {
    let [file] = arguments else {
        return Err("replay FILE".into());
    };
    let bytes = std::fs::read(file).map_err(|wrong| format!("{file}: {wrong}"))?;
    let records = from_bytes(&bytes).ok_or("the list is cut off")?;
    let agree = records.iter().filter(|r| replay(&Library, r) == r.words);
    let agree = agree.count();
    println!("{agree} of {} agree", records.len());
    if agree == records.len() {
        Ok(())
    } else {
        Err("not all agree".into())
    }
}

fn main() -> ExitCode {
    end(run(&arguments()))
}
