//! `mksession TEXT FILE` makes the session file of a text; `mksession --back FILE` prints the
//! text of a session file.

use std::{fs, process::ExitCode};

use sessions::command::{arguments, end};
use sessions::text;

/// The two ways to call the program.
const USE: &str = "mksession TEXT FILE\nmksession --back FILE";

/// Reads the arguments and does what they ask.
fn run(arguments: &[String]) -> Result<(), String> {
    match arguments {
        [back, file] if back == "--back" => {
            let bytes = fs::read(file).map_err(|e| format!("{file}: {e}"))?;
            print!("{}", text::from_bytes(&bytes));
            Ok(())
        }
        [source, file] => {
            let source_text = fs::read_to_string(source).map_err(|e| format!("{source}: {e}"))?;
            let bytes = text::to_bytes(&source_text).map_err(|e| format!("{source}: {e}"))?;
            fs::write(file, bytes).map_err(|e| format!("{file}: {e}"))
        }
        _ => Err(USE.into()),
    }
}

/// Says what went wrong, if anything.
fn main() -> ExitCode {
    end(run(&arguments()))
}
