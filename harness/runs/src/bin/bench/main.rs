//! `bench [--plots FOLDER]` times the proved library and the Rust on the same sessions, in one run,
//! in turns, and prints tables of times with their ratios. `--plots` writes the growth as SVG.
//! Built without optimisation it refuses to run.

mod cases;
mod plot;
mod timing;

use std::fs;
use std::path::Path;
use std::process::ExitCode;

use checks::words::{only, text};
use runs::{arguments, end};

use cases::{first_passes, growths, judged_passes, reading, single_passes, whole_sessions, Growth};
use timing::{machine, print_head, print_row, Pair};

/// What the numbers are measured on and of.
const ABOUT: &str = "\
The least of 21 rounds of at least 2 ms; the two sides take turns, round by round, in one run.
ours: the proved library's C functions. Rows and lent lists are allocated once; lists are cleared
  (counts and status 0) and not fresh, except that deskcheck_session makes its own fresh ones.
Rust: the functions of docs/src with the harness's stand-ins; it reads the same bytes with the reader
  of harness/sessions, allocates its resources and lists, and records what its encoder is told. It
  does no test of ours: 5, 49 and 50. Of a discarded view it lists the first layer alone.
ratio: the Rust's time by ours; over 1 means that ours is faster.
";

/// Prints a growth, and writes its plot where a folder is given.
fn show(growth: &Growth, folder: Option<&str>) -> Result<(), String> {
    let points: Vec<(u32, Pair)> = (growth.points)();
    print_head(growth.title);
    for (at, pair) in &points {
        print_row(&format!("{at} {}", growth.unit), *pair);
    }
    let Some(folder) = folder else {
        return Ok(());
    };
    let path = Path::new(folder).join(format!("{}.svg", growth.name));
    let drawn = plot::draw(growth.title, growth.unit, &points);
    fs::write(&path, drawn).map_err(|wrong| format!("{}: {wrong}", path.display()))
}

/// Runs all tables.
fn run(arguments: &[String]) -> Result<(), String> {
    only(arguments, &["--plots"], &[])?;
    if cfg!(debug_assertions) {
        return Err("build with --release".into());
    }
    let folder = text(arguments, "--plots");
    if let Some(folder) = &folder {
        fs::create_dir_all(folder).map_err(|wrong| format!("{folder}: {wrong}"))?;
    }
    print!("{}{ABOUT}", machine());
    print_head("Whole sessions: read, judge, submit");
    whole_sessions().for_each(|(name, pair)| print_row(&name, pair));
    print_head("A pass of a session that is read once (ours) or held (Rust)");
    judged_passes().for_each(|(name, pair)| print_row(&name, pair));
    print_head("One pass from the file's bytes: the session read, the pass judged on empty lists");
    first_passes().for_each(|(name, pair)| print_row(&name, pair));
    print_head("Single calls: session and lent lists tested again each time (ours) or held (Rust)");
    single_passes().for_each(|(name, pair)| print_row(&name, pair));
    print_head("Reading only: the session's refusal");
    for (name, bytes, pair) in reading() {
        print_row(&name, pair);
        let speed = |time: f64| bytes as f64 * 1_000.0 / time;
        let (ours, rust) = (speed(pair.ours), speed(pair.rust));
        println!("{:<44} {ours:>7.0} MB/s {rust:>7.0} MB/s", "");
    }
    growths()
        .iter()
        .try_for_each(|g| show(g, folder.as_deref()))
}

fn main() -> ExitCode {
    end(run(&arguments()))
}
