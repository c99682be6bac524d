//! `measure` times the proved rearrangement and a plain Rust one on the same bytes, in one run, in
//! turns, and prints a table of times with their ratios. Built without optimisation it refuses to.
//! `measure --files FOLDER` writes two sessions of a hundred nearly equal passes.

mod hundred;
#[path = "../../../../runs/src/bin/bench/timing.rs"]
mod timing;

use std::fs;
use std::hint::black_box;
use std::path::Path;
use std::process::ExitCode;

use columns::layout::*;
use columns::{to_columns, to_rows};
use sessions::command::{arguments, end};

use timing::{machine, pair, print_head, print_row, Pair};

/// What the numbers are measured on and of.
const ABOUT: &str = "\
The least of 21 rounds of at least 2 ms; the two sides take turns, round by round, in one run.
ours: the proved library's C functions.
Rust: two nested loops over slices of the exact length; it does no test of ours.
ratio: the Rust's time by ours; over 1 means that ours is faster.
";

/// Numbers of passes that are timed.
const PASSES: [u32; 3] = [1, 10, MAX_PASSES];

/// r rows of c bytes, column by column.
fn transpose(src: &[u8], r: usize, c: usize, out: &mut [u8]) {
    let src = &src[..r * c];
    let out = &mut out[..r * c];
    for j in 0..c {
        for i in 0..r {
            out[j * r + i] = src[i * c + j];
        }
    }
}

/// The times of both sides on the first passes of a part, which give the same.
fn times(
    passes: u32,
    part: &[u8],
    ours: impl Fn(u32, &[u8], &mut [u8]) -> Result<(), u32>,
    rust: impl Fn(usize, &[u8], &mut [u8]),
) -> Pair {
    let n = passes as usize;
    let part = &part[..n * PASS_LEN];
    let (mut by_ours, mut by_rust) = (vec![0; part.len()], vec![0; part.len()]);
    let pair = pair(
        1,
        || ours(black_box(passes), black_box(part), black_box(&mut by_ours)).expect("a part"),
        || rust(black_box(n), black_box(part), black_box(&mut by_rust)),
    );
    assert!(by_ours == by_rust);
    pair
}

/// The pass part of a file.
fn pass_part(file: &[u8]) -> &[u8] {
    &file[file.len() - MAX_PASSES as usize * PASS_LEN..]
}

/// Prints the times of both ways.
fn print_times() -> Result<(), String> {
    if cfg!(debug_assertions) {
        return Err("build with --release".into());
    }
    let file = hundred::nearly_equal().to_bytes();
    let part = pass_part(&file);
    print!("{}{ABOUT}", machine());
    print_head("To columns");
    for n in PASSES {
        let rust = |n: usize, rows: &[u8], out: &mut [u8]| transpose(rows, n, PASS_LEN, out);
        print_row(&counted(n), times(n, part, to_columns, rust));
    }
    print_head("Back to rows");
    for n in PASSES {
        let rust = |n: usize, columns: &[u8], out: &mut [u8]| transpose(columns, PASS_LEN, n, out);
        print_row(&counted(n), times(n, part, to_rows, rust));
    }
    Ok(())
}

/// A number of passes, and their bytes.
fn counted(passes: u32) -> String {
    let bytes = passes as usize * PASS_LEN;
    format!("passes {passes}, bytes {bytes}")
}

/// Writes the sessions of a hundred passes.
fn write_files(folder: &str) -> Result<(), String> {
    for (name, session) in [
        ("nearly-equal.session", hundred::nearly_equal()),
        ("fading.session", hundred::fading()),
    ] {
        let path = Path::new(folder).join(name);
        fs::write(&path, session.to_bytes())
            .map_err(|wrong| format!("{}: {wrong}", path.display()))?;
    }
    Ok(())
}

/// Does what the words ask for.
fn run(arguments: &[String]) -> Result<(), String> {
    let words: Vec<&str> = arguments.iter().map(String::as_str).collect();
    match words[..] {
        [] => print_times(),
        ["--files", folder] => write_files(folder),
        _ => Err("measure [--files FOLDER]".into()),
    }
}

fn main() -> ExitCode {
    end(run(&arguments()))
}
