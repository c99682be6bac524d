//! Times of two sides, taken in turns, and the tables of them. `harness/columns` times with it, too.

use std::fs;
use std::time::{Duration, Instant};

/// Nanoseconds of one unit of work, by ours and by the Rust.
#[derive(Clone, Copy, Debug)]
pub struct Pair {
    pub ours: f64,
    pub rust: f64,
}

/// Shortest time of one round.
const ROUND: Duration = Duration::from_millis(2);
/// Rounds of each side.
const ROUNDS: usize = 21;

/// The least times of both sides, each call being so many units of work. Other work on the machine
/// only ever adds to a time.
pub fn pair(units: usize, mut ours: impl FnMut(), mut rust: impl FnMut()) -> Pair {
    let calls = (calls_of(&mut ours), calls_of(&mut rust));
    let mut times = (Vec::new(), Vec::new());
    for _ in 0..ROUNDS {
        times.0.push(time(calls.0, &mut ours));
        times.1.push(time(calls.1, &mut rust));
    }
    let per_unit = |times: Vec<Duration>, calls: u32| {
        least(times).as_nanos() as f64 / f64::from(calls) / units as f64
    };
    Pair {
        ours: per_unit(times.0, calls.0),
        rust: per_unit(times.1, calls.1),
    }
}

/// How many calls fill a round.
fn calls_of(work: &mut impl FnMut()) -> u32 {
    let mut calls = 1;
    while time(calls, work) < ROUND {
        calls *= 2;
    }
    calls
}

/// The time of so many calls.
fn time(calls: u32, work: &mut impl FnMut()) -> Duration {
    let start = Instant::now();
    (0..calls).for_each(|_| work());
    start.elapsed()
}

/// The least one.
fn least(times: Vec<Duration>) -> Duration {
    times.into_iter().min().unwrap_or_default()
}

/// The machine, as far as Linux tells it.
pub fn machine() -> String {
    let first = |path: &str, start: &str| {
        let text = fs::read_to_string(path).unwrap_or_default();
        let line = text.lines().find(|line| line.starts_with(start));
        line.unwrap_or("unknown").to_string()
    };
    format!(
        "{}\nload average {}\n",
        first("/proc/cpuinfo", "model name"),
        first("/proc/loadavg", "")
    )
}

/// Prints the head of a table.
pub fn print_head(title: &str) {
    println!("\n{title}");
    println!("{:<44} {:>12} {:>12} {:>8}", "", "ours", "Rust", "ratio");
}

/// Prints a row of a table.
pub fn print_row(name: &str, pair: Pair) {
    println!(
        "{name:<44} {:>9.0} ns {:>9.0} ns {:>8.2}",
        pair.ours,
        pair.rust,
        pair.rust / pair.ours
    );
}
