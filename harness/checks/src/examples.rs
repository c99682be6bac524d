//! The files of `examples/`, and tables of `docs/`.

use std::collections::BTreeSet;
use std::fs;
use std::path::{Path, PathBuf};

pub use compare::examples::{files, name as stem};
use sessions::names::FORMAT;

/// A file or folder of the repository.
pub fn repository(path: &str) -> PathBuf {
    Path::new(env!("CARGO_MANIFEST_DIR"))
        .join("../..")
        .join(path)
}

/// Every example session by name.
pub fn sessions() -> Vec<(String, Vec<u8>)> {
    files("session").iter().map(|path| named(path)).collect()
}

/// A file's name without its ending, and its bytes.
fn named(path: &Path) -> (String, Vec<u8>) {
    let bytes = fs::read(path).expect("a readable example");
    (stem(path), bytes)
}

/// The file of the example that shows a number.
pub fn file_of_number(number: u32) -> Option<PathBuf> {
    let wanted = format!("refusal-{number}");
    files("session").into_iter().find(|f| stem(f) == wanted)
}

/// The example that shows a number.
pub fn of_number(number: u32) -> Option<Vec<u8>> {
    file_of_number(number).map(|file| named(&file).1)
}

/// Every number that the code can answer: those of files, and 6.
pub fn numbers() -> Vec<u32> {
    let mut all = compare::numbers_of_files();
    all.push(6);
    all.sort_unstable();
    all
}

/// What stands between backquotes in a text, line by line.
pub fn quoted(text: &str) -> BTreeSet<String> {
    let words = text
        .lines()
        .flat_map(|line| line.split('`').skip(1).step_by(2));
    words.map(str::to_string).collect()
}

/// The number and the name of each format whose number is asked for, in document 01's order.
pub fn formats(asked: fn(u32) -> bool) -> Vec<(String, String)> {
    let words = FORMAT.words.iter().filter(|(number, _)| asked(*number));
    words
        .map(|(n, name)| (n.to_string(), name.to_string()))
        .collect()
}

/// A row of the table of refusals.
#[derive(Debug)]
pub struct Row {
    pub number: u32,
    pub means: String,
    pub clause: String,
    pub example: String,
    pub change: String,
}

/// The rows of the table in a text: lines of five cells, the first a number.
pub fn table(text: &str) -> Vec<Row> {
    text.lines().filter_map(row).collect()
}

/// The cells of a table's row, if the line is one of N cells.
pub fn cells<const N: usize>(line: &str) -> Option<[String; N]> {
    let inner = line.trim().strip_prefix('|')?.strip_suffix('|')?;
    let cells: Vec<String> = inner.split('|').map(|cell| cell.trim().into()).collect();
    cells.try_into().ok()
}

/// The row that a line holds, if it does.
fn row(line: &str) -> Option<Row> {
    let [number, means, clause, example, change] = cells(line)?;
    Some(Row {
        number: number.parse().ok()?,
        means,
        clause,
        example,
        change,
    })
}
