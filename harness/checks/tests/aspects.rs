//! The table of aspects in docs/DEFINITION.md: its formats are document 01's in W3C's order, and its
//! answers are the Rust's.

use std::fs;

use checks::examples::{cells, formats, repository};
use sessions::names::FORMAT;
use sessions::text;

/// A row: the format and its aspects in W3C's words, its number, what it has, and what a pass is
/// answered that clears and stores both.
#[derive(Debug)]
struct Row {
    format: String,
    aspects: String,
    number: String,
    depth: bool,
    stencil: bool,
    answer: u32,
}

/// The row that a line holds, if it does: six cells, the last a number.
fn row(line: &str) -> Option<Row> {
    let [format, aspects, number, depth, stencil, answer] = cells(line)?;
    Some(Row {
        format,
        aspects,
        number,
        depth: depth == "yes",
        stencil: stencil == "yes",
        answer: answer.parse().ok()?,
    })
}

/// The rows of the page.
fn written() -> Vec<Row> {
    let text = fs::read_to_string(repository("docs/DEFINITION.md")).unwrap();
    text.lines().filter_map(row).collect()
}

/// What the Rust answers a pass that clears and stores both aspects of a view of this format.
fn told(format: &str) -> u32 {
    let channels =
        "depth load=clear store=store clear=0.0\nstencil load=clear store=store clear=0\n";
    let pass = format!("texture format={format}\nview\npass\ndepth-stencil view=0\n{channels}");
    let bytes = text::to_bytes(&pass).unwrap();
    oracle::run(&bytes).unwrap()[0].reply.refusal
}

#[test]
fn the_rows_are_the_formats_from_20_on_and_one_for_all_others() {
    let rows = written();
    let (other, listed) = rows.split_last().unwrap();
    let rows = listed
        .iter()
        .map(|row| (row.number.clone(), row.format.clone()));
    assert_eq!(rows.collect::<Vec<_>>(), formats(|number| number >= 20));
    assert_eq!(other.format, "any other");
}

#[test]
fn each_format_is_answered_as_its_row_says() {
    let rows = written();
    for (_, name) in FORMAT.words {
        let own = rows.iter().find(|row| row.format == *name);
        let row = own.or(rows.last()).unwrap();
        assert_eq!(told(name), row.answer, "{name}");
    }
}

#[test]
fn the_columns_say_the_same() {
    for row in written() {
        assert_eq!(row.depth, row.aspects.contains("depth"), "{row:?}");
        assert_eq!(row.stencil, row.aspects.contains("stencil"), "{row:?}");
        let answer = match (row.depth, row.stencil) {
            (true, true) => 0,
            (false, true) => 25,
            (true, false) => 26,
            (false, false) => 13,
        };
        assert_eq!(row.answer, answer, "{row:?}");
    }
}
