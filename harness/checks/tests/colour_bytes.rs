//! The table of colour bytes in docs/DEFINITION.md: its formats are document 01's in W3C's order, and
//! its sums are those that the Rust's pass accepts at their limit and refuses below it.

use std::fs;

use checks::examples::{cells, formats, repository};
use sessions::text;

/// A row: the format in W3C's words, its number, its cost and alignment, and the sum after one byte.
#[derive(Debug)]
struct Row {
    format: String,
    number: String,
    cost: u32,
    alignment: u32,
    after_one: u32,
}

/// The row that a line holds, if it does: five cells, the last three numbers.
fn row(line: &str) -> Option<Row> {
    let [format, number, cost, alignment, after_one] = cells(line)?;
    Some(Row {
        format,
        number,
        cost: cost.parse().ok()?,
        alignment: alignment.parse().ok()?,
        after_one: after_one.parse().ok()?,
    })
}

/// The rows of the page.
fn written() -> Vec<Row> {
    let text = fs::read_to_string(repository("docs/DEFINITION.md")).unwrap();
    text.lines().filter_map(row).collect()
}

/// What a pass with colours of these formats is answered under a limit.
fn told(limit: u32, formats: &[&str]) -> u32 {
    let mut rows = format!("session colour-bytes={limit}\n");
    let mut slots = String::from("pass\n");
    for (slot, format) in formats.iter().enumerate() {
        rows += &format!("texture format={format}\nview texture={slot}\n");
        slots += &format!("colour view={slot} load=clear\n");
    }
    let bytes = text::to_bytes(&(rows + &slots)).unwrap();
    oracle::run(&bytes).unwrap()[0].reply.refusal
}

#[test]
fn the_rows_are_the_formats_below_20_and_one_for_all_others() {
    let rows = written();
    let (other, listed) = rows.split_last().unwrap();
    let rows = listed
        .iter()
        .map(|row| (row.number.clone(), row.format.clone()));
    assert_eq!(rows.collect::<Vec<_>>(), formats(|number| number < 20));
    assert!(other.format.starts_with("any other"));
}

#[test]
fn each_sum_is_accepted_at_its_limit_and_refused_below_it() {
    let rows = written();
    let (_, listed) = rows.split_last().unwrap();
    for row in listed {
        let format = row.format.as_str();
        assert_eq!(told(row.cost, &[format]), 0, "{row:?}");
        assert_eq!(told(row.after_one, &["r8unorm", format]), 0, "{row:?}");
        assert_eq!(told(row.after_one - 1, &["r8unorm", format]), 51, "{row:?}");
        if row.cost > 1 {
            assert_eq!(told(row.cost - 1, &[format]), 51, "{row:?}");
        }
    }
}

#[test]
fn a_format_that_is_no_colours_adds_nothing() {
    let other = written().pop().unwrap();
    assert_eq!((other.cost, other.alignment, other.after_one), (0, 1, 1));
    for (_, name) in formats(|number| number >= 20) {
        assert_eq!(told(1, &["r8unorm", &name]), 37, "{name}");
    }
}

#[test]
fn the_columns_say_the_same() {
    for row in written() {
        let aligned = 1u32.next_multiple_of(row.alignment);
        assert_eq!(row.after_one, aligned + row.cost, "{row:?}");
    }
}
