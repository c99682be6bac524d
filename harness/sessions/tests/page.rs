//! `examples/README.md` tells the text form as the parser has it: its lines, keys, values, defaults and
//! names.

use std::path::Path;

use sessions::names::KINDS;
use sessions::text::{lines, to_bytes};
use sessions::words::{told, Default, Told};
use sessions::{reader, Pass};

/// The page.
fn page() -> String {
    let path = Path::new(env!("CARGO_MANIFEST_DIR")).join("../../examples/README.md");
    std::fs::read_to_string(path).unwrap()
}

/// The rows of the page's tables that have so many cells, without head and rule.
fn rows(cells: usize) -> Vec<Vec<String>> {
    let page = page();
    let inner = |line: &str| {
        let inner = line.strip_prefix("| ")?.strip_suffix(" |")?;
        Some(inner.split(" | ").map(str::to_string).collect())
    };
    let all = page.lines().filter_map(inner);
    all.filter(|row: &Vec<String>| row.len() == cells).collect()
}

/// A key as a row of the page.
fn row(key: &Told) -> Vec<String> {
    let default = match &key.default {
        Default::Value(value) => format!("`{value}`"),
        Default::Words(words) => words.to_string(),
    };
    let (line, name) = (format!("`{}`", key.line), format!("`{}`", key.key));
    vec![line, name, key.values.to_string(), default]
}

#[test]
fn every_key_has_its_row_and_no_other_row_is_there() {
    let expected: Vec<Vec<String>> = told().iter().map(row).collect();
    let mut found = rows(4);
    let head = found.remove(0);
    assert_eq!(head, ["Line", "Key", "Values", "Where it is not written"]);
    assert_eq!(found, expected);
}

#[test]
fn every_line_and_every_kind_of_name_has_its_row() {
    let two = rows(2);
    let known: Vec<&str> = two.iter().map(|row| row[0].trim_matches('`')).collect();
    for line in lines() {
        assert!(known.contains(&line), "{line}");
    }
    for kind in KINDS {
        let named = kind.words.iter();
        let words: Vec<String> = named.map(|(n, word)| format!("`{word}` {n}")).collect();
        let expected = vec![kind.name.to_string(), words.join(", ")];
        assert!(two.contains(&expected), "{expected:?}");
    }
}

#[test]
fn the_pages_example_is_a_session_of_three_passes() {
    let page = page();
    let block: Vec<&str> = page
        .lines()
        .filter_map(|line| line.strip_prefix("    "))
        .collect();
    let session = reader::read(&to_bytes(&block.join("\n")).unwrap()).unwrap();
    assert_eq!(session.passes.len(), 3);
    let fits = |pass: &Pass| reader::pass_fits(&session, pass);
    assert!(session.passes.iter().all(fits));
}

/// A text whose last line has this first word.
fn ending_with(line: &str) -> String {
    let before = match line {
        "depth-stencil" | "colour" => "texture\nview\npass\n",
        "depth" | "stencil" => "texture\nview\npass\ndepth-stencil\n",
        _ => "",
    };
    format!("{before}{line}")
}

#[test]
fn a_default_that_is_written_changes_nothing() {
    let mut tried = 0;
    for key in told() {
        if let Default::Value(value) = &key.default {
            let without = ending_with(key.line);
            let with = format!("{without} {}={value}", key.key);
            assert_eq!(to_bytes(&with), to_bytes(&without), "{with}");
            tried += 1;
        }
    }
    assert!(tried > 25, "{tried}");
}

#[test]
fn other_keys_are_refused() {
    for line in lines().filter(|line| !["again", "length", "raw", "bytes"].contains(line)) {
        let wrong = to_bytes(&format!("{} other=1", ending_with(line))).unwrap_err();
        assert!(wrong.ends_with("no such key: other"), "{line}: {wrong}");
    }
    let wrong = to_bytes("session total=40").unwrap_err();
    assert_eq!(wrong, "line 1: no such key: total");
}
