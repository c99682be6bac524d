//! What docs/DIFFERENCES.md says is laxer than W3C: each row names an example, and none is refused as a
//! session.

use std::collections::BTreeSet;
use std::fs;

use checks::examples::{quoted, repository, sessions};

/// The names of the examples of this kind.
const OF_THIS_KIND: &str = "laxer-";

/// The examples that the page names in its rows.
fn named() -> BTreeSet<String> {
    let text = fs::read_to_string(repository("docs/DIFFERENCES.md")).unwrap();
    let rows: Vec<&str> = text.lines().filter(|line| line.starts_with('|')).collect();
    let words = quoted(&rows.join("\n"));
    let kind = words
        .into_iter()
        .filter(|word| word.starts_with(OF_THIS_KIND));
    kind.collect()
}

#[test]
fn each_row_has_its_example_and_each_example_its_row() {
    let made = sessions().into_iter().map(|(name, _)| name);
    let made: BTreeSet<String> = made.filter(|name| name.starts_with(OF_THIS_KIND)).collect();
    assert!(made.len() > 5, "{made:?}");
    assert_eq!(named(), made);
}

#[test]
fn none_is_refused_as_a_session() {
    for (name, bytes) in sessions() {
        if name.starts_with(OF_THIS_KIND) {
            assert!(sessions::reader::read(&bytes).is_ok(), "{name}");
            assert!(model::run(&bytes).is_ok(), "{name}");
        }
    }
}
