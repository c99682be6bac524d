//! docs/RULED-OUT.md names every edit that must be refused, and no other.

use std::collections::BTreeSet;
use std::fs;
use std::path::Path;

use checks::examples::{quoted, repository};

/// The names of the folders or files of a folder.
fn entries(folder: &Path) -> Vec<String> {
    let Ok(found) = fs::read_dir(folder) else {
        return Vec::new();
    };
    let names = found.map(|entry| entry.unwrap().file_name().into_string().unwrap());
    names.collect()
}

/// The edits of a folder, without their ending.
fn edits(folder: &Path) -> Vec<String> {
    let names = entries(folder);
    let stems = names.iter().filter_map(|name| name.strip_suffix(".edit"));
    stems.map(str::to_string).collect()
}

/// The edits of all crates, as CRATE/NAME.
fn must_fail() -> BTreeSet<String> {
    let crates = repository("crates");
    let mut all = BTreeSet::new();
    for name in entries(&crates) {
        let found = edits(&crates.join(&name).join("must-fail"));
        all.extend(found.iter().map(|edit| format!("{name}/{edit}")));
    }
    all
}

/// The edits of the definition.
fn of_the_definition() -> BTreeSet<String> {
    let folder = repository("crates/noninterference/definition-edits");
    let folders = entries(&folder);
    let found = folders.iter().flat_map(|name| edits(&folder.join(name)));
    found.collect()
}

/// Words that have the form of an edit's name: CRATE/NAME in small letters.
fn named(words: &BTreeSet<String>) -> BTreeSet<String> {
    let plain = |part: &str| {
        let letters = |c: char| c.is_ascii_lowercase() || c.is_ascii_digit() || c == '_';
        !part.is_empty() && part.chars().all(letters)
    };
    let edits = words.iter().filter(|word| {
        let parts: Vec<&str> = word.split('/').collect();
        parts.len() == 2 && parts.iter().all(|part| plain(part))
    });
    edits.cloned().collect()
}

#[test]
fn every_edit_is_named() {
    let words = quoted(&fs::read_to_string(repository("docs/RULED-OUT.md")).unwrap());
    assert_eq!(named(&words), must_fail());
    let missing: Vec<_> = of_the_definition().difference(&words).cloned().collect();
    assert!(missing.is_empty(), "{missing:?}");
}

#[test]
fn names_are_told_from_other_words() {
    let words = quoted("| `a/b_2` | `crates/a/b` | `c::d`, `e` |");
    assert_eq!(words.len(), 4);
    assert_eq!(named(&words), BTreeSet::from(["a/b_2".to_string()]));
}
