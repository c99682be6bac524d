//! Every number has its example and its row in docs/REFUSALS.md.

use std::collections::BTreeSet;
use std::fs;

use checks::examples::{files, numbers, of_number, quoted, repository, stem, table};

/// The table's text.
fn refusals() -> String {
    fs::read_to_string(repository("docs/REFUSALS.md")).unwrap()
}

#[test]
fn each_number_has_one_row_without_an_empty_cell() {
    let rows = table(&refusals());
    let told: Vec<u32> = rows.iter().map(|row| row.number).collect();
    let distinct: BTreeSet<u32> = told.iter().copied().collect();
    assert_eq!(told.len(), distinct.len(), "a number twice");
    assert_eq!(distinct, numbers().into_iter().collect());
    for row in rows {
        let cells = [&row.means, &row.clause, &row.example, &row.change];
        assert!(cells.iter().all(|cell| !cell.is_empty()), "{row:?}");
    }
}

#[test]
fn each_row_names_its_example_and_the_example_gives_the_number() {
    for row in table(&refusals()) {
        if row.number == 6 {
            assert!(row.example.starts_with("none"), "{row:?}");
            continue;
        }
        let named = quoted(&row.example);
        let own = format!("refusal-{}", row.number);
        assert!(named.contains(&own), "{row:?}");
        for name in named {
            let file = files("session").into_iter().find(|f| stem(f) == name);
            let bytes = fs::read(file.expect(&name)).unwrap();
            let printed = model::deskcheck(&bytes);
            let last = printed.lines().last().unwrap();
            let number: u32 = last.split(' ').nth(1).unwrap().parse().unwrap();
            assert_eq!(number, row.number, "{printed}");
        }
    }
}

#[test]
fn each_example_of_a_refusal_is_named_and_so_are_those_of_the_order() {
    let text = refusals();
    let named = quoted(&text);
    let made: Vec<String> = files("session").iter().map(|file| stem(file)).collect();
    for name in made.iter().filter(|name| name.starts_with("refusal-")) {
        assert!(named.contains(name), "{name}");
    }
    let of_the_order = named.iter().filter(|name| name.starts_with("corner-"));
    for name in of_the_order {
        assert!(made.contains(name), "{name}");
    }
}

#[test]
fn a_table_with_a_row_missing_or_cut_is_seen() {
    assert_eq!(
        table("| 7 | a | b | c | d |\n| 8 | a | b |\nno row").len(),
        1
    );
    assert!(table("| No. | Means | W3C | Example | Change |").is_empty());
    assert!(of_number(7).is_none());
}
