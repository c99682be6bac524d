//! The files of `examples/`: each binary is what its text makes, and is answered as its first
//! lines say.

use std::collections::BTreeSet;
use std::fs;
use std::path::{Path, PathBuf};

use compare::examples::{entries, files, folder, folders, name};
use compare::{compare_file, numbers_of_files, Counts};
use sessions::layout::{FLAGS_AT, STRICT};
use sessions::text;

/// The binary of a text: `first` beside it, the others below `sessions` instead of `layers`.
fn binary(text: &Path) -> PathBuf {
    let inner = text.strip_prefix(folder()).unwrap();
    let moved = match inner.strip_prefix("layers") {
        Ok(below) => Path::new("sessions").join(below),
        Err(_) => inner.to_path_buf(),
    };
    folder().join(moved).with_extension("session")
}

/// An example: its name, text and bytes.
struct Example {
    name: String,
    text: String,
    bytes: Vec<u8>,
}

fn examples() -> Vec<Example> {
    let read = |text: &PathBuf| Example {
        name: name(text),
        text: fs::read_to_string(text).unwrap(),
        bytes: fs::read(binary(text)).unwrap(),
    };
    files("layer").iter().map(read).collect()
}

/// The lines that a text says `deskcheck` prints last.
fn expected(text: &str) -> Vec<&str> {
    text.lines().filter_map(|l| l.strip_prefix("#= ")).collect()
}

#[test]
fn each_text_has_its_binary_and_its_own_name() {
    let texts = files("layer");
    let made: Vec<PathBuf> = texts.iter().map(|text| binary(text)).collect();
    assert_eq!(made, files("session"));
    let names: BTreeSet<String> = texts.iter().map(|text| name(text)).collect();
    assert_eq!(names.len(), texts.len(), "a name twice");
    for example in examples() {
        let made = text::to_bytes(&example.text).unwrap();
        assert!(made == example.bytes, "{} is out of date", example.name);
    }
}

#[test]
fn no_folder_has_more_than_two_dozen_entries() {
    for folder in folders() {
        let count = entries(&folder).len();
        assert!(count <= 24, "{}: {count}", folder.display());
    }
}

#[test]
fn each_text_starts_with_an_explanation() {
    for example in examples() {
        let first = example.text.lines().next().unwrap();
        assert!(
            first.starts_with("# ") && first.len() > 20,
            "{}",
            example.name
        );
        assert!(!expected(&example.text).is_empty(), "{}", example.name);
    }
}

#[test]
fn the_model_prints_the_lines_that_each_text_says() {
    for example in examples() {
        let printed = model::deskcheck(&example.bytes);
        let lines: Vec<&str> = printed.lines().collect();
        let expected = expected(&example.text);
        assert!(lines.ends_with(&expected), "{}: {printed}", example.name);
        assert!(lines.len() <= 5 || example.name != "first");
    }
}

#[test]
fn the_rust_agrees_on_each() {
    let mut counts = Counts::default();
    for example in examples() {
        if let Err(difference) = compare_file(&example.bytes, &mut counts) {
            panic!("{}: {difference}", example.name);
        }
    }
    assert_eq!(counts.files as usize, files("layer").len());
}

#[test]
fn each_number_has_an_example_that_ends_with_it() {
    let all = examples();
    for number in numbers_of_files() {
        let wanted = format!("refusal-{number}");
        let bytes = &all.iter().find(|e| e.name == wanted).expect(&wanted).bytes;
        let model = model::run(bytes);
        let last = match (compare::rust(bytes, &model), model) {
            (Ok(rust), Ok(model)) => {
                let last = |rows: &[sessions::reply::Judged]| rows.last().unwrap().reply.refusal;
                assert_eq!(last(&rust), last(&model));
                last(&model)
            }
            (rust, model) => {
                assert_eq!(rust.err(), model.clone().err());
                model.unwrap_err()
            }
        };
        assert_eq!(last, number);
    }
}

#[test]
fn document_01s_example_has_1120_bytes_and_its_two_lines_strict_or_not() {
    let first = fs::read(folder().join("first.session")).unwrap();
    let mut strict = text::document_01();
    strict[FLAGS_AT] |= STRICT as u8;
    assert!(first == strict, "the example is strict");
    for bytes in [first, text::document_01()] {
        assert_eq!(bytes.len(), 1120);
        let lines = "0 0 17 17 4 4 1 0 1\n1 0 17 17 4 4 1 1 0\n";
        assert_eq!(model::deskcheck(&bytes), lines);
        let rust = sessions::reply::deskcheck_lines(&oracle::run(&bytes));
        assert_eq!(rust, lines);
    }
}
