//! Every place that docs/SHAPES.md names is in its file.

use std::fs;

use checks::examples::repository;

/// The places of a text: what stands between backquotes and has a file, a colon and an item.
fn places(text: &str) -> Vec<(&str, &str)> {
    let quoted = text
        .lines()
        .flat_map(|line| line.split('`').skip(1).step_by(2));
    quoted
        .filter(|word| word.contains('/') && !word.contains(' '))
        .filter_map(|word| word.split_once(':'))
        .collect()
}

/// Whether a text has code for a type, with or without parameters.
fn has_code_for(text: &str, of: &str) -> bool {
    let forms = [format!(" {of} {{"), format!(" {of}<")];
    let mut heads = text.lines().filter(|line| line.starts_with("impl"));
    heads.any(|line| forms.iter().any(|form| line.contains(form)))
}

/// Whether a text declares the item; of a method, also whether it has code for its type.
fn declares(text: &str, item: &str) -> bool {
    let (typed, name) = match item.split_once("::") {
        Some((of, method)) => (has_code_for(text, of), method),
        None => (true, item),
    };
    let forms = [
        format!("fn {name}("),
        format!("fn {name}<"),
        format!("enum {name} {{"),
        format!("enum {name}<"),
        format!("struct {name} {{"),
        format!("struct {name}<"),
        format!("type {name}<"),
        format!("pub {name} :"),
    ];
    typed && forms.iter().any(|form| text.contains(form.as_str()))
}

#[test]
fn each_place_is_in_its_file() {
    let text = fs::read_to_string(repository("docs/SHAPES.md")).unwrap();
    let named = places(&text);
    assert!(named.len() > 40, "{named:?}");
    for (file, item) in named {
        let code = fs::read_to_string(repository(file)).expect(file);
        assert!(declares(&code, item), "{file} has no {item}");
    }
}

#[test]
fn a_place_that_is_not_there_is_seen() {
    let code = "impl Kind {\n    pub fn asked(self) -> u32\n";
    assert!(declares(code, "Kind::asked"));
    assert!(!declares(code, "Kind::ask"));
    assert!(!declares(code, "Other::asked"));
    let generic = "impl<V: Copy> Kind<Option<V>> {\n    pub fn asked<W>(self) -> u32\n";
    assert!(declares(generic, "Kind::asked"));
    assert!(!declares(generic, "Kin::asked"));
    assert_eq!(
        places("| `a/b.rt:C::d`, `e`, `f: g` |"),
        [("a/b.rt", "C::d")]
    );
}
