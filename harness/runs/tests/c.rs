//! The C programs are compiled against the header, linked with the library, and run. What the header
//! says of sizes, pointers, threads, the stack and of what the library needs is tried.

use std::collections::{BTreeMap, BTreeSet};
use std::fs;
use std::path::{Path, PathBuf};
use std::process::Command;

use checks::callers::{link, output, printed, symbols};
use checks::examples::{file_of_number, files, repository};
use desk::layout::*;

/// The crate of the proved library.
const LIBRARY: &str = "desk";

/// A program of `harness/c`, compiled against the header and linked with the library.
fn compiled(name: &str) -> PathBuf {
    let source = repository(&format!("harness/c/{name}.c"));
    linked(&source, name)
}

/// The same of any source.
fn linked(source: &Path, name: &str) -> PathBuf {
    let program = PathBuf::from(env!("CARGO_TARGET_TMPDIR")).join(format!("c-{name}"));
    link(source, LIBRARY, &program);
    program
}

#[test]
fn the_example_prints_document_01s_lines() {
    let program = compiled("example");
    let first = repository("examples/first.session");
    let lines = "0 0 17 17 4 4 1 0 1\n1 0 17 17 4 4 1 1 0\n";
    assert_eq!(printed(Command::new(&program).arg(first)), lines);
    let refused = file_of_number(3).unwrap();
    let done = output(Command::new(&program).arg(refused));
    assert_eq!(String::from_utf8_lossy(&done.stdout), "session 3\n");
    let missing = output(Command::new(&program).arg("no such file"));
    assert!(!missing.status.success());
}

/// What `tools/instructions.sh` counts: a session is checked, a refused one is not.
#[test]
fn the_program_that_is_counted_checks_a_session() {
    let program = compiled("instructions");
    let status = |file: &Path| output(Command::new(&program).arg(file)).status.code();
    assert_eq!(status(&repository("examples/first.session")), Some(0));
    assert_eq!(status(&file_of_number(3).unwrap()), Some(1));
}

/// NULL with length 0, indices of surfaces, two threads at once, and the stack; the program ends with an error where the
/// header says otherwise.
#[test]
fn calls_are_as_the_header_says() {
    let mut calls = Command::new(compiled("calls"));
    calls.arg(repository("examples/first.session"));
    calls.args(files("session"));
    let told = printed(&mut calls);
    let parts = [
        "NULL of length 0",
        "index of a surface",
        "two threads",
        "stack",
    ];
    for part in parts {
        assert!(told.contains(&format!("{part}: as said\n")), "{told}");
    }
}

/// What the header's macros are in the harness; `STACK_LEN` is measured.
fn sizes() -> BTreeMap<&'static str, usize> {
    BTreeMap::from([
        ("HEADER_LEN", HEADER_LEN),
        ("TEXTURE_LEN", TEXTURE_LEN),
        ("VIEW_LEN", VIEW_LEN),
        ("SLOTS", SLOTS),
        ("SLOT_LEN", SLOT_LEN),
        ("PASS_LEN", PASS_LEN),
        ("NO_VIEW", NONE as usize),
        ("PASS_COUNT_AT", PASS_COUNT_AT),
        ("PASS_OFFSET_AT", PASS_OFFSET_AT),
        ("TOTAL_AT", TOTAL_AT),
        ("PASS_ENDS_AT", PASS_ENDS_AT),
        ("MOST_COLOR_BYTES", MAX_COLOUR_BYTES as usize),
        ("MOST_TEXTURES", MAX_TEXTURES as usize),
        ("MOST_VIEWS", MAX_VIEWS as usize),
        ("MOST_PASSES", MAX_PASSES as usize),
        ("MOST_SURFACES", MAX_SURFACES as usize),
        ("LONGEST_SESSION", LONGEST),
        ("RESOLVE_PLACE", RESOLVE_PLACE as usize),
        ("DEPTH_STENCIL_PLACE", DEPTH_STENCIL_PLACE as usize),
        ("NO_PLACE", NO_PLACE as usize),
        ("COUNT_LEN", COUNT_LEN),
        ("SURFACE_LEN", SURFACE_LEN),
        ("ACTION_LEN", ACTION_LEN),
        ("MOST_DISCARDS", DISCARDS),
        ("MOST_ACTIONS", ACTIONS),
        ("MOST_CLEARS", CLEARS),
        ("DISCARDS_LEN", DISCARDS_LEN),
        ("ACTIONS_LEN", ACTIONS_LEN),
        ("CLEARS_LEN", CLEARS_LEN),
        ("STATUS_LEN", STATUS_LEN),
        ("ROW_NUMBERS", ROW_NUMBERS),
        ("ROW_LEN", ROW_LEN),
        ("ROWS_LEN", ROWS_LEN),
        ("MOST_ATTACHMENTS", MOST_ATTACHMENTS),
    ])
}

/// The names that the header defines, without their prefix.
fn macros() -> BTreeSet<String> {
    let header = fs::read_to_string(repository("include/deskcheck.h")).unwrap();
    let defined = header
        .lines()
        .filter_map(|line| line.strip_prefix("#define DESKCHECK_"));
    let names = defined.filter_map(|rest| rest.split_once(' '));
    names.map(|(name, _)| name.to_string()).collect()
}

#[test]
fn the_headers_macros_agree_with_the_layout() {
    let sizes = sizes();
    let mut known: BTreeSet<String> = sizes.keys().map(|name| name.to_string()).collect();
    known.insert("STACK_LEN".to_string());
    assert_eq!(macros(), known);
    let of_records = [
        ("color", COLOR_LEN),
        ("attachment", ATTACHMENT_LEN),
        ("reply", REPLY_LEN),
        ("index", INDEX_LEN),
    ];
    let mut text = String::from("#include \"deskcheck.h\"\n");
    for (name, size) in sizes {
        text += &format!("_Static_assert(DESKCHECK_{name} == {size}, \"{name}\");\n");
    }
    for (name, size) in of_records {
        text +=
            &format!("_Static_assert(sizeof(struct deskcheck_{name}) == {size}, \"{name}\");\n");
    }
    text += "int main(void) { return 0; }\n";
    let source = PathBuf::from(env!("CARGO_TARGET_TMPDIR")).join("sizes.c");
    fs::write(&source, text).unwrap();
    linked(&source, "sizes");
}

#[test]
fn the_library_needs_two_functions_and_has_no_variables() {
    assert_eq!(symbols(LIBRARY, "U"), ["memcpy", "memset"]);
    let functions = [
        "pass",
        "session",
        "session_refusal",
        "submit",
        "surface_index",
    ];
    assert_eq!(
        symbols(LIBRARY, "T"),
        functions.map(|f| format!("deskcheck_{f}"))
    );
    assert_eq!(symbols(LIBRARY, "BbCDdGgSs"), [""; 0]);
}
