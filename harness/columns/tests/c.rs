//! A C caller is compiled against the header, linked with the library, and run. What the header says
//! of what the library needs is tried.

use std::fs;
use std::path::PathBuf;
use std::process::Command;

use checks::callers::{link, output, printed, symbols};
use checks::examples::repository;
use columns::layout::{CLEAR, FIELD_LEN, LOAD, MAX_PASSES, PASS_FRONT_LEN, PASS_LEN};
use sessions::rows::EMPTY_PASS;
use sessions::{Pass, Session};

/// The crate of the proved library.
const LIBRARY: &str = "columns";

/// Where a pass row has its mask: its second field.
const MASK_AT: usize = FIELD_LEN;
/// Where it has the first slot's load operation: the slot's fifth field.
const LOAD_AT: usize = PASS_FRONT_LEN + 4 * FIELD_LEN;

/// What the program prints of no passes and of no bytes.
const OF_NONE: &str = "\
no passes: 0 and 0, the last column 0 with 0 bytes, the one past it 2
a pass of no bytes: 2 and 2
a pass to no bytes: 6 and 6
";

/// A file of this run.
fn temporary(name: &str) -> PathBuf {
    PathBuf::from(env!("CARGO_TARGET_TMPDIR")).join(name)
}

/// A file of this run with these bytes.
fn written(name: &str, bytes: &[u8]) -> PathBuf {
    let path = temporary(name);
    fs::write(&path, bytes).unwrap();
    path
}

/// A file of so many passes, each with its number as mask.
fn passes(count: u32) -> Vec<u8> {
    let pass = |mask: u32| Pass { mask, ..EMPTY_PASS };
    let session = Session {
        passes: (0..count).map(pass).collect(),
        ..Session::new()
    };
    session.to_bytes()
}

/// The program of `harness/c`, compiled against the header and linked with the library.
fn compiled() -> PathBuf {
    let program = temporary("c-columns");
    link(&repository("harness/c/columns.c"), LIBRARY, &program);
    program
}

#[test]
fn a_c_caller_gets_the_same_answers() {
    let program = compiled();
    let told = |file: &PathBuf, j: usize| {
        let lines = printed(Command::new(&program).arg(file).arg(j.to_string()));
        let own = lines.strip_suffix(OF_NONE);
        own.unwrap_or_else(|| panic!("{lines}")).to_string()
    };

    let first = repository("examples/first.session");
    let back = format!("2 passes, {} bytes: back as they were\n", 2 * PASS_LEN);
    assert_eq!(
        told(&first, LOAD_AT),
        format!("column {LOAD_AT}: {CLEAR} {LOAD}\n{back}")
    );
    let last = PASS_LEN - 1;
    assert_eq!(told(&first, last), format!("column {last}: 0 0\n{back}"));
    assert_eq!(told(&first, PASS_LEN), "refused: 2\n");

    let most = passes(MAX_PASSES);
    let numbers: String = (0..MAX_PASSES).map(|k| format!(" {k}")).collect();
    let length = MAX_PASSES as usize * PASS_LEN;
    assert_eq!(
        told(&written("most.session", &most), MASK_AT),
        format!(
            "column {MASK_AT}:{numbers}\n{MAX_PASSES} passes, {length} bytes: back as they were\n"
        )
    );
    let cut = written("cut.session", &most[..most.len() - 1]);
    assert_eq!(told(&cut, MASK_AT), "refused: 2\n");
    let more = written("more.session", &passes(MAX_PASSES + 1));
    assert_eq!(told(&more, MASK_AT), "refused: 2\n");

    let missing = output(Command::new(&program).args(["no such file", "0"]));
    assert!(!missing.status.success());
}

#[test]
fn the_library_needs_nothing_and_has_no_variables() {
    assert_eq!(symbols(LIBRARY, "U"), [""; 0]);
    let functions = ["column", "columns", "rows"];
    assert_eq!(
        symbols(LIBRARY, "T"),
        functions.map(|f| format!("deskcheck_{f}"))
    );
    assert_eq!(symbols(LIBRARY, "BbCDdGgSs"), [""; 0]);
}
