//! A C caller is compiled against the header, linked with the library, and run.

use std::path::PathBuf;
use std::process::Command;

use checks::callers::{link, printed};
use checks::examples::repository;

#[test]
fn a_c_caller_gets_the_same_answers() {
    let program = PathBuf::from(env!("CARGO_TARGET_TMPDIR")).join("c-discards");
    link(&repository("harness/c/discards.c"), "texture_surface_discards", &program);
    let lines = "2 listed, 2 with no room\n1 stays: 4 0 0 7\n0 and 0 of no list\n";
    assert_eq!(printed(&mut Command::new(&program)), lines);
}
