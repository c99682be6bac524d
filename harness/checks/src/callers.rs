//! C programs over a header of `include/`: compiled, linked with a proved library, and run.

use std::path::{Path, PathBuf};
use std::process::{Command, Output};

use crate::examples::repository;

/// A proved library.
fn library(name: &str) -> PathBuf {
    repository(&format!("target/staticlib/lib{name}.a"))
}

/// Runs a command; it must be there.
pub fn output(command: &mut Command) -> Output {
    let done = command.output();
    done.unwrap_or_else(|wrong| panic!("{command:?}: {wrong}"))
}

/// Standard output of a command that succeeds.
pub fn printed(command: &mut Command) -> String {
    let done = output(command);
    let errors = String::from_utf8_lossy(&done.stderr);
    assert!(done.status.success(), "{command:?}\n{errors}");
    assert_eq!(errors, "", "{command:?}");
    String::from_utf8(done.stdout).unwrap()
}

/// Compiles a source against the headers, and links it with the library of a crate.
pub fn link(source: &Path, name: &str, program: &Path) {
    let mut gcc = Command::new("gcc");
    gcc.args(["-std=c11", "-Wall", "-Wextra", "-Wpedantic", "-Werror"]);
    gcc.arg("-I").arg(repository("include"));
    gcc.arg(source).arg(library(name));
    gcc.arg("-pthread").arg("-o").arg(program);
    printed(&mut gcc);
}

/// The symbols of a crate's library of these kinds, as `nm` has them.
pub fn symbols(name: &str, kinds: &str) -> Vec<String> {
    let listed = printed(Command::new("nm").arg(library(name)));
    let lines = listed.lines().filter_map(|line| line.rsplit_once(' '));
    let of_kind = lines.filter(|(front, _)| front.ends_with(|kind| kinds.contains(kind)));
    of_kind.map(|(_, name)| name.to_string()).collect()
}
