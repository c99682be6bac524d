//! The build script's cuts and edits: a source text that changes is noticed.

#[allow(dead_code)]
#[path = "../build.rs"]
mod build;

use std::fs;
use std::path::{Path, PathBuf};

const CUTS: &str = include_str!("../CUTS.txt");
const EDITS: &str = include_str!("../EDITS.txt");

/// The folder of the source.
fn source() -> PathBuf {
    Path::new(env!("CARGO_MANIFEST_DIR")).join(build::SOURCE)
}

/// A copy of the source with one text of a file replaced.
fn changed(name: &str, file: &str, from: &str, to: &str) -> PathBuf {
    let folder = Path::new(env!("CARGO_TARGET_TMPDIR")).join(name);
    fs::create_dir_all(&folder).unwrap();
    for entry in fs::read_dir(source()).unwrap() {
        let path = entry.unwrap().path();
        let mut text = fs::read_to_string(&path).unwrap();
        if path.ends_with(file) {
            assert!(text.contains(from), "{from}");
            text = text.replacen(from, to, 1);
        }
        fs::write(folder.join(path.file_name().unwrap()), text).unwrap();
    }
    folder
}

/// The cut text of render.rs.
fn render() -> String {
    let files = build::cut_files(&source(), CUTS).unwrap();
    files.into_iter().find(|f| f.0 == "render.rs").unwrap().1
}

#[test]
fn every_cut_is_a_part_of_the_source() {
    for (name, text) in build::cut_files(&source(), CUTS).unwrap() {
        let whole = fs::read_to_string(source().join(&name)).unwrap();
        for item in text.split("\n\n") {
            let item = item.strip_prefix("impl BakedCommands {\n").unwrap_or(item);
            assert!(
                whole.contains(item.trim_end_matches("\n}\n")),
                "{name}: {item}"
            );
        }
    }
}

#[test]
fn the_named_functions_are_cut() {
    let files = build::cut_files(&source(), CUTS).unwrap();
    let all: String = files.into_iter().map(|f| f.1).collect();
    for name in [
        "load_hal_ops",
        "store_hal_ops",
        "convert_stencil_value",
        "resolve",
        "hal_ops",
        "clear_value",
        "add_pass_texture_init_actions",
        "start",
        "finish",
        "check_transient_attachment_ops",
        "fill_arc_desc",
        "register_init_action",
        "register_implicit_init",
        "discard",
        "initialize_texture_memory",
    ] {
        let found = all.contains(&format!("fn {name}(")) || all.contains(&format!("fn {name}<"));
        assert!(found, "{name}");
    }
}

#[test]
fn a_changed_function_fails_the_build() {
    let folder = changed("changed", "render.rs", "value & 255", "value & 127");
    let wrong = build::cut_files(&folder, CUTS).unwrap_err();
    assert!(wrong.contains("another hash"), "{wrong}");
    assert!(wrong.contains("fn convert_stencil_value"), "{wrong}");
    assert!(!wrong.contains("fn load_hal_ops"), "{wrong}");
}

#[test]
fn a_renamed_function_fails_the_build() {
    let folder = changed("renamed", "render.rs", "fn load_hal_ops", "fn load_ops");
    let wrong = build::cut_files(&folder, CUTS).unwrap_err();
    assert!(wrong.starts_with("0 lines are"), "{wrong}");
}

#[test]
fn a_change_outside_the_cuts_does_not_matter() {
    let folder = changed("outside", "render.rs", "fn draw(", "fn draw_it(");
    assert!(build::cut_files(&folder, CUTS).is_ok());
}

#[test]
fn an_edit_that_does_not_match_once_fails_the_build() {
    let text = render();
    let line = "                    discarded_surfaces.push(TextureSurfaceDiscard {\n";
    assert!(build::edit(&text, EDITS).is_ok());
    let without = text.replace(line, "");
    assert!(build::edit(&without, EDITS)
        .unwrap_err()
        .contains("0 times"));
    let twice = text.replace(line, &line.repeat(2));
    assert!(build::edit(&twice, EDITS).unwrap_err().contains("2 times"));
    let without_reason = EDITS.replace("\nreason ", "\n# ");
    assert!(build::edit(&text, &without_reason)
        .unwrap_err()
        .contains("no reason"));
}

#[test]
fn the_edits_change_three_lines() {
    let text = render();
    let edited = build::edit(&text, EDITS).unwrap();
    assert_eq!(text.lines().count(), edited.lines().count());
    let differ = text.lines().zip(edited.lines()).filter(|(a, b)| a != b);
    assert_eq!(differ.count(), 3);
}
