//! Cuts the functions that CUTS.txt names out of docs/src and, but for the package that shows
//! the Rust as found, makes the edits of EDITS.txt. A cut or an edit that does not match fails
//! the build.

use std::{env, fs, path::Path, path::PathBuf};

/// Where the source lies, seen from the oracle's folder.
pub const SOURCE: &str = "../../docs/src/src/command";

/// The package that is built without the edits.
const AS_FOUND: &str = "oracle-as-found";

/// Writes the cut files into the folder of the build.
fn main() {
    let package = env::var("CARGO_PKG_NAME").expect("set by cargo");
    let out = PathBuf::from(env::var("OUT_DIR").expect("set by cargo"));
    let home = home();
    let cuts = read(&home.join("CUTS.txt")).unwrap_or_else(|wrong| fail(&wrong));
    let edits = read(&home.join("EDITS.txt")).unwrap_or_else(|wrong| fail(&wrong));
    let files = cut_files(&home.join(SOURCE), &cuts).unwrap_or_else(|wrong| fail(&wrong));
    for (name, text) in files {
        let text = if name == "render.rs" && package != AS_FOUND {
            edit(&text, &edits).unwrap_or_else(|wrong| fail(&wrong))
        } else {
            text
        };
        fs::write(out.join(name), text).expect("the build's own folder can be written");
    }
}

/// The folder that holds the lists of cuts and edits: the package's own, or the one above.
fn home() -> PathBuf {
    let own = PathBuf::from(env::var("CARGO_MANIFEST_DIR").expect("set by cargo"));
    if own.join("CUTS.txt").exists() {
        own
    } else {
        own.join("..")
    }
}

/// Ends the build with a message.
fn fail(wrong: &str) -> ! {
    panic!("\n{wrong}\n")
}

/// The cut text of each file that CUTS.txt names.
pub fn cut_files(source: &Path, cuts: &str) -> Result<Vec<(String, String)>, String> {
    let mut files: Vec<(String, String)> = Vec::new();
    let mut lines: Vec<String> = Vec::new();
    let mut block: Option<&str> = None;
    let mut wrong = Vec::new();
    for line in cuts
        .lines()
        .filter(|l| !l.is_empty() && !l.starts_with('#'))
    {
        if let Some(name) = line.strip_prefix("file ") {
            lines = read(&source.join(name))?
                .lines()
                .map(str::to_string)
                .collect();
            files.push((name.to_string(), String::new()));
        } else if let Some(text) = line.strip_prefix("in ") {
            block = Some(text);
        } else {
            let spec = line
                .strip_prefix("cut ")
                .ok_or(format!("not a cut: {line}"))?;
            let (hash, start) = spec.split_once(' ').ok_or(format!("no hash: {line}"))?;
            let text = cut(&lines, start)?;
            let found = format!("{:016x}", fnv(&text));
            if hash != found {
                wrong.push(format!("cut {found} {start}"));
            }
            let file = files.last_mut().ok_or("a cut before a file")?;
            file.1 += &in_block(block.take(), &text);
        }
    }
    if wrong.is_empty() {
        Ok(files)
    } else {
        Err(format!(
            "these cuts have another hash than CUTS.txt says:\n{}",
            wrong.join("\n")
        ))
    }
}

/// The text of a file, which the build then depends on.
fn read(path: &Path) -> Result<String, String> {
    println!("cargo:rerun-if-changed={}", path.display());
    fs::read_to_string(path).map_err(|e| format!("{}: {e}", path.display()))
}

/// The item that starts with the line, which must occur once.
fn cut(lines: &[String], start: &str) -> Result<String, String> {
    let places: Vec<usize> = (0..lines.len()).filter(|i| lines[*i] == start).collect();
    let [at] = places[..] else {
        return Err(format!("{} lines are {start:?}", places.len()));
    };
    let indent = &start[..start.len() - start.trim_start().len()];
    let first = first_line_above(lines, at, indent);
    let last = last_line(lines, at, indent).ok_or(format!("{start:?} has no end"))?;
    Ok(lines[first..=last].join("\n") + "\n")
}

/// The first of the attributes and comments directly above a line.
fn first_line_above(lines: &[String], at: usize, indent: &str) -> usize {
    let belongs = |line: &String| {
        line.strip_prefix(indent)
            .is_some_and(|rest| rest.starts_with("#[") || rest.starts_with("//"))
    };
    let above = lines[..at].iter().rev().take_while(|line| belongs(line));
    at - above.count()
}

/// The item's last line: its own, where it is one line long, or the closing brace.
fn last_line(lines: &[String], at: usize, indent: &str) -> Option<usize> {
    if lines[at].ends_with(';') {
        return Some(at);
    }
    let end = format!("{indent}}}");
    (at..lines.len()).find(|i| lines[*i] == end)
}

/// A cut inside its block, if it has one.
fn in_block(block: Option<&str>, text: &str) -> String {
    match block {
        Some(block) => format!("{block}\n{text}}}\n\n"),
        None => format!("{text}\n"),
    }
}

/// FNV-1a, 64 bits.
fn fnv(text: &str) -> u64 {
    text.bytes().fold(0xcbf2_9ce4_8422_2325, |hash, byte| {
        (hash ^ u64::from(byte)).wrapping_mul(0x0000_0100_0000_01b3)
    })
}

/// The text with every edit made.
pub fn edit(text: &str, edits: &str) -> Result<String, String> {
    let mut edited = text.to_string();
    for part in edits.split("\nedit ").skip(1) {
        let name = part.lines().next().unwrap_or("");
        let find = block_after(part, "find", "replace");
        let replace = block_after(part, "replace", "edit ");
        if !part.contains("\nreason ") {
            return Err(format!("the edit {name:?} has no reason"));
        }
        let times = edited.matches(&format!("{find}\n")).count();
        if find.is_empty() || times != 1 {
            return Err(format!("the edit {name:?} matches {times} times"));
        }
        edited = edited.replacen(&find, &replace, 1);
    }
    Ok(edited)
}

/// The lines behind a bar from the line `from` up to the line `to`.
fn block_after(part: &str, from: &str, to: &str) -> String {
    let lines = part.lines().skip_while(|line| *line != from).skip(1);
    let lines = lines.take_while(|line| *line != to);
    let texts: Vec<&str> = lines.filter_map(|line| line.strip_prefix('|')).collect();
    texts.join("\n")
}
