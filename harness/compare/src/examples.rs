//! Where the files of `examples/` are: `first` in the folder itself, texts below `layers`, binaries
//! below `sessions`, each in a folder by subject.

use std::fs;
use std::path::{Path, PathBuf};

/// The folder of the examples.
pub fn folder() -> PathBuf {
    Path::new(env!("CARGO_MANIFEST_DIR")).join("../../examples")
}

/// Every file below the folder with this ending, by name.
pub fn files(ending: &str) -> Vec<PathBuf> {
    let mut found: Vec<PathBuf> = folders()
        .iter()
        .flat_map(|folder| entries(folder))
        .filter(|path| path.extension().is_some_and(|e| e == ending))
        .collect();
    found.sort_by_key(|path| path.file_name().map(|name| name.to_owned()));
    found
}

/// The folder of the examples and all folders below it.
pub fn folders() -> Vec<PathBuf> {
    let mut all = vec![folder()];
    let mut next = 0;
    while next < all.len() {
        let below = entries(&all[next]).into_iter().filter(|path| path.is_dir());
        all.extend(below);
        next += 1;
    }
    all
}

/// What a folder holds.
pub fn entries(folder: &Path) -> Vec<PathBuf> {
    let read = fs::read_dir(folder).expect("a folder of examples");
    read.map(|entry| entry.expect("an entry").path()).collect()
}

/// A file's name without its ending.
pub fn name(path: &Path) -> String {
    let stem = path.file_stem().expect("a name");
    stem.to_string_lossy().into_owned()
}
