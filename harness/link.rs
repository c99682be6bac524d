//! Links a proved library, which `tools/library.sh` writes: a part of the build scripts.

use std::path::Path;

/// The folder of the libraries, from a crate's own.
const FOLDER: &str = "../../target/staticlib";

/// Links the library of one crate.
pub fn library(name: &str) {
    let own = std::env::var("CARGO_MANIFEST_DIR").expect("cargo sets it");
    let folder = Path::new(&own).join(FOLDER);
    let library = folder.join(format!("lib{name}.a"));
    println!("cargo::rerun-if-changed={}", library.display());
    if !library.is_file() {
        println!("cargo::error=target/staticlib/lib{name}.a is missing: run make test, or tools/library.sh {name} first");
        return;
    }
    println!("cargo::rustc-link-search=native={}", folder.display());
    println!("cargo::rustc-link-lib=static={name}");
}
