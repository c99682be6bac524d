//! Links the proved library of `crates/columns`.

#[path = "../link.rs"]
mod link;

fn main() {
    link::library("columns");
}
