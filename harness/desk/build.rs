//! Links the proved library of `crates/desk`.

#[path = "../link.rs"]
mod link;

fn main() {
    link::library("desk");
}
