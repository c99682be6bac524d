//! Links the proved library of `crates/texture_surface_discards`.

#[path = "../link.rs"]
mod link;

fn main() {
    link::library("texture_surface_discards");
}
