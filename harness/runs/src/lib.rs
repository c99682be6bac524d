//! Runs of the proved library; the programs and tests of this crate link it.

pub mod timed;

pub use sessions::command::{arguments, end};
