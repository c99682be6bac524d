//! Document 01 and its readings as a plain program. It shares no code with the cut Rust, has its
//! own reader, and says numbers and places also where the Rust tells nothing.
//! Only the sizes and the record of an answer are shared with the oracle.

pub mod calls;
pub mod channels;
pub mod lists;
pub mod pass;
pub mod read;
pub mod submission;
pub mod verdict;
pub mod views;

pub use calls::{check_pass, deskcheck, run, run_first_layers, submit, surface_index, Lent};
