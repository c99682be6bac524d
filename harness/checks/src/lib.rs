//! What the harness holds the C interface to. Every check takes the calls as a trait: runs put the
//! proved library behind it, the tests of the checks the model, with and without faults.

pub mod answers;
pub mod callers;
pub mod calls;
pub mod differential;
pub mod examples;
pub mod expected;
pub mod fuzz;
pub mod guard;
pub mod mutate;
pub mod readers;
pub mod reference;
pub mod surfaces;
pub mod variants;
pub mod whole;
pub mod words;
