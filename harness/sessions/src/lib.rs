//! Session files of document 01: their layout, a reader, a writer, a text form,
//! and sets of sessions to run: random, enumerated, crowded and damaged ones.
//! Nothing here judges a pass.

pub mod colour_bytes;
pub mod command;
pub mod crowd;
pub mod damage;
pub mod enumerate;
pub mod layout;
pub mod names;
pub mod random;
pub mod reader;
pub mod reply;
pub mod rows;
pub mod text;
pub mod volumes;
pub mod words;

pub use rows::{Channel, Pass, Session, Slot, Texture, View};
