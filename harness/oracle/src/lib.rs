//! The Rust of docs/src as a judge: the build script cuts its functions by name, stand-ins give
//! what its files lack, and a driver runs session files through it.

pub mod driver;
mod outcome;
mod resources;
mod stand_ins;

/// The cut text, under the module names that its own paths expect.
mod command {
    pub(crate) use crate::stand_ins::command::*;

    /// The cut part of timestamp_writes.rs.
    pub(crate) mod timestamp_writes {
        use crate::id;
        use std::sync::Arc;
        include!(concat!(env!("OUT_DIR"), "/timestamp_writes.rs"));
    }

    /// The cut part of memory_init.rs, and access to its lists.
    pub(crate) mod memory_init {
        include!("memory_init_imports.rs");
        include!(concat!(env!("OUT_DIR"), "/memory_init.rs"));
        include!("lists.rs");
    }

    /// The cut part of render.rs, and the calls of its functions.
    #[allow(dead_code, unused_mut, clippy::all)]
    pub(crate) mod render {
        include!("render_imports.rs");
        include!(concat!(env!("OUT_DIR"), "/render.rs"));
        include!("call.rs");
    }
}

// Paths that the cut text names from the crate's root.
pub(crate) use stand_ins::{id, resource, track, FastHashSet};

pub use driver::{run, run_told, Run};
