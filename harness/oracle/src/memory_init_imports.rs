// What memory_init.rs imports, as far as its cut part needs it.
use std::sync::Arc;
use std::vec::Drain;

use crate::command::{clear_texture, BakedCommands, ClearError};
use crate::stand_ins::{
    device::Device,
    init_tracker::{MemoryInitKind, TextureInitRange, TextureInitTrackerAction},
    profiling,
    resource::{DestroyedResourceError, Texture},
    snatch::SnatchGuard,
    track::DeviceTracker,
};
