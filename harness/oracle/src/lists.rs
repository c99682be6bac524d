// Access to the lists for the driver: their fields are private to memory_init.rs.

use sessions::reply::{Action, Kind, Lists, Surface};

/// A discard as a record. The Rust has no slices: of a 3D texture it stands for the whole mip.
pub(crate) fn surface(discard: &TextureSurfaceDiscard) -> Surface {
    Surface {
        texture: discard.texture.tracking_data.tracker_index().0,
        mip: discard.mip_level,
        layer: discard.layer,
        slice: 0,
    }
}

/// An action as a record, likewise.
fn action(entry: &TextureInitTrackerAction) -> Action {
    let range = &entry.range;
    Action {
        kind: match entry.kind {
            MemoryInitKind::NeedsInitializedMemory => Kind::Needing,
            MemoryInitKind::ImplicitlyInitialized => Kind::Implicit,
        },
        texture: entry.texture.tracking_data.tracker_index().0,
        mips: (range.mip_range.start, range.mip_range.end),
        layers: (range.layer_range.start, range.layer_range.end),
        slice: 0,
    }
}

impl CommandBufferTextureMemoryActions {
    /// Both lists as records.
    pub(crate) fn lists(&self) -> Lists {
        Lists {
            discards: self.discards.iter().map(surface).collect(),
            actions: self.init_actions.iter().map(action).collect(),
        }
    }

    /// How many discards and actions are listed.
    pub(crate) fn lengths(&self) -> (usize, usize) {
        (self.discards.len(), self.init_actions.len())
    }

    /// A copy, to put back after a refusal.
    pub(crate) fn copy(&self) -> Self {
        CommandBufferTextureMemoryActions {
            init_actions: self.init_actions.clone(),
            discards: self.discards.clone(),
        }
    }
}
