//! `init_tracker`: which layers of each mip are filled.

use std::ops::Range;
use std::sync::{Arc, RwLock, RwLockReadGuard, RwLockWriteGuard};

use super::resource::Texture;
use super::wgt::TextureSelector;

/// What an action asks of its memory.
#[derive(Clone, Copy, Debug, PartialEq, Eq)]
pub enum MemoryInitKind {
    ImplicitlyInitialized,
    NeedsInitializedMemory,
}

/// Mips and layers of an action.
#[derive(Clone)]
pub struct TextureInitRange {
    pub mip_range: Range<u32>,
    pub layer_range: Range<u32>,
}

impl From<TextureSelector> for TextureInitRange {
    fn from(selector: TextureSelector) -> Self {
        TextureInitRange {
            mip_range: selector.mips,
            layer_range: selector.layers,
        }
    }
}

/// An entry of the action list.
#[derive(Clone)]
pub struct TextureInitTrackerAction {
    pub texture: Arc<Texture>,
    pub range: TextureInitRange,
    pub kind: MemoryInitKind,
}

/// The layers of one mip: true where filled.
pub struct InitTracker(Vec<bool>);

impl InitTracker {
    /// Fills a range, whether or not the answer is read, and answers the runs that were empty.
    pub fn drain(&mut self, range: Range<u32>) -> std::vec::IntoIter<Range<u32>> {
        let mut runs: Vec<Range<u32>> = Vec::new();
        for layer in range {
            if std::mem::replace(&mut self.0[layer as usize], true) {
                continue;
            }
            match runs.last_mut() {
                Some(run) if run.end == layer => run.end = layer + 1,
                _ => runs.push(layer..layer + 1),
            }
        }
        runs.into_iter()
    }

    /// Whether each layer is filled.
    pub fn filled(&self) -> &[bool] {
        &self.0
    }
}

/// The init state of a texture.
pub struct TextureInitTracker {
    pub mips: Vec<InitTracker>,
}

impl TextureInitTracker {
    /// A texture starts empty.
    pub fn new(mips: u32, layers: u32) -> Self {
        let empty = || InitTracker(vec![false; layers as usize]);
        TextureInitTracker {
            mips: (0..mips).map(|_| empty()).collect(),
        }
    }

    /// Document 01: the list of actions takes every action whole.
    pub fn check_action(
        &self,
        action: &TextureInitTrackerAction,
    ) -> Option<TextureInitTrackerAction> {
        Some(action.clone())
    }

    /// Marks a surface empty.
    pub fn discard(&mut self, mip_level: u32, layer: u32) {
        self.mips[mip_level as usize].0[layer as usize] = false;
    }
}

/// A lock whose guards are had without a result, as parking_lot's.
pub struct StatusLock(RwLock<TextureInitTracker>);

impl StatusLock {
    /// A lock around the state.
    pub fn new(tracker: TextureInitTracker) -> Self {
        StatusLock(RwLock::new(tracker))
    }

    /// The state, to be read.
    pub fn read(&self) -> RwLockReadGuard<'_, TextureInitTracker> {
        self.0.read().expect("no panic while the status is held")
    }

    /// The state, to be changed.
    pub fn write(&self) -> RwLockWriteGuard<'_, TextureInitTracker> {
        self.0.write().expect("no panic while the status is held")
    }
}
