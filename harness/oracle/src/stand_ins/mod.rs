//! What the files of docs/src lack, as small as the cut text allows. harness/README.md lists each item
//! with what it assumes.

pub mod arrayvec;
pub mod command;
pub mod device;
pub mod hal;
pub mod init_tracker;
pub mod resource;
pub mod validation;
pub mod wgt;

/// Labels are left out of every comparison.
pub type Label<'a> = Option<std::borrow::Cow<'a, str>>;

/// A hash set of any kind.
pub type FastHashSet<T> = std::collections::HashSet<T>;

/// The label, as given.
pub fn hal_label(label: Option<&str>, _flags: wgt::InstanceFlags) -> Option<&str> {
    label
}

/// Numbers of resources that only wrapper functions use.
pub mod id {
    /// The number of a view.
    #[derive(Clone, Debug, PartialEq, Eq)]
    pub struct TextureViewId;
    /// The number of a query set.
    #[derive(Clone, Debug, PartialEq, Eq)]
    pub struct QuerySetId;
}

/// Measurements that are never made.
pub mod profiling {
    /// Measures nothing.
    macro_rules! scope {
        ($name:literal) => {};
    }
    pub(crate) use scope;
}

/// The guard of resources that can be destroyed; here none can.
pub mod snatch {
    /// A guard that guards nothing.
    pub struct SnatchGuard<'a>(pub std::marker::PhantomData<&'a ()>);
}

/// Trackers of resources: they accept everything and keep nothing.
pub mod track {
    use super::resource::{Texture, TextureView};
    use super::wgt::{TextureSelector, TextureUses};
    use std::sync::Arc;

    /// The number of a texture.
    #[derive(Clone, Copy, Debug, PartialEq, Eq, Hash)]
    pub struct TrackerIndex(pub u32);

    /// Not raised: uses never conflict.
    #[derive(Clone, Debug)]
    pub struct ResourceUsageCompatibilityError;

    /// A tracker that keeps nothing.
    #[derive(Default)]
    pub struct Kept;

    impl Kept {
        /// Keeps nothing.
        pub fn insert_single<T>(&mut self, _resource: Arc<T>) {}
    }

    /// The trackers of a buffer.
    #[derive(Default)]
    pub struct Tracker {
        pub views: Kept,
        pub query_sets: Kept,
    }

    /// The textures of a tracker.
    #[derive(Default)]
    pub struct TextureTracker;

    /// The tracker of the device.
    #[derive(Default)]
    pub struct DeviceTracker {
        pub textures: TextureTracker,
    }

    /// A scope whose uses never conflict.
    #[derive(Default)]
    pub struct TextureUsageScope;

    impl TextureUsageScope {
        /// Unsafe as in the original; accepts every use.
        pub unsafe fn merge_single(
            &mut self,
            _texture: &Arc<Texture>,
            _selector: Option<TextureSelector>,
            _usage: TextureUses,
        ) -> Result<(), ResourceUsageCompatibilityError> {
            Ok(())
        }
    }

    /// The uses of a pass.
    pub struct UsageScope<'a> {
        pub textures: TextureUsageScope,
        pub lifetime: std::marker::PhantomData<&'a TextureView>,
    }
}
