//! `command`: what stands around the cut functions in their own module.

use std::fmt;
use std::sync::Arc;

use super::device::{Alignments, Device};
use super::hal::DynCommandEncoder;
use super::init_tracker::TextureInitRange;
use super::resource::{
    DestroyedResourceError, Fallible, MissingTextureUsageError, QuerySet, Texture,
};
use super::snatch::SnatchGuard;
use super::track::TextureTracker;
use super::wgt::{InstanceFlags, QueryType};
use crate::command::memory_init::CommandBufferTextureMemoryActions;
use crate::command::timestamp_writes::{ArcPassTimestampWrites, PassTimestampWrites};
use crate::outcome::Recorder;

/// Errors that only functions outside the cut raise.
macro_rules! errors_of_others {
    ($($name:ident),*) => {
        $(
            #[derive(Clone, Debug)]
            pub struct $name;
        )*
    };
}

errors_of_others!(
    BindError,
    DebugGroupError,
    DrawError,
    EncoderStateError,
    TimestampWritesError
);

/// The error that a texture's missing usage becomes; views have their texture's usages, so it
/// never arises.
#[derive(Clone, Debug)]
pub struct RenderCommandError;

impl From<MissingTextureUsageError> for RenderCommandError {
    fn from(_: MissingTextureUsageError) -> Self {
        RenderCommandError
    }
}

/// Errors of passes of every kind.
pub mod pass {
    /// Not raised by the cut functions.
    #[derive(Clone, Debug)]
    pub struct InvalidValuesOffset;
}

/// The type of a query set, in errors.
#[derive(Clone, Debug)]
pub enum SimplifiedQueryType {
    Occlusion,
}

impl From<QueryType> for SimplifiedQueryType {
    fn from(_: QueryType) -> Self {
        SimplifiedQueryType::Occlusion
    }
}

/// Not raised: no query set exists.
#[allow(dead_code)]
#[derive(Clone, Debug)]
pub enum QueryUseError {
    IncompatibleType {
        set_type: SimplifiedQueryType,
        query_type: SimplifiedQueryType,
    },
}

/// Queries: no query set exists, so that none of this is reached.
pub mod query {
    use super::{Arc, ArcPassTimestampWrites, QuerySet};

    /// Queries that a pass resets.
    #[derive(Default)]
    pub struct QueryResetMap;

    impl QueryResetMap {
        /// Not reached.
        pub fn use_query_set(&mut self, query_set: &Arc<QuerySet>, _index: u32) {
            match query_set.never {}
        }
    }

    /// Queries that a pass writes.
    #[derive(Default)]
    pub struct QuerySetWrites;

    /// Not reached.
    pub fn record_pass_timestamp_writes(tw: &ArcPassTimestampWrites, _writes: &mut QuerySetWrites) {
        match tw.query_set.never {}
    }
}

/// The encoder's type, for its function on timestamps.
pub struct CommandEncoder;

impl CommandEncoder {
    /// Not reached.
    pub fn validate_pass_timestamp_writes<E>(
        _device: &Device,
        tw: &PassTimestampWrites<Fallible<QuerySet>>,
    ) -> Result<ArcPassTimestampWrites, E> {
        match tw.query_set.0.never {}
    }
}

/// The encoder of a buffer: it records.
pub struct InnerCommandEncoder {
    pub raw: Box<Recorder>,
}

/// A buffer that is submitted.
pub struct BakedCommands {
    pub encoder: InnerCommandEncoder,
    pub texture_memory_actions: CommandBufferTextureMemoryActions,
}

/// Nothing is destroyed, so that a clear never fails.
#[derive(Debug)]
pub enum ClearError {
    #[allow(dead_code)]
    DestroyedResource(DestroyedResourceError),
}

impl fmt::Display for ClearError {
    fn fmt(&self, f: &mut fmt::Formatter) -> fmt::Result {
        write!(f, "{self:?}")
    }
}

/// Records that the layers are cleared.
#[allow(clippy::too_many_arguments)]
pub fn clear_texture(
    texture: &Arc<Texture>,
    range: TextureInitRange,
    encoder: &mut dyn DynCommandEncoder,
    _tracker: &mut TextureTracker,
    _alignments: &Alignments,
    _zero_buffer: &(),
    _guard: &SnatchGuard,
    _flags: InstanceFlags,
) -> Result<(), ClearError> {
    for mip in range.mip_range {
        let number = texture.tracking_data.tracker_index().0;
        encoder.clear_layers(number, mip, range.layer_range.clone());
    }
    Ok(())
}
