// What render.rs imports, as far as its cut part needs it.
use std::{borrow::Cow, num::NonZeroU32, sync::Arc};

use thiserror_stand_in::Error;

use crate::command::{
    memory_init::{
        CommandBufferTextureMemoryActions, SurfacesInDiscardState, TextureSurfaceDiscard,
    },
    pass,
    query::{record_pass_timestamp_writes, QueryResetMap, QuerySetWrites},
    timestamp_writes::{ArcPassTimestampWrites, PassTimestampWrites},
    BindError, CommandEncoder, DebugGroupError, DrawError, EncoderStateError, QueryUseError,
    RenderCommandError, TimestampWritesError,
};
use crate::stand_ins::{
    arrayvec::ArrayVec,
    device::{
        AttachmentData, Device, DeviceError, MissingDownlevelFlags, MissingFeatures,
        RenderPassCompatibilityError, RenderPassContext,
    },
    hal, hal_label, id,
    init_tracker::{MemoryInitKind, TextureInitRange, TextureInitTrackerAction},
    profiling,
    resource::{
        DestroyedResourceError, Fallible, InvalidResourceError, MissingTextureUsageError, QuerySet,
        ResourceErrorIdent, Texture, TextureView, TextureViewNotRenderableReason,
    },
    snatch::SnatchGuard,
    track::{ResourceUsageCompatibilityError, Tracker, UsageScope},
    validation, wgt,
    wgt::{
        BufferAddress, Color, InstanceFlags, LoadOp, StoreOp, TextureSelector, TextureUsages,
        TextureViewDimension,
    },
    Label,
};
