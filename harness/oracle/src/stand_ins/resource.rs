//! `resource`: textures and views as the session's rows describe them. Nothing is ever
//! destroyed, and everything belongs to the one device.

use std::convert::Infallible;
use std::sync::Arc;

use super::device::{Device, DeviceError};
use super::hal::{DynQuerySet, DynTextureView, FormatAspects};
use super::init_tracker::StatusLock;
use super::snatch::SnatchGuard;
use super::track::TrackerIndex;
use super::wgt::{
    Extent3d, QueryType, TextureDimension, TextureFormat, TextureFormatFeatureFlags,
    TextureSelector, TextureUsages, TextureViewDimension,
};

/// Not raised: nothing is destroyed.
#[derive(Clone, Debug)]
pub struct DestroyedResourceError;

/// Not raised: every handle is valid.
#[derive(Clone, Debug)]
pub struct InvalidResourceError;

/// The texture lacks a usage.
#[derive(Clone, Debug)]
pub struct MissingTextureUsageError;

/// What an error calls a resource; not compared.
#[derive(Clone, Debug)]
pub struct ResourceErrorIdent;

/// Why a view cannot be rendered to; the reason is not compared.
#[derive(Clone, Copy, Debug)]
pub struct TextureViewNotRenderableReason;

/// A handle that always leads to its resource.
pub struct Fallible<T>(pub Arc<T>);

impl<T> Fallible<T> {
    /// The resource.
    pub fn get(self) -> Result<Arc<T>, InvalidResourceError> {
        Ok(self.0)
    }
}

impl<T> Clone for Fallible<T> {
    fn clone(&self) -> Self {
        Fallible(self.0.clone())
    }
}

/// Size, dimension and usage of a texture.
pub struct TextureDescriptor {
    pub size: Extent3d,
    pub dimension: TextureDimension,
    pub usage: TextureUsages,
}

/// A texture's number.
pub struct TrackingData(pub TrackerIndex);

impl TrackingData {
    /// The number.
    pub fn tracker_index(&self) -> TrackerIndex {
        self.0
    }
}

/// A texture and its init state.
pub struct Texture {
    pub desc: TextureDescriptor,
    pub tracking_data: TrackingData,
    pub initialization_status: StatusLock,
}

impl Texture {
    /// Whether both are one texture.
    pub fn is_equal(self: &Arc<Self>, other: &Arc<Self>) -> bool {
        Arc::ptr_eq(self, other)
    }

    /// Whether the texture has the usage.
    pub fn check_usage(&self, expected: TextureUsages) -> Result<(), MissingTextureUsageError> {
        if self.desc.usage.contains(expected) {
            Ok(())
        } else {
            Err(MissingTextureUsageError)
        }
    }
}

/// The first mip and layer of a view.
pub struct ViewRange {
    pub base_mip_level: u32,
    pub base_array_layer: u32,
}

/// Format, dimension, usage and range of a view.
pub struct ViewDescriptor {
    pub format: TextureFormat,
    pub dimension: TextureViewDimension,
    pub usage: TextureUsages,
    pub range: ViewRange,
}

impl ViewDescriptor {
    /// Document 01: a view has all aspects of its texture.
    pub fn aspects(&self) -> FormatAspects {
        FormatAspects::from(self.format)
    }
}

/// Whether a view is resolvable.
pub struct FormatFeatures {
    pub flags: TextureFormatFeatureFlags,
}

/// A view.
pub struct TextureView {
    /// The view's number in the session.
    pub number: u32,
    pub parent: Arc<Texture>,
    pub selector: TextureSelector,
    pub desc: ViewDescriptor,
    pub samples: u32,
    pub format_features: FormatFeatures,
    pub render_extent: Result<Extent3d, TextureViewNotRenderableReason>,
}

impl TextureView {
    /// There is one device.
    pub fn same_device(&self, _device: &Device) -> Result<(), DeviceError> {
        Ok(())
    }

    /// The view as the encoder sees it.
    pub fn try_raw<'a>(
        &'a self,
        _guard: &'a SnatchGuard,
    ) -> Result<&'a dyn DynTextureView, DestroyedResourceError> {
        Ok(self)
    }

    /// A name for errors.
    pub fn error_ident(&self) -> ResourceErrorIdent {
        ResourceErrorIdent
    }
}

impl DynTextureView for TextureView {
    fn number(&self) -> u32 {
        self.number
    }
}

/// The type of a query set.
pub struct QuerySetDescriptor {
    pub ty: QueryType,
}

/// A query set; document 01 leaves queries out, and none can be made.
pub struct QuerySet {
    pub desc: QuerySetDescriptor,
    pub never: Infallible,
}

impl QuerySet {
    /// Not reached.
    pub fn same_device(&self, _device: &Device) -> Result<(), DeviceError> {
        match self.never {}
    }

    /// Not reached.
    pub fn try_raw<'a>(
        &'a self,
        _guard: &'a SnatchGuard,
    ) -> Result<&'a dyn DynQuerySet, DestroyedResourceError> {
        match self.never {}
    }
}
