//! `device`: limits and flags of the session's header, and errors of a device.

use std::num::NonZeroU32;

use super::wgt::{DownlevelFlags, Features, InstanceFlags, TextureFormat};

/// A device is always valid, so that this error never arises.
#[derive(Clone, Debug)]
pub struct DeviceError;

/// The feature that the session lacks.
#[derive(Clone, Debug)]
pub struct MissingFeatures(pub Features);

/// Not raised by the cut functions.
#[derive(Clone, Debug)]
pub struct MissingDownlevelFlags;

/// Not raised by the cut functions.
#[derive(Clone, Debug)]
pub struct RenderPassCompatibilityError;

/// Limits of the header.
pub struct Limits {
    pub max_color_attachments: u32,
    pub max_multiview_view_count: u32,
    pub max_color_attachment_bytes_per_sample: u32,
}

/// The downlevel flags of the header.
pub struct DownlevelCapabilities {
    pub flags: DownlevelFlags,
}

/// Alignments of copies; not used.
pub struct Alignments;

/// What a device knows of the session.
pub struct Device {
    pub limits: Limits,
    pub features: Features,
    pub downlevel: DownlevelCapabilities,
    pub instance_flags: InstanceFlags,
    pub alignments: Alignments,
    pub zero_buffer: Box<()>,
}

impl Device {
    /// The device is valid.
    pub fn check_is_valid(&self) -> Result<(), DeviceError> {
        Ok(())
    }

    /// Whether the session has the features.
    pub fn require_features(&self, features: Features) -> Result<(), MissingFeatures> {
        if self.features.contains(features) {
            Ok(())
        } else {
            Err(MissingFeatures(features))
        }
    }

    /// The error as it is.
    pub fn handle_hal_error(&self, error: DeviceError) -> DeviceError {
        error
    }
}

/// Formats of a pass, which bundles and pipelines are compared with; not read here.
#[allow(dead_code)]
pub struct AttachmentData {
    pub colors: Vec<Option<TextureFormat>>,
    pub resolves: Vec<TextureFormat>,
    pub depth_stencil: Option<TextureFormat>,
}

/// Formats, samples and mask of a pass.
#[allow(dead_code)]
pub struct RenderPassContext {
    pub attachments: AttachmentData,
    pub sample_count: u32,
    pub multiview_mask: Option<NonZeroU32>,
}
