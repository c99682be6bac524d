//! `wgpu_hal`: the descriptors of a pass, and an encoder that records them.

use std::num::NonZeroU32;

use super::device::DeviceError;
use super::wgt::{flags, Color, Extent3d, TextureFormat, TextureUses};

/// Colour slots of a pass.
pub const MAX_COLOR_ATTACHMENTS: usize = 8;

flags!(
    /// Operations of an attachment, by document 01's bits.
    AttachmentOps {
        LOAD = 1,
        LOAD_CLEAR = 2,
        LOAD_DONT_CARE = 4,
        STORE = 8,
        STORE_DISCARD = 16,
    }
);
flags!(
    /// Aspects of a format.
    FormatAspects {
        COLOR = 1,
        DEPTH = 2,
        STENCIL = 4,
        PLANE_0 = 8,
        PLANE_1 = 16,
        PLANE_2 = 32,
    }
);

impl From<TextureFormat> for FormatAspects {
    fn from(format: TextureFormat) -> Self {
        match (format.has_depth_aspect(), format.has_stencil_aspect()) {
            (false, false) => FormatAspects::COLOR,
            (true, false) => FormatAspects::DEPTH,
            (false, true) => FormatAspects::STENCIL,
            (true, true) => FormatAspects::DEPTH | FormatAspects::STENCIL,
        }
    }
}

/// A view as the encoder sees it: its number.
pub trait DynTextureView: 'static {
    /// The view's number in the session.
    fn number(&self) -> u32;
}

/// A query set as the encoder sees it; none exists.
pub trait DynQuerySet: 'static {}

/// A view and how it is used.
pub struct Attachment<'a, T: ?Sized> {
    pub view: &'a T,
    pub usage: TextureUses,
}

/// A colour attachment of a pass.
pub struct ColorAttachment<'a, T: ?Sized> {
    pub target: Attachment<'a, T>,
    #[allow(dead_code)]
    pub depth_slice: Option<u32>,
    pub resolve_target: Option<Attachment<'a, T>>,
    pub ops: AttachmentOps,
    pub clear_value: Color,
}

/// The depth-stencil attachment of a pass.
pub struct DepthStencilAttachment<'a, T: ?Sized> {
    pub target: Attachment<'a, T>,
    pub depth_ops: AttachmentOps,
    pub stencil_ops: AttachmentOps,
    pub clear_value: (f32, u32),
}

/// Timestamps of a pass; never given.
#[allow(dead_code)]
pub struct PassTimestampWrites<'a, Q: ?Sized> {
    pub query_set: &'a Q,
    pub beginning_of_pass_write_index: Option<u32>,
    pub end_of_pass_write_index: Option<u32>,
}

/// What an encoder is told of a pass.
#[allow(dead_code)]
pub struct RenderPassDescriptor<'a, Q: ?Sized, T: ?Sized> {
    pub label: Option<&'a str>,
    pub extent: Extent3d,
    pub sample_count: u32,
    pub color_attachments: &'a [Option<ColorAttachment<'a, T>>],
    pub depth_stencil_attachment: Option<DepthStencilAttachment<'a, T>>,
    pub multiview_mask: Option<NonZeroU32>,
    pub timestamp_writes: Option<PassTimestampWrites<'a, Q>>,
    pub occlusion_query_set: Option<&'a Q>,
}

/// The calls that reach an encoder.
pub trait DynCommandEncoder {
    /// Unsafe as in the original; here it never fails.
    unsafe fn begin_render_pass(
        &mut self,
        desc: &RenderPassDescriptor<dyn DynQuerySet, dyn DynTextureView>,
    ) -> Result<(), DeviceError>;

    /// Unsafe as in the original.
    unsafe fn end_render_pass(&mut self);

    /// A clear of a texture's layers at one mip, by the stand-in of `clear_texture`.
    fn clear_layers(&mut self, texture: u32, mip: u32, layers: std::ops::Range<u32>);
}
