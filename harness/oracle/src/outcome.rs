//! What the encoder is told while the cut functions run.

use std::ops::Range;

use sessions::reply::{usages, Attachment, Part, Surface};

use crate::stand_ins::device::DeviceError;
use crate::stand_ins::hal::{
    self, AttachmentOps, DynCommandEncoder, DynQuerySet, DynTextureView, RenderPassDescriptor,
};
use crate::stand_ins::wgt::{Color, TextureUses};

/// A pass as the encoder is told to begin it.
pub struct RecordedPass {
    pub extent: (u32, u32),
    pub samples: u32,
    /// Depth-stencil, then each colour and its resolve target.
    pub attachments: Vec<Attachment>,
}

/// An encoder that records passes, and clears of submissions.
#[derive(Default)]
pub struct Recorder {
    pub passes: Vec<RecordedPass>,
    pub cleared: Vec<Surface>,
}

impl DynCommandEncoder for Recorder {
    unsafe fn begin_render_pass(
        &mut self,
        desc: &RenderPassDescriptor<dyn DynQuerySet, dyn DynTextureView>,
    ) -> Result<(), DeviceError> {
        let mut attachments = Vec::new();
        if let Some(at) = &desc.depth_stencil_attachment {
            attachments.push(depth_stencil(at));
        }
        for at in desc.color_attachments.iter().flatten() {
            attachments.push(colour(at));
            attachments.extend(at.resolve_target.as_ref().map(resolve));
        }
        self.passes.push(RecordedPass {
            extent: (desc.extent.width, desc.extent.height),
            samples: desc.sample_count,
            attachments,
        });
        Ok(())
    }

    unsafe fn end_render_pass(&mut self) {}

    fn clear_layers(&mut self, texture: u32, mip: u32, layers: Range<u32>) {
        self.cleared.extend(layers.map(|layer| Surface {
            texture,
            mip,
            layer,
            slice: 0,
        }));
    }
}

/// Document 01's number of a usage.
pub fn usage_number(usage: TextureUses) -> u32 {
    match usage {
        TextureUses::COLOR_TARGET => usages::COLOR_TARGET,
        TextureUses::DEPTH_STENCIL_READ => usages::DEPTH_STENCIL_READ,
        TextureUses::DEPTH_STENCIL_WRITE => usages::DEPTH_STENCIL_WRITE,
        both => {
            let expected = TextureUses::DEPTH_STENCIL_READ | TextureUses::RESOURCE;
            assert_eq!(both, expected, "no such usage");
            usages::DEPTH_STENCIL_READ_RESOURCE
        }
    }
}

/// Document 01's bits of operations are those of the stand-in.
fn bits(operations: AttachmentOps) -> u32 {
    operations.0
}

/// The bits of a colour.
fn colour_bits(c: Color) -> [u64; 4] {
    [c.r, c.g, c.b, c.a].map(f64::to_bits)
}

/// The record of a depth-stencil attachment.
fn depth_stencil(at: &hal::DepthStencilAttachment<dyn DynTextureView>) -> Attachment {
    Attachment {
        view: at.target.view.number(),
        usage: usage_number(at.target.usage),
        part: Part::DepthStencil {
            depth: bits(at.depth_ops),
            stencil: bits(at.stencil_ops),
            clear_depth: at.clear_value.0.to_bits(),
            clear_stencil: at.clear_value.1,
        },
    }
}

/// The record of a colour attachment.
fn colour(at: &hal::ColorAttachment<dyn DynTextureView>) -> Attachment {
    Attachment {
        view: at.target.view.number(),
        usage: usage_number(at.target.usage),
        part: Part::Colour {
            operations: bits(at.ops),
            clear: colour_bits(at.clear_value),
        },
    }
}

/// The record of a resolve target.
fn resolve(target: &hal::Attachment<dyn DynTextureView>) -> Attachment {
    Attachment {
        view: target.view.number(),
        usage: usage_number(target.usage),
        part: Part::Resolve,
    }
}
