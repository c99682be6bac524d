//! A session's rows as the device, textures and views of the Rust.

use std::sync::Arc;

use sessions::layout::*;
use sessions::reader::layers;
use sessions::Session;

use crate::stand_ins::device::{Alignments, Device, DownlevelCapabilities, Limits};
use crate::stand_ins::init_tracker::{StatusLock, TextureInitTracker};
use crate::stand_ins::resource::{
    FormatFeatures, Texture, TextureDescriptor, TextureView, TextureViewNotRenderableReason,
    TrackingData, ViewDescriptor, ViewRange,
};
use crate::stand_ins::track::TrackerIndex;
use crate::stand_ins::wgt::{
    DownlevelFlags, Extent3d, Features, InstanceFlags, TextureDimension, TextureFormat,
    TextureFormatFeatureFlags, TextureSelector, TextureUsages, TextureViewDimension,
};

/// The resources of a session.
pub(crate) struct Resources {
    pub device: Arc<Device>,
    pub textures: Vec<Arc<Texture>>,
    pub views: Vec<Arc<TextureView>>,
}

impl Resources {
    /// The resources of a readable session; every texture starts empty.
    pub fn new(session: &Session) -> Resources {
        let numbered = session.textures.iter().enumerate();
        let textures: Vec<_> = numbered
            .map(|(i, row)| Arc::new(texture(i as u32, row)))
            .collect();
        let views = session.views.iter().enumerate().map(|(i, row)| {
            let at = row.texture as usize;
            Arc::new(view(i as u32, row, &session.textures[at], &textures[at]))
        });
        Resources {
            device: Arc::new(device(session)),
            views: views.collect(),
            textures,
        }
    }
}

/// The header's settings as limits, features and flags.
fn device(session: &Session) -> Device {
    let flag = |flag: u32, value: u32| if session.flags & flag != 0 { value } else { 0 };
    Device {
        limits: Limits {
            max_color_attachments: session.max_colours,
            max_multiview_view_count: session.max_views,
            max_color_attachment_bytes_per_sample: session.colour_bytes,
        },
        features: Features(
            flag(MULTIVIEW, Features::MULTIVIEW.0)
                | flag(SELECTIVE_MULTIVIEW, Features::SELECTIVE_MULTIVIEW.0),
        ),
        downlevel: DownlevelCapabilities {
            flags: DownlevelFlags(flag(
                READ_ONLY_DEPTH_STENCIL,
                DownlevelFlags::READ_ONLY_DEPTH_STENCIL.0,
            )),
        },
        instance_flags: InstanceFlags(flag(STRICT, InstanceFlags::STRICT_WEBGPU_COMPLIANCE.0)),
        alignments: Alignments,
        zero_buffer: Box::new(()),
    }
}

/// A format by its number.
fn format(number: u32) -> TextureFormat {
    match number {
        20 => TextureFormat::Stencil8,
        21 => TextureFormat::Depth16Unorm,
        22 => TextureFormat::Depth24Plus,
        23 => TextureFormat::Depth24PlusStencil8,
        24 => TextureFormat::Depth32Float,
        25 => TextureFormat::Depth32FloatStencil8,
        colour => TextureFormat::Color(colour),
    }
}

/// A texture of a row; its number is its tracker index.
fn texture(number: u32, row: &sessions::Texture) -> Texture {
    Texture {
        desc: TextureDescriptor {
            size: Extent3d {
                width: row.width,
                height: row.height,
                depth_or_array_layers: row.depth_or_layers,
            },
            dimension: match row.dimension {
                1 => TextureDimension::D1,
                2 => TextureDimension::D2,
                _ => TextureDimension::D3,
            },
            usage: TextureUsages(row.usage),
        },
        tracking_data: TrackingData(TrackerIndex(number)),
        initialization_status: StatusLock::new(TextureInitTracker::new(row.mips, layers(row))),
    }
}

/// A view dimension by its number.
fn view_dimension(number: u32) -> TextureViewDimension {
    match number {
        D1 => TextureViewDimension::D1,
        D2 => TextureViewDimension::D2,
        D2_ARRAY => TextureViewDimension::D2Array,
        CUBE => TextureViewDimension::Cube,
        CUBE_ARRAY => TextureViewDimension::CubeArray,
        _ => TextureViewDimension::D3,
    }
}

/// A view of a row, with what it takes from its texture.
fn view(
    number: u32,
    row: &sessions::View,
    texture: &sessions::Texture,
    parent: &Arc<Texture>,
) -> TextureView {
    TextureView {
        number,
        parent: parent.clone(),
        selector: TextureSelector {
            mips: row.base_mip..row.base_mip + row.mip_count,
            layers: row.base_layer..row.base_layer + row.layer_count,
        },
        desc: ViewDescriptor {
            format: format(row.format),
            dimension: view_dimension(row.dimension),
            usage: TextureUsages(row.usage),
            range: ViewRange {
                base_mip_level: row.base_mip,
                base_array_layer: row.base_layer,
            },
        },
        samples: texture.samples,
        format_features: FormatFeatures {
            flags: TextureFormatFeatureFlags(row.resolvable),
        },
        render_extent: render_extent(row, parent),
    }
}

/// Renderable by document 01 and W3C: the usage, one of three dimensions, one mip. The extent
/// is one layer of the base mip.
fn render_extent(
    row: &sessions::View,
    parent: &Texture,
) -> Result<Extent3d, TextureViewNotRenderableReason> {
    let renderable = row.usage & RENDER_ATTACHMENT != 0
        && matches!(row.dimension, D2 | D2_ARRAY | D3)
        && row.mip_count == 1;
    let size = parent
        .desc
        .size
        .mip_level_size(row.base_mip, parent.desc.dimension);
    let extent = Extent3d {
        depth_or_array_layers: 1,
        ..size
    };
    renderable
        .then_some(extent)
        .ok_or(TextureViewNotRenderableReason)
}
