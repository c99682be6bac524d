//! `wgpu_types`: operations, formats, dimensions, flags and sizes.

/// An offset into a buffer, in errors.
pub type BufferAddress = u64;

/// A set of flags with the operations that the cut text uses.
macro_rules! flags {
    ($(#[$doc:meta])* $name:ident { $($flag:ident = $bit:expr),* $(,)? }) => {
        $(#[$doc])*
        #[derive(Clone, Copy, Debug, PartialEq, Eq)]
        pub struct $name(pub u32);

        #[allow(dead_code)]
        impl $name {
            $(pub const $flag: $name = $name($bit);)*

            pub fn contains(self, other: $name) -> bool {
                self.0 & other.0 == other.0
            }

            pub fn intersects(self, other: $name) -> bool {
                self.0 & other.0 != 0
            }
        }

        impl std::ops::BitOr for $name {
            type Output = $name;

            fn bitor(self, other: $name) -> $name {
                $name(self.0 | other.0)
            }
        }
    };
}
pub(crate) use flags;

flags!(
    /// Flags of the instance.
    InstanceFlags { STRICT_WEBGPU_COMPLIANCE = 1 }
);
flags!(
    /// Features of the device.
    Features { MULTIVIEW = 1, SELECTIVE_MULTIVIEW = 2 }
);
flags!(
    /// Downlevel flags of the device.
    DownlevelFlags { READ_ONLY_DEPTH_STENCIL = 1 }
);
flags!(
    /// What a view's format can do.
    TextureFormatFeatureFlags { MULTISAMPLE_RESOLVE = 1 }
);
flags!(
    /// Usages of a texture or view, by document 01's bits.
    TextureUsages { TEXTURE_BINDING = 4, RENDER_ATTACHMENT = 16, TRANSIENT_ATTACHMENT = 32 }
);
flags!(
    /// How an attachment is used inside a pass.
    TextureUses {
        COLOR_TARGET = 1,
        DEPTH_STENCIL_READ = 2,
        DEPTH_STENCIL_WRITE = 4,
        RESOURCE = 8,
    }
);

/// The token of a load operation that nobody cares about.
#[derive(Clone, Copy, Debug, PartialEq, Eq)]
pub struct LoadOpDontCare;

/// A load operation.
#[derive(Clone, Copy, Debug, PartialEq, Eq)]
pub enum LoadOp<V> {
    Clear(V),
    Load,
    DontCare(LoadOpDontCare),
}

impl<V> LoadOp<V> {
    /// Whether both are the same operation, whatever they clear to.
    pub fn eq_variant<T>(&self, other: LoadOp<T>) -> bool {
        matches!(
            (self, other),
            (LoadOp::Clear(_), LoadOp::Clear(_))
                | (LoadOp::Load, LoadOp::Load)
                | (LoadOp::DontCare(_), LoadOp::DontCare(_))
        )
    }
}

/// A store operation.
#[derive(Clone, Copy, Debug, PartialEq, Eq)]
pub enum StoreOp {
    Store,
    Discard,
}

/// A load and a store operation.
#[derive(Clone, Debug)]
pub struct Operations<V> {
    pub load: LoadOp<V>,
    pub store: StoreOp,
}

/// A colour.
#[derive(Clone, Copy, Debug, Default, PartialEq)]
pub struct Color {
    pub r: f64,
    pub g: f64,
    pub b: f64,
    pub a: f64,
}

/// The aspects that the cut text names.
#[derive(Clone, Copy, Debug, PartialEq, Eq)]
pub enum TextureAspect {
    DepthOnly,
    StencilOnly,
}

/// Formats by document 01's numbers; their aspects are W3C's.
#[derive(Clone, Copy, Debug, PartialEq, Eq)]
pub enum TextureFormat {
    Color(u32),
    Stencil8,
    Depth16Unorm,
    Depth24Plus,
    Depth24PlusStencil8,
    Depth32Float,
    Depth32FloatStencil8,
}

impl TextureFormat {
    /// W3C's table of depth-stencil formats.
    pub fn has_depth_aspect(self) -> bool {
        !matches!(self, Self::Color(_) | Self::Stencil8)
    }

    /// W3C's table of depth-stencil formats.
    pub fn has_stencil_aspect(self) -> bool {
        matches!(
            self,
            Self::Stencil8 | Self::Depth24PlusStencil8 | Self::Depth32FloatStencil8
        )
    }

    /// Whether the format is no colour.
    pub fn is_depth_stencil_format(self) -> bool {
        self.has_depth_aspect() || self.has_stencil_aspect()
    }

    /// Only the stencil aspect is asked for; its format is always stencil8.
    pub fn aspect_specific_format(self, aspect: TextureAspect) -> Option<Self> {
        (aspect == TextureAspect::StencilOnly && self.has_stencil_aspect())
            .then_some(Self::Stencil8)
    }

    /// Bytes of a pixel as a render target, by document 02; none for a format that is no colour.
    pub fn target_pixel_byte_cost(self) -> Option<u32> {
        let Self::Color(number) = self else {
            return None;
        };
        match number {
            1 => Some(1),
            2 | 7 => Some(2),
            8 | 10 => Some(4),
            3..=6 | 9 | 11 | 13 | 14 => Some(8),
            12 => Some(16),
            _ => None,
        }
    }

    /// Alignment of a component as a render target, by document 02; none for a format that is no colour.
    pub fn target_component_alignment(self) -> Option<u32> {
        let Self::Color(number) = self else {
            return None;
        };
        match number {
            1..=6 => Some(1),
            7..=9 => Some(2),
            10..=14 => Some(4),
            _ => None,
        }
    }
}

/// The dimension of a texture.
#[derive(Clone, Copy, Debug, PartialEq, Eq)]
pub enum TextureDimension {
    D1,
    D2,
    D3,
}

/// The dimension of a view.
#[derive(Clone, Copy, Debug, PartialEq, Eq)]
pub enum TextureViewDimension {
    D1,
    D2,
    D2Array,
    Cube,
    CubeArray,
    D3,
}

/// A size.
#[derive(Clone, Copy, Debug, Default, PartialEq, Eq)]
pub struct Extent3d {
    pub width: u32,
    pub height: u32,
    pub depth_or_array_layers: u32,
}

impl Extent3d {
    /// The size of a mip by W3C: only a 3D texture's depth shrinks.
    pub fn mip_level_size(&self, level: u32, dimension: TextureDimension) -> Self {
        let shrunk = |size: u32| (size >> level).max(1);
        Extent3d {
            width: shrunk(self.width),
            height: match dimension {
                TextureDimension::D1 => 1,
                _ => shrunk(self.height),
            },
            depth_or_array_layers: match dimension {
                TextureDimension::D3 => shrunk(self.depth_or_array_layers),
                _ => self.depth_or_array_layers,
            },
        }
    }
}

/// Mips and layers of a view.
#[derive(Clone, Debug, PartialEq, Eq)]
pub struct TextureSelector {
    pub mips: std::ops::Range<u32>,
    pub layers: std::ops::Range<u32>,
}

/// Query types; no query set exists here, so that none is made.
#[allow(dead_code)]
#[derive(Clone, Copy, Debug, PartialEq, Eq)]
pub enum QueryType {
    Occlusion,
}
