//! The rows of a session as plain records, and the bytes that they stand for.

use crate::layout::*;

/// A session: the header's settings and its rows.
#[derive(Clone, Debug, Default, PartialEq, Eq)]
pub struct Session {
    pub max_colours: u32,
    pub max_views: u32,
    pub flags: u32,
    pub colour_bytes: u32,
    pub textures: Vec<Texture>,
    pub views: Vec<View>,
    pub passes: Vec<Pass>,
}

/// A texture row.
#[derive(Clone, Copy, Debug, Default, PartialEq, Eq)]
pub struct Texture {
    pub format: u32,
    pub dimension: u32,
    pub width: u32,
    pub height: u32,
    /// Depth of a 3D texture, layers of another.
    pub depth_or_layers: u32,
    pub mips: u32,
    pub samples: u32,
    pub usage: u32,
}

/// A view row.
#[derive(Clone, Copy, Debug, Default, PartialEq, Eq)]
pub struct View {
    pub texture: u32,
    pub dimension: u32,
    pub base_mip: u32,
    pub mip_count: u32,
    pub base_layer: u32,
    pub layer_count: u32,
    pub usage: u32,
    pub resolvable: u32,
    pub format: u32,
}

/// The depth or stencil channel of a pass row.
#[derive(Clone, Copy, Debug, Default, PartialEq, Eq)]
pub struct Channel {
    pub load: u32,
    pub store: u32,
    pub read_only: u32,
    pub clear_given: u32,
    /// Bits of an f32 for depth, a number for stencil.
    pub clear: u32,
}

/// A colour slot of a pass row.
#[derive(Clone, Copy, Debug, Default, PartialEq, Eq)]
pub struct Slot {
    pub view: u32,
    pub slice_given: u32,
    pub slice: u32,
    pub resolve: u32,
    pub load: u32,
    pub store: u32,
    /// Bits of four f64: red, green, blue, alpha.
    pub clear: [u64; 4],
}

/// A pass row.
#[derive(Clone, Copy, Debug, Default, PartialEq, Eq)]
pub struct Pass {
    pub colours: u32,
    pub mask: u32,
    pub ends: u32,
    pub depth_stencil: u32,
    pub depth: Channel,
    pub stencil: Channel,
    pub slots: [Slot; SLOTS],
}

/// The header's fields.
#[derive(Clone, Copy, Debug, Default, PartialEq, Eq)]
pub struct Header {
    pub texture_count: u32,
    pub texture_offset: u32,
    pub view_count: u32,
    pub view_offset: u32,
    pub pass_count: u32,
    pub pass_offset: u32,
    pub max_colours: u32,
    pub max_views: u32,
    pub flags: u32,
    pub colour_bytes: u32,
    pub total: u32,
}

/// A channel that names no operation.
pub const NO_OPERATIONS: Channel = Channel {
    load: NO_LOAD,
    store: NO_STORE,
    read_only: 0,
    clear_given: 0,
    clear: 0,
};

/// A colour slot that holds no view.
pub const EMPTY_SLOT: Slot = Slot {
    view: NONE,
    slice_given: 0,
    slice: 0,
    resolve: NONE,
    load: LOAD,
    store: STORE,
    clear: [0; 4],
};

/// A pass without attachments that ends no buffer; what is not examined is zero.
pub const EMPTY_PASS: Pass = Pass {
    colours: 0,
    mask: 0,
    ends: 0,
    depth_stencil: NONE,
    depth: ZERO_CHANNEL,
    stencil: ZERO_CHANNEL,
    slots: [ZERO_SLOT; SLOTS],
};

/// A channel of zero bytes.
const ZERO_CHANNEL: Channel = Channel {
    load: 0,
    store: 0,
    read_only: 0,
    clear_given: 0,
    clear: 0,
};

/// A colour slot of zero bytes.
const ZERO_SLOT: Slot = Slot {
    view: 0,
    resolve: 0,
    ..EMPTY_SLOT
};

/// A 4 × 4 texture of one mip, layer and sample, for rendering.
pub const PLAIN_TEXTURE: Texture = Texture {
    format: 3,
    dimension: 2,
    width: 4,
    height: 4,
    depth_or_layers: 1,
    mips: 1,
    samples: 1,
    usage: RENDER_ATTACHMENT,
};

/// A view of texture 0's first mip and layer, for rendering, resolvable.
pub const PLAIN_VIEW: View = View {
    texture: 0,
    dimension: D2,
    base_mip: 0,
    mip_count: 1,
    base_layer: 0,
    layer_count: 1,
    usage: RENDER_ATTACHMENT,
    resolvable: 1,
    format: PLAIN_TEXTURE.format,
};

/// A row of little-endian u32 fields.
pub trait Row: Sized {
    /// Bytes of the row.
    const LEN: usize;
    /// The row with these fields; there are `LEN / FIELD_LEN` of them.
    fn from_fields(fields: &[u32]) -> Self;
    /// The row's fields in file order.
    fn fields(&self) -> Vec<u32>;

    /// The row whose bytes start at `at`, or none where the file ends before it.
    fn read(bytes: &[u8], at: usize) -> Option<Self> {
        let row = bytes.get(at..at.checked_add(Self::LEN)?)?;
        let fields: Vec<u32> = row.chunks_exact(FIELD_LEN).map(le_u32).collect();
        Some(Self::from_fields(&fields))
    }

    /// Appends the row's bytes.
    fn write(&self, out: &mut Vec<u8>) {
        for field in self.fields() {
            out.extend_from_slice(&field.to_le_bytes());
        }
    }
}

/// The little-endian number of four bytes.
fn le_u32(bytes: &[u8]) -> u32 {
    u32::from_le_bytes([bytes[0], bytes[1], bytes[2], bytes[3]])
}

impl Row for Header {
    const LEN: usize = HEADER_LEN;

    fn from_fields(f: &[u32]) -> Self {
        Header {
            texture_count: f[0],
            texture_offset: f[1],
            view_count: f[2],
            view_offset: f[3],
            pass_count: f[4],
            pass_offset: f[5],
            max_colours: f[6],
            max_views: f[7],
            flags: f[8],
            colour_bytes: f[9],
            total: f[10],
        }
    }

    fn fields(&self) -> Vec<u32> {
        vec![
            self.texture_count,
            self.texture_offset,
            self.view_count,
            self.view_offset,
            self.pass_count,
            self.pass_offset,
            self.max_colours,
            self.max_views,
            self.flags,
            self.colour_bytes,
            self.total,
        ]
    }
}

impl Row for Texture {
    const LEN: usize = TEXTURE_LEN;

    fn from_fields(f: &[u32]) -> Self {
        Texture {
            format: f[0],
            dimension: f[1],
            width: f[2],
            height: f[3],
            depth_or_layers: f[4],
            mips: f[5],
            samples: f[6],
            usage: f[7],
        }
    }

    fn fields(&self) -> Vec<u32> {
        vec![
            self.format,
            self.dimension,
            self.width,
            self.height,
            self.depth_or_layers,
            self.mips,
            self.samples,
            self.usage,
        ]
    }
}

impl Row for View {
    const LEN: usize = VIEW_LEN;

    fn from_fields(f: &[u32]) -> Self {
        View {
            texture: f[0],
            dimension: f[1],
            base_mip: f[2],
            mip_count: f[3],
            base_layer: f[4],
            layer_count: f[5],
            usage: f[6],
            resolvable: f[7],
            format: f[8],
        }
    }

    fn fields(&self) -> Vec<u32> {
        vec![
            self.texture,
            self.dimension,
            self.base_mip,
            self.mip_count,
            self.base_layer,
            self.layer_count,
            self.usage,
            self.resolvable,
            self.format,
        ]
    }
}

impl Row for Channel {
    const LEN: usize = CHANNEL_LEN;

    fn from_fields(f: &[u32]) -> Self {
        Channel {
            load: f[0],
            store: f[1],
            read_only: f[2],
            clear_given: f[3],
            clear: f[4],
        }
    }

    fn fields(&self) -> Vec<u32> {
        vec![
            self.load,
            self.store,
            self.read_only,
            self.clear_given,
            self.clear,
        ]
    }
}

impl Row for Slot {
    const LEN: usize = SLOT_LEN;

    fn from_fields(f: &[u32]) -> Self {
        let wide = |i: usize| u64::from(f[i]) | u64::from(f[i + 1]) << 32;
        Slot {
            view: f[0],
            slice_given: f[1],
            slice: f[2],
            resolve: f[3],
            load: f[4],
            store: f[5],
            clear: [wide(6), wide(8), wide(10), wide(12)],
        }
    }

    fn fields(&self) -> Vec<u32> {
        let mut fields = vec![
            self.view,
            self.slice_given,
            self.slice,
            self.resolve,
            self.load,
            self.store,
        ];
        for value in self.clear {
            fields.extend([value as u32, (value >> 32) as u32]);
        }
        fields
    }
}

impl Row for Pass {
    const LEN: usize = PASS_LEN;

    fn from_fields(f: &[u32]) -> Self {
        let (depth, stencil) = (PASS_OWN_FIELDS, PASS_OWN_FIELDS + CHANNEL_FIELDS);
        let slots = PASS_FRONT_LEN / FIELD_LEN;
        let slot = |k: usize| Slot::from_fields(&f[slots + k * SLOT_LEN / FIELD_LEN..]);
        Pass {
            colours: f[0],
            mask: f[1],
            ends: f[2],
            depth_stencil: f[3],
            depth: Channel::from_fields(&f[depth..stencil]),
            stencil: Channel::from_fields(&f[stencil..slots]),
            slots: std::array::from_fn(slot),
        }
    }

    fn fields(&self) -> Vec<u32> {
        let mut fields = vec![self.colours, self.mask, self.ends, self.depth_stencil];
        fields.extend(self.depth.fields());
        fields.extend(self.stencil.fields());
        for slot in &self.slots {
            fields.extend(slot.fields());
        }
        fields
    }
}

impl Session {
    /// A session without rows: eight colours, no multiview, no flag.
    pub fn new() -> Self {
        Session {
            max_colours: SLOTS as u32,
            colour_bytes: MAX_COLOUR_BYTES,
            ..Session::default()
        }
    }

    /// The header that document 01 asks of these rows.
    pub fn header(&self) -> Header {
        let views_at = HEADER_LEN + self.textures.len() * TEXTURE_LEN;
        let passes_at = views_at + self.views.len() * VIEW_LEN;
        Header {
            texture_count: self.textures.len() as u32,
            texture_offset: HEADER_LEN as u32,
            view_count: self.views.len() as u32,
            view_offset: views_at as u32,
            pass_count: self.passes.len() as u32,
            pass_offset: passes_at as u32,
            max_colours: self.max_colours,
            max_views: self.max_views,
            flags: self.flags,
            colour_bytes: self.colour_bytes,
            total: (passes_at + self.passes.len() * PASS_LEN) as u32,
        }
    }

    /// The file's bytes.
    pub fn to_bytes(&self) -> Vec<u8> {
        let mut out = Vec::new();
        self.header().write(&mut out);
        self.textures.iter().for_each(|row| row.write(&mut out));
        self.views.iter().for_each(|row| row.write(&mut out));
        self.passes.iter().for_each(|row| row.write(&mut out));
        out
    }

    /// The rows that the header points at, or none where one lies past the file's end.
    /// No field is tested.
    pub fn decode(bytes: &[u8]) -> Option<Session> {
        let header = Header::read(bytes, 0)?;
        Some(Session {
            max_colours: header.max_colours,
            max_views: header.max_views,
            flags: header.flags,
            colour_bytes: header.colour_bytes,
            textures: rows(bytes, header.texture_offset, header.texture_count)?,
            views: rows(bytes, header.view_offset, header.view_count)?,
            passes: rows(bytes, header.pass_offset, header.pass_count)?,
        })
    }
}

/// `count` rows from `offset` on.
fn rows<R: Row>(bytes: &[u8], offset: u32, count: u32) -> Option<Vec<R>> {
    (0..count as usize)
        .map(|i| R::read(bytes, offset as usize + i * R::LEN))
        .collect()
}
