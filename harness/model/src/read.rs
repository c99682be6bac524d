//! "The session, from one file": bytes to records, and the numbers 1 to 5.

use sessions::layout::*;

/// A readable session.
#[derive(Clone, Debug)]
pub struct Session {
    pub max_colours: u32,
    pub max_views: u32,
    pub flags: u32,
    pub colour_bytes: u32,
    pub textures: Vec<Texture>,
    pub views: Vec<View>,
    pub passes: Vec<PassRow>,
}

/// What a texture row says of its surfaces.
#[derive(Clone, Copy, Debug)]
pub struct Texture {
    pub format: u32,
    pub dimension: u32,
    pub width: u32,
    pub height: u32,
    pub depth: u32,
    pub layers: u32,
    pub mips: u32,
    pub samples: u32,
    pub usage: u32,
}

/// A view with what it takes from its texture.
#[derive(Clone, Copy, Debug)]
pub struct View {
    pub number: u32,
    pub texture: u32,
    pub dimension: u32,
    pub mips: (u32, u32),
    pub layers: (u32, u32),
    pub usage: u32,
    pub resolvable: bool,
    pub format: u32,
    pub samples: u32,
    pub width: u32,
    pub height: u32,
    pub mip_depth: u32,
}

/// A pass row: its ends-buffer field, and the pass unless a field refuses it as 5.
#[derive(Clone, Debug)]
pub struct PassRow {
    pub ends: u32,
    pub pass: Option<Pass>,
}

/// A pass.
#[derive(Clone, Debug)]
pub struct Pass {
    pub mask: u32,
    pub depth_stencil: Option<DepthStencil>,
    pub colours: Vec<Option<Colour>>,
}

/// A load operation.
#[derive(Clone, Copy, Debug, PartialEq, Eq)]
pub enum Load {
    Load,
    Clear,
    DontCare,
}

/// A store operation.
#[derive(Clone, Copy, Debug, PartialEq, Eq)]
pub enum Store {
    Store,
    Discard,
}

/// The depth-stencil part of a pass.
#[derive(Clone, Copy, Debug)]
pub struct DepthStencil {
    pub view: View,
    pub depth: Channel,
    pub stencil: Channel,
}

/// A channel as given.
#[derive(Clone, Copy, Debug)]
pub struct Channel {
    pub load: Option<Load>,
    pub store: Option<Store>,
    pub read_only: bool,
    pub clear: Option<u32>,
}

/// A filled colour slot.
#[derive(Clone, Copy, Debug)]
pub struct Colour {
    pub view: View,
    pub slice: Option<u32>,
    pub resolve: Option<View>,
    pub load: Load,
    pub store: Store,
    pub clear: [u64; 4],
}

/// The u32 at an offset; the caller knows that the file reaches that far.
fn u32_at(bytes: &[u8], at: usize) -> u32 {
    let mut four = [0; 4];
    four.copy_from_slice(&bytes[at..at + FIELD_LEN]);
    u32::from_le_bytes(four)
}

/// The u64 at an offset.
fn u64_at(bytes: &[u8], at: usize) -> u64 {
    u64::from(u32_at(bytes, at)) + (u64::from(u32_at(bytes, at + FIELD_LEN)) << 32)
}

/// Reads a session, or says its refusal.
pub fn session(bytes: &[u8]) -> Result<Session, u32> {
    if bytes.len() < HEADER_LEN || u32_at(bytes, TOTAL_AT) as usize != bytes.len() {
        return Err(1);
    }
    let h = |at: usize| u32_at(bytes, at);
    let (textures, views, passes) = (h(TEXTURE_COUNT_AT), h(VIEW_COUNT_AT), h(PASS_COUNT_AT));
    let lawful = [
        textures <= MAX_TEXTURES,
        views <= MAX_VIEWS,
        passes <= MAX_PASSES,
        (1..=SLOTS as u32).contains(&h(MAX_COLOURS_AT)),
        h(MAX_VIEWS_AT) <= MAX_MULTIVIEW,
        h(FLAGS_AT) <= ALL_FLAGS,
        (1..=MAX_COLOUR_BYTES).contains(&h(COLOUR_BYTES_AT)),
    ];
    if lawful.contains(&false) {
        return Err(2);
    }
    let views_at = HEADER_LEN + textures as usize * TEXTURE_LEN;
    let passes_at = views_at + views as usize * VIEW_LEN;
    let end = passes_at + passes as usize * PASS_LEN;
    let offsets = [TEXTURE_OFFSET_AT, VIEW_OFFSET_AT, PASS_OFFSET_AT, TOTAL_AT];
    if offsets.map(|at| h(at) as usize) != [HEADER_LEN, views_at, passes_at, end] {
        return Err(2);
    }
    let mut session = Session {
        max_colours: h(MAX_COLOURS_AT),
        max_views: h(MAX_VIEWS_AT),
        flags: h(FLAGS_AT),
        colour_bytes: h(COLOUR_BYTES_AT),
        textures: Vec::new(),
        views: Vec::new(),
        passes: Vec::new(),
    };
    for i in 0..textures as usize {
        let row = texture(bytes, HEADER_LEN + i * TEXTURE_LEN).ok_or(3u32)?;
        session.textures.push(row);
    }
    if session.surfaces() > MAX_SURFACES as usize {
        return Err(3);
    }
    for i in 0..views as usize {
        let row = view(bytes, views_at + i * VIEW_LEN, &session.textures).ok_or(4u32)?;
        session.views.push(View {
            number: i as u32,
            ..row
        });
    }
    for i in 0..passes as usize {
        let at = passes_at + i * PASS_LEN;
        session.passes.push(PassRow {
            ends: u32_at(bytes, at + PASS_ENDS_AT),
            pass: pass(bytes, at, &session.views),
        });
    }
    Ok(session)
}

impl Session {
    /// Whether a header flag is set.
    pub fn has(&self, flag: u32) -> bool {
        self.flags & flag != 0
    }

    /// Surfaces in all.
    pub fn surfaces(&self) -> usize {
        self.textures.iter().map(Texture::surfaces).sum()
    }

    /// A buffer ends with a flag of 1, and with the last pass.
    pub fn ends_buffer(&self, i: usize) -> bool {
        self.passes[i].ends == 1 || i == self.passes.len() - 1
    }
}

impl Texture {
    /// Slices of a mip: a 3D texture has the mip's depth, another texture one.
    pub fn slices(&self, mip: u32) -> u32 {
        match self.dimension {
            3 => mip_size(self.depth, mip),
            _ => 1,
        }
    }

    /// Surfaces over all mips: layers, or slices.
    fn surfaces(&self) -> usize {
        let of_mip = |mip: u32| (self.layers * self.slices(mip)) as usize;
        (0..self.mips).map(of_mip).sum()
    }
}

/// A texture row, unless a field refuses it.
fn texture(bytes: &[u8], at: usize) -> Option<Texture> {
    let f: [u32; TEXTURE_FIELDS] = std::array::from_fn(|i| u32_at(bytes, at + FIELD_LEN * i));
    let [format, dimension, width, height, depth, mips, samples, usage] = f;
    let size = 1..=MAX_SIZE;
    let lawful = matches!(format, 1..=14 | 20..=25)
        && matches!(dimension, 1..=3)
        && (format < 20 || dimension == 2)
        && size.contains(&width)
        && size.contains(&height)
        && matches!(depth, 1..=MAX_LAYERS)
        && matches!(mips, 1..=MAX_MIPS)
        && SAMPLES.contains(&samples)
        && usage <= ALL_USAGES;
    lawful.then_some(Texture {
        format,
        dimension,
        width,
        height,
        depth,
        layers: if dimension == 3 { 1 } else { depth },
        mips,
        samples,
        usage,
    })
}

/// A view row, unless a field refuses it.
fn view(bytes: &[u8], at: usize, textures: &[Texture]) -> Option<View> {
    let f: [u32; VIEW_FIELDS] = std::array::from_fn(|i| u32_at(bytes, at + FIELD_LEN * i));
    let [texture, dimension, mip, mips, layer, layers, usage, resolvable, format] = f;
    let t = textures.get(texture as usize)?;
    let pair = match t.dimension {
        1 => dimension == D1,
        2 => (D2..=CUBE_ARRAY).contains(&dimension),
        _ => dimension == D3,
    };
    let mips_end = mip.checked_add(mips)?;
    let layers_end = layer.checked_add(layers)?;
    let lawful = pair
        && mips > 0
        && layers > 0
        && mips_end <= t.mips
        && layers_end <= t.layers
        && usage & t.usage == usage
        && resolvable < 2
        && (format == t.format || matches!((format, t.format), (3, 4) | (4, 3) | (5, 6) | (6, 5)));
    lawful.then(|| View {
        number: 0,
        texture,
        dimension,
        mips: (mip, mips_end),
        layers: (layer, layers_end),
        usage,
        resolvable: resolvable == 1,
        format,
        samples: t.samples,
        width: mip_size(t.width, mip),
        height: mip_size(t.height, mip),
        mip_depth: mip_size(t.depth, mip),
    })
}

/// max(1, size divided by 2 to the mip, rounded down).
fn mip_size(size: u32, mip: u32) -> u32 {
    (size / 2u32.pow(mip)).max(1)
}

/// A field that is 0 or 1.
fn flag(value: u32) -> Option<bool> {
    match value {
        0 => Some(false),
        1 => Some(true),
        _ => None,
    }
}

/// A pass row, unless a field refuses it as 5.
fn pass(bytes: &[u8], at: usize, views: &[View]) -> Option<Pass> {
    let count = u32_at(bytes, at) as usize;
    flag(u32_at(bytes, at + PASS_ENDS_AT))?;
    if count > SLOTS {
        return None;
    }
    let depth_stencil = match u32_at(bytes, at + 3 * FIELD_LEN) {
        NONE => None,
        number => Some(DepthStencil {
            view: *views.get(number as usize)?,
            depth: channel(bytes, at + DEPTH_AT)?,
            stencil: channel(bytes, at + DEPTH_AT + CHANNEL_LEN)?,
        }),
    };
    let slot = |k: usize| colour(bytes, at + PASS_FRONT_LEN + k * SLOT_LEN, views);
    Some(Pass {
        mask: u32_at(bytes, at + FIELD_LEN),
        depth_stencil,
        colours: (0..count).map(slot).collect::<Option<Vec<_>>>()?,
    })
}

/// A channel, unless a field refuses it.
fn channel(bytes: &[u8], at: usize) -> Option<Channel> {
    let field = |k: usize| u32_at(bytes, at + FIELD_LEN * k);
    let read_only = flag(field(2))?;
    let given = flag(field(3))?;
    Some(Channel {
        load: match field(0) {
            NO_LOAD => None,
            value => Some(load(value)?),
        },
        store: match field(1) {
            NO_STORE => None,
            value => Some(store(value)?),
        },
        read_only,
        clear: given.then(|| field(4)),
    })
}

/// A load operation by its number.
fn load(value: u32) -> Option<Load> {
    match value {
        LOAD => Some(Load::Load),
        CLEAR => Some(Load::Clear),
        DONT_CARE => Some(Load::DontCare),
        _ => None,
    }
}

/// A store operation by its number.
fn store(value: u32) -> Option<Store> {
    match value {
        STORE => Some(Store::Store),
        DISCARD => Some(Store::Discard),
        _ => None,
    }
}

/// A colour slot, empty or filled, unless a field refuses it.
fn colour(bytes: &[u8], at: usize, views: &[View]) -> Option<Option<Colour>> {
    let field = |k: usize| u32_at(bytes, at + FIELD_LEN * k);
    let number = field(0);
    if number == NONE {
        return Some(None);
    }
    let given = flag(field(1))?;
    let resolve = match field(3) {
        NONE => None,
        target => Some(*views.get(target as usize)?),
    };
    Some(Some(Colour {
        view: *views.get(number as usize)?,
        slice: given.then(|| field(2)),
        resolve,
        load: load(field(4))?,
        store: store(field(5))?,
        clear: std::array::from_fn(|i| u64_at(bytes, at + SLOT_CLEAR_AT + COLOR_NUMBER_LEN * i)),
    }))
}
