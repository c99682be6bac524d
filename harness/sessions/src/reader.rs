//! The numbers 1 to 5 of document 01: what makes a file a session, and a pass row readable.

use crate::layout::*;
use crate::rows::*;

/// The session of these bytes, or the number that refuses it: 1 to 4.
pub fn read(bytes: &[u8]) -> Result<Session, u32> {
    let header = Header::read(bytes, 0).ok_or(1u32)?;
    if header.total as usize != bytes.len() {
        return Err(1);
    }
    if !header_fits(&header) {
        return Err(2);
    }
    let session = Session::decode(bytes).ok_or(2u32)?;
    if !session.textures.iter().all(texture_fits) || surfaces(&session) > MAX_SURFACES {
        return Err(3);
    }
    if !session.views.iter().all(|view| view_fits(&session, view)) {
        return Err(4);
    }
    Ok(session)
}

/// Every header field but the total length, and the passes' end.
fn header_fits(h: &Header) -> bool {
    let views_at = HEADER_LEN as u64 + u64::from(h.texture_count) * TEXTURE_LEN as u64;
    let passes_at = views_at + u64::from(h.view_count) * VIEW_LEN as u64;
    let end = passes_at + u64::from(h.pass_count) * PASS_LEN as u64;
    h.texture_count <= MAX_TEXTURES
        && h.view_count <= MAX_VIEWS
        && h.pass_count <= MAX_PASSES
        && h.texture_offset as usize == HEADER_LEN
        && u64::from(h.view_offset) == views_at
        && u64::from(h.pass_offset) == passes_at
        && (1..=SLOTS as u32).contains(&h.max_colours)
        && h.max_views <= MAX_MULTIVIEW
        && h.flags <= ALL_FLAGS
        && (1..=MAX_COLOUR_BYTES).contains(&h.colour_bytes)
        && u64::from(h.total) == end
}

/// A texture row whose fields are lawful.
fn texture_fits(t: &Texture) -> bool {
    let colour = (1..=14).contains(&t.format);
    let depth_stencil = (20..=25).contains(&t.format) && t.dimension == 2;
    (colour || depth_stencil)
        && (1..=3).contains(&t.dimension)
        && (1..=MAX_SIZE).contains(&t.width)
        && (1..=MAX_SIZE).contains(&t.height)
        && (1..=MAX_LAYERS).contains(&t.depth_or_layers)
        && (1..=MAX_MIPS).contains(&t.mips)
        && SAMPLES.contains(&t.samples)
        && t.usage <= ALL_USAGES
}

/// Whether a texture is 3D: its surfaces are slices.
pub fn is_volume(t: &Texture) -> bool {
    t.dimension == 3
}

/// Whether a view has several layers.
pub fn is_layered(v: &View) -> bool {
    v.layer_count > 1
}

/// Layers of a texture: a 3D texture has one.
pub fn layers(t: &Texture) -> u32 {
    if is_volume(t) {
        1
    } else {
        t.depth_or_layers
    }
}

/// Slices of a mip: the mip's depth in a 3D texture, else one.
pub fn slices(t: &Texture, mip: u32) -> u32 {
    if is_volume(t) {
        (t.depth_or_layers >> mip).max(1)
    } else {
        1
    }
}

/// Surfaces of a texture, over all its mips.
pub fn surfaces_of(t: &Texture) -> u32 {
    (0..t.mips).map(|mip| slices(t, mip) * layers(t)).sum()
}

/// Surfaces of all textures together.
pub fn surfaces(session: &Session) -> u32 {
    session.textures.iter().map(surfaces_of).sum()
}

/// A view row whose fields are lawful for its texture.
fn view_fits(session: &Session, v: &View) -> bool {
    let Some(t) = session.textures.get(v.texture as usize) else {
        return false;
    };
    let of_texture = match v.dimension {
        D1 => 1,
        D2 | D2_ARRAY | CUBE | CUBE_ARRAY => 2,
        D3 => 3,
        _ => return false,
    };
    t.dimension == of_texture
        && range_fits(v.base_mip, v.mip_count, t.mips)
        && range_fits(v.base_layer, v.layer_count, layers(t))
        && v.usage & !t.usage == 0
        && v.resolvable <= 1
        && (v.format == t.format || v.format == sibling(t.format))
}

/// The format that differs in the sRGB suffix alone, or the format itself.
pub fn sibling(format: u32) -> u32 {
    match format {
        3 => 4,
        4 => 3,
        5 => 6,
        6 => 5,
        _ => format,
    }
}

/// A range that is not empty and ends at or before `end`.
fn range_fits(base: u32, count: u32, end: u32) -> bool {
    count >= 1 && u64::from(base) + u64::from(count) <= u64::from(end)
}

/// Whether every examined field of a pass row is lawful; otherwise the pass is refused as 5.
pub fn pass_fits(session: &Session, p: &Pass) -> bool {
    let views = session.views.len() as u32;
    p.colours <= SLOTS as u32
        && p.ends <= 1
        && depth_stencil_fits(p, views)
        && p.slots[..p.colours as usize]
            .iter()
            .all(|slot| slot_fits(slot, views))
}

/// The depth-stencil part: not examined where it names no view.
fn depth_stencil_fits(p: &Pass, views: u32) -> bool {
    p.depth_stencil == NONE
        || (p.depth_stencil < views && channel_fits(&p.depth) && channel_fits(&p.stencil))
}

/// A channel whose fields are lawful.
fn channel_fits(c: &Channel) -> bool {
    c.load <= NO_LOAD && c.store <= NO_STORE && c.read_only <= 1 && c.clear_given <= 1
}

/// A colour slot that is empty or whose fields are lawful.
fn slot_fits(s: &Slot, views: u32) -> bool {
    s.view == NONE
        || (s.view < views
            && s.slice_given <= 1
            && (s.resolve == NONE || s.resolve < views)
            && s.load <= DONT_CARE
            && s.store <= DISCARD)
}

/// Whether a buffer ends with pass `i`: flag 1, or the last pass.
pub fn ends_buffer(session: &Session, i: usize) -> bool {
    session.passes[i].ends == 1 || i + 1 == session.passes.len()
}
