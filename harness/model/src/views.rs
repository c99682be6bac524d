//! From 30 on: the views of a pass, one after the other.

use std::collections::HashSet;

use sessions::layout::*;
use sessions::reply::Surface;

use crate::channels::is_depth_stencil;
use crate::read::{Colour, Session, View};
use crate::verdict::{refuse_after, refuse_if, Check};

/// What the views so far have settled.
pub struct Seen<'a> {
    session: &'a Session,
    /// Whether the colours of the pass are within the limit of bytes per sample.
    bytes_fit: bool,
    /// Layers of the first view.
    pub layers: Option<u32>,
    /// Width, height and samples of the first view.
    pub extent: Option<(u32, u32, u32)>,
    /// Place of the depth-stencil or colour view accepted last.
    last: u32,
    taken: HashSet<Surface>,
}

impl<'a> Seen<'a> {
    /// Nothing is settled yet but the bytes of the pass's colours.
    pub fn new(session: &'a Session, colours: &[Option<Colour>]) -> Self {
        let bytes = colours.iter().flatten().fold(0, with_colour);
        Seen {
            session,
            bytes_fit: bytes <= session.colour_bytes,
            layers: None,
            extent: None,
            last: NO_PLACE,
            taken: HashSet::new(),
        }
    }

    /// 30 to 36, for the depth-stencil view.
    pub fn depth_stencil(&mut self, view: &View) -> Check {
        self.multiview(view, DEPTH_STENCIL_PLACE)?;
        self.add(view, DEPTH_STENCIL_PLACE)
    }

    /// 30 to 40, 51 and 41 for a slot's view, then its resolve target.
    pub fn colour(&mut self, at: &Colour, place: u32) -> Check {
        let view = &at.view;
        self.multiview(view, place)?;
        self.add(view, place)?;
        refuse_if(is_depth_stencil(view.format), 37, place)?;
        match (view.dimension == D3, at.slice) {
            (true, None) => refuse_if(true, 39, place)?,
            (true, Some(slice)) => refuse_if(slice >= view.mip_depth, 38, place)?,
            (false, slice) => refuse_if(slice.is_some(), 40, place)?,
        }
        refuse_if(!self.bytes_fit, 51, place)?;
        self.overlap(view, at.slice, place)?;
        match &at.resolve {
            Some(target) => self.resolve(view, target, place),
            None => Ok(()),
        }
    }

    /// 30 to 33, 48, 41, 34, 35, 42 to 45.
    fn resolve(&mut self, source: &View, target: &View, slot: u32) -> Check {
        let place = slot + RESOLVE_PLACE;
        self.multiview(target, place)?;
        let flat = target.dimension == D2 || target.dimension == D2_ARRAY;
        refuse_if(!flat, 48, place)?;
        self.overlap(target, None, place)?;
        refuse_if(!renderable(target), 34, place)?;
        let extents_differ = (source.width, source.height) != (target.width, target.height);
        refuse_after(extents_differ, 35, place, self.last)?;
        let samples_wrong = source.samples == 1 || target.samples != 1;
        refuse_if(samples_wrong, 42, place)?;
        refuse_if(source.format != target.format, 43, place)?;
        refuse_if(!target.resolvable, 44, place)?;
        refuse_if(target.usage & TRANSIENT != 0, 45, place)
    }

    /// 30; for the first view 32 and 33; for the others 31.
    fn multiview(&mut self, view: &View, place: u32) -> Check {
        let layers = view.layers.1 - view.layers.0;
        refuse_if(layers >= 2 && view.dimension != D2_ARRAY, 30, place)?;
        match self.layers {
            None => {
                let several = layers >= 2;
                refuse_if(several && !self.session.has(MULTIVIEW), 32, place)?;
                refuse_if(several && layers > self.session.max_views, 33, place)?;
                self.layers = Some(layers);
                Ok(())
            }
            Some(first) => refuse_if(layers != first, 31, place),
        }
    }

    /// 34 to 36.
    fn add(&mut self, view: &View, place: u32) -> Check {
        refuse_if(!renderable(view), 34, place)?;
        let own = (view.width, view.height, view.samples);
        let (width, height, samples) = *self.extent.get_or_insert(own);
        let extents_differ = (width, height) != (view.width, view.height);
        refuse_after(extents_differ, 35, place, self.last)?;
        refuse_after(samples != view.samples, 36, place, self.last)?;
        self.last = place;
        Ok(())
    }

    /// 41: D2 and D2Array take their layers, D3 its slice, at the base mip.
    fn overlap(&mut self, view: &View, slice: Option<u32>, place: u32) -> Check {
        for layer in view.layers.0..view.layers.1 {
            let free = self.taken.insert(Surface {
                texture: view.texture,
                mip: view.mips.0,
                layer,
                slice: slice.unwrap_or(0),
            });
            refuse_if(!free, 41, place)?;
        }
        Ok(())
    }
}

/// Usage bit 16, dimension D2, D2Array or D3, one mip.
fn renderable(view: &View) -> bool {
    view.usage & RENDER_ATTACHMENT != 0
        && [D2, D2_ARRAY, D3].contains(&view.dimension)
        && view.mips.1 - view.mips.0 == 1
}

/// The bytes of a sample with one colour more: W3C's costs and alignments; a depth-stencil format adds nothing.
fn with_colour(bytes: u32, at: &Colour) -> u32 {
    let (cost, alignment) = match at.view.format {
        1 => (1, 1),
        2 => (2, 1),
        3..=6 => (8, 1),
        7 => (2, 2),
        8 => (4, 2),
        9 => (8, 2),
        10 => (4, 4),
        12 => (16, 4),
        11 | 13 | 14 => (8, 4),
        _ => return bytes,
    };
    bytes.next_multiple_of(alignment) + cost
}
