//! One pass: every check in order, then the reply and the lists.

use sessions::layout::*;
use sessions::reply::{aspects, usages, Attachment, Kind, Lists, Part, Reply};

use crate::channels::{self, has_depth, has_stencil, operation_bits, transient_pair, Resolved};
use crate::lists::{plan, Listed, Plan, Recording};
use crate::read::{Colour, DepthStencil, Load, Pass, Session, Store, View};
use crate::verdict::{refuse_if, Check, Refusal};
use crate::views::Seen;

/// An accepted pass: its reply, and the lists that it leaves.
pub struct Accepted {
    pub reply: Reply,
    pub lists: Lists,
}

/// A depth-stencil attachment with its checked channels.
#[derive(Clone, Copy)]
struct Checked {
    view: View,
    depth: Resolved,
    stencil: Resolved,
}

/// Judges a pass on the lists as found.
pub fn judge(
    session: &Session,
    pass: &Pass,
    found: &Lists,
    listed: Listed,
) -> Result<Accepted, Refusal> {
    check_colours(session, pass)?;
    let depth_stencil = match &pass.depth_stencil {
        Some(at) => Some(check_depth_stencil(session, at)?),
        None => None,
    };
    let mut seen = Seen::new(session, &pass.colours);
    if let Some(at) = &depth_stencil {
        seen.depth_stencil(&at.view)?;
    }
    for (slot, at) in filled(pass) {
        seen.colour(at, slot)?;
    }
    let Some((width, height, samples)) = seen.extent else {
        return Err(whole_pass(46));
    };
    check_mask(session, pass.mask, seen.layers.unwrap_or(1))?;
    let recording = Recording::new(found, listed);
    let recording = record(pass, depth_stencil.as_ref(), recording);
    refuse_if(recording.most_discards > DISCARDS, 49, NO_PLACE)?;
    refuse_if(recording.lists.actions.len() > ACTIONS, 50, NO_PLACE)?;
    let reply = Reply {
        refusal: 0,
        place: Some(NO_PLACE),
        earlier: Some(NO_PLACE),
        width,
        height,
        samples,
        depth_read_only: depth_stencil.is_some_and(|at| at.depth.read_only),
        stencil_read_only: depth_stencil.is_some_and(|at| at.stencil.read_only),
        divergent: depth_stencil.map_or(aspects::NONE, |at| divergent(&at)),
        attachments: attachments(session, pass, depth_stencil.as_ref()),
        clears: recording.clears,
    };
    Ok(Accepted {
        reply,
        lists: recording.lists,
    })
}

/// A refusal of the pass as a whole.
fn whole_pass(number: u32) -> Refusal {
    Refusal {
        number,
        place: NO_PLACE,
        earlier: NO_PLACE,
    }
}

/// The filled slots with their places.
fn filled(pass: &Pass) -> impl Iterator<Item = (u32, &Colour)> {
    let numbered = pass.colours.iter().enumerate();
    numbered.filter_map(|(slot, at)| Some((slot as u32, at.as_ref()?)))
}

/// 10 to 12.
fn check_colours(session: &Session, pass: &Pass) -> Check {
    let too_many = pass.colours.len() > session.max_colours as usize;
    refuse_if(too_many, 10, NO_PLACE)?;
    for (slot, at) in filled(pass) {
        let free_load = at.load == Load::DontCare;
        refuse_if(free_load && session.has(STRICT), 11, slot)?;
        let transient = at.view.usage & TRANSIENT != 0;
        refuse_if(transient && !transient_pair(at.load, at.store), 12, slot)?;
    }
    Ok(())
}

/// 13 to 26.
fn check_depth_stencil(session: &Session, at: &DepthStencil) -> Result<Checked, Refusal> {
    let (depth, stencil) = channels::check(session, at)?;
    Ok(Checked {
        view: at.view,
        depth,
        stencil,
    })
}

/// The mask's 31, and 47.
fn check_mask(session: &Session, mask: u32, layers: u32) -> Check {
    if mask == 0 {
        return Ok(());
    }
    let top_bit = 31 - mask.leading_zeros();
    refuse_if(top_bit >= layers, 31, NO_PLACE)?;
    let full = (0..layers).fold(0u32, |bits, layer| bits | 1 << layer);
    let partial = mask != full;
    refuse_if(partial && !session.has(SELECTIVE_MULTIVIEW), 47, NO_PLACE)
}

/// What depth and stencil together ask of the lists.
fn depth_stencil_plan(at: &Checked) -> Plan {
    let (depth, stencil) = (&at.depth, &at.stencil);
    if !has_stencil(at.view.format) {
        return plan(depth.load, depth.store);
    }
    if !has_depth(at.view.format) {
        return plan(stencil.load, stencil.store);
    }
    let loads_agree = depth.load == stencil.load;
    let stores_agree = depth.store == stencil.store;
    if loads_agree && stores_agree {
        return plan(depth.load, depth.store);
    }
    let either_loads = depth.load == Load::Load || stencil.load == Load::Load;
    Plan {
        action: match (either_loads, stores_agree) {
            (true, _) => Some(Kind::Needing),
            (false, false) => Some(Kind::Implicit),
            (false, true) => None,
        },
        discards: stores_agree && depth.store == Store::Discard,
    }
}

/// The aspect that alone is discarded.
fn divergent(at: &Checked) -> u32 {
    let both = has_depth(at.view.format) && has_stencil(at.view.format);
    match (at.depth.store, at.stencil.store) {
        (Store::Discard, Store::Store) if both => aspects::DEPTH,
        (Store::Store, Store::Discard) if both => aspects::STENCIL,
        _ => aspects::NONE,
    }
}

/// Records the attachments in order: depth-stencil, then each colour and its resolve target.
fn record(pass: &Pass, depth_stencil: Option<&Checked>, mut recording: Recording) -> Recording {
    if let Some(at) = depth_stencil {
        recording.attach(&at.view, 0, depth_stencil_plan(at));
    }
    for (_, at) in filled(pass) {
        recording.attach(&at.view, at.slice.unwrap_or(0), plan(at.load, at.store));
        if let Some(target) = &at.resolve {
            let filled_by_the_pass = Plan {
                action: Some(Kind::Implicit),
                discards: false,
            };
            recording.attach(target, 0, filled_by_the_pass);
        }
    }
    recording
}

/// The attachments of the reply.
fn attachments(session: &Session, pass: &Pass, at: Option<&Checked>) -> Vec<Attachment> {
    let mut all: Vec<Attachment> = Vec::new();
    all.extend(at.map(|at| depth_stencil_attachment(session, at)));
    for (_, at) in filled(pass) {
        all.push(colour_attachment(at));
        all.extend(at.resolve.map(|target| Attachment {
            view: target.number,
            usage: usages::COLOR_TARGET,
            part: Part::Resolve,
        }));
    }
    all
}

/// Usages 2 and 3 need both channels read-only and flag 8.
fn depth_stencil_attachment(session: &Session, at: &Checked) -> Attachment {
    let read = at.depth.read_only && at.stencil.read_only && session.has(READ_ONLY_DEPTH_STENCIL);
    Attachment {
        view: at.view.number,
        usage: if !read {
            usages::DEPTH_STENCIL_WRITE
        } else if at.view.usage & TEXTURE_BINDING != 0 {
            usages::DEPTH_STENCIL_READ_RESOURCE
        } else {
            usages::DEPTH_STENCIL_READ
        },
        part: Part::DepthStencil {
            depth: operation_bits(at.depth.load, at.depth.store),
            stencil: operation_bits(at.stencil.load, at.stencil.store),
            clear_depth: at.depth.clear,
            clear_stencil: at.stencil.clear,
        },
    }
}

/// A value that is not cleared is zero.
fn colour_attachment(at: &Colour) -> Attachment {
    Attachment {
        view: at.view.number,
        usage: usages::COLOR_TARGET,
        part: Part::Colour {
            operations: operation_bits(at.load, at.store),
            clear: if at.load == Load::Clear {
                at.clear
            } else {
                [0; 4]
            },
        },
    }
}
