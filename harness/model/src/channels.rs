//! Depth and stencil channels: the numbers 14 to 26, and what a channel then does.

use sessions::layout::{DEPTH_STENCIL_PLACE, STRICT, TRANSIENT};
use sessions::reply::operations;

use crate::read::{Channel, DepthStencil, Load, Session, Store};
use crate::verdict::{refuse_if, Check, Refusal};

/// What a channel does once it is checked.
#[derive(Clone, Copy, Debug, PartialEq, Eq)]
pub struct Resolved {
    pub read_only: bool,
    pub load: Load,
    pub store: Store,
    /// Bits of the clear value, zero where nothing is cleared.
    pub clear: u32,
}

/// A read-only channel loads and stores.
const READ_ONLY: Resolved = Resolved {
    read_only: true,
    load: Load::Load,
    store: Store::Store,
    clear: 0,
};

/// Formats with a depth aspect.
pub fn has_depth(format: u32) -> bool {
    (21..=25).contains(&format)
}

/// Formats with a stencil aspect.
pub fn has_stencil(format: u32) -> bool {
    [20, 23, 25].contains(&format)
}

/// Formats that are not colours.
pub fn is_depth_stencil(format: u32) -> bool {
    format >= 20
}

/// The operation bits of a load and a store.
pub fn operation_bits(load: Load, store: Store) -> u32 {
    let load = match load {
        Load::Load => operations::LOAD,
        Load::Clear => operations::CLEAR,
        Load::DontCare => operations::DONT_CARE,
    };
    let store = match store {
        Store::Store => operations::STORE,
        Store::Discard => operations::DISCARD,
    };
    load + store
}

/// The pair that a transient attachment must have.
pub fn transient_pair(load: Load, store: Store) -> bool {
    load != Load::Load && store == Store::Discard
}

/// 13 to 26 for a depth-stencil attachment: the resolved depth and stencil channels.
pub fn check(session: &Session, at: &DepthStencil) -> Result<(Resolved, Resolved), Refusal> {
    let format = at.view.format;
    refuse(!is_depth_stencil(format), 13)?;
    if at.view.usage & TRANSIENT != 0 {
        if has_depth(format) {
            check_transient(&at.depth, 14, 15)?;
        }
        if has_stencil(format) {
            check_transient(&at.stencil, 16, 17)?;
        }
    }
    let strict = session.has(STRICT);
    let depth = if has_depth(format) {
        resolve(&at.depth, strict, depth_clear)?
    } else {
        lacking(&at.depth, 25)?
    };
    let stencil = if has_stencil(format) {
        resolve(&at.stencil, strict, stencil_clear)?
    } else {
        lacking(&at.stencil, 26)?
    };
    Ok((depth, stencil))
}

/// A refusal at the depth-stencil attachment.
fn refuse(test: bool, number: u32) -> Check {
    refuse_if(test, number, DEPTH_STENCIL_PLACE)
}

/// A transient channel: with both operations it needs the pair, read-only it needs both.
fn check_transient(c: &Channel, wrong_pair: u32, read_only: u32) -> Check {
    match (c.load, c.store) {
        (Some(load), Some(store)) => refuse(!transient_pair(load, store), wrong_pair),
        _ => refuse(c.read_only, read_only),
    }
}

/// 18 to 24.
fn resolve(
    c: &Channel,
    strict: bool,
    clear_value: fn(Option<u32>) -> Result<u32, Refusal>,
) -> Result<Resolved, Refusal> {
    if c.read_only {
        refuse(c.load.is_some(), 18)?;
        refuse(c.store.is_some(), 19)?;
        return Ok(READ_ONLY);
    }
    let Some(load) = c.load else {
        return Err(at_depth_stencil(20));
    };
    let clear = if load == Load::Clear {
        clear_value(c.clear)?
    } else {
        0
    };
    refuse(strict && load == Load::DontCare, 23)?;
    let Some(store) = c.store else {
        return Err(at_depth_stencil(24));
    };
    Ok(Resolved {
        read_only: false,
        load,
        store,
        clear,
    })
}

/// A refusal at the depth-stencil attachment, as a value.
fn at_depth_stencil(number: u32) -> Refusal {
    Refusal {
        number,
        place: DEPTH_STENCIL_PLACE,
        earlier: sessions::layout::NO_PLACE,
    }
}

/// 21 and 22: a value is given and lies from 0 to 1; NaN does not.
fn depth_clear(given: Option<u32>) -> Result<u32, Refusal> {
    let bits = given.ok_or(at_depth_stencil(21))?;
    let value = f32::from_bits(bits);
    if (0.0..=1.0).contains(&value) {
        Ok(bits)
    } else {
        Err(at_depth_stencil(22))
    }
}

/// The low 8 bits; absent means 0.
fn stencil_clear(given: Option<u32>) -> Result<u32, Refusal> {
    Ok(given.unwrap_or(0) % 256)
}

/// 25 or 26: an aspect that the format lacks takes no operation and is read-only.
fn lacking(c: &Channel, number: u32) -> Result<Resolved, Refusal> {
    refuse(c.load.is_some() || c.store.is_some(), number)?;
    Ok(READ_ONLY)
}
