//! Submission: what a buffer's actions and discards leave in the status bytes.

use sessions::reply::{Kind, Lists, Surface};

use crate::lists::covers;
use crate::read::Session;

/// Status bit: the surface is filled.
pub const FILLED: u8 = 1;
/// Status bit: the last submission cleared the surface.
pub const CLEARED: u8 = 2;

/// Every surface by texture, mip and slice or layer: the order of the status bytes.
pub fn surfaces(session: &Session) -> Vec<Surface> {
    let mut all = Vec::new();
    for (texture, t) in (0..).zip(&session.textures) {
        for mip in 0..t.mips {
            for slice in 0..t.slices(mip) {
                all.extend((0..t.layers).map(|layer| Surface {
                    texture,
                    mip,
                    layer,
                    slice,
                }));
            }
        }
    }
    all
}

/// Runs the actions in order, then marks discards empty; bytes past the last surface stay.
pub fn submit(session: &Session, lists: &Lists, status: &mut [u8]) {
    for (surface, byte) in surfaces(session).iter().zip(status) {
        *byte = after(surface, *byte, lists);
    }
}

/// The status byte of one surface after the submission.
fn after(surface: &Surface, before: u8, lists: &Lists) -> u8 {
    let mut filled = before & FILLED != 0;
    let mut cleared = false;
    for action in lists.actions.iter().filter(|a| covers(a, surface)) {
        cleared |= action.kind == Kind::Needing && !filled;
        filled = true;
    }
    filled &= !lists.discards.contains(surface);
    let bit = |set: bool, bit: u8| if set { bit } else { 0 };
    bit(filled, FILLED) | bit(cleared, CLEARED)
}
