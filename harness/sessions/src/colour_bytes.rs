//! The colour bytes per sample of a pass, for limits around them: what random and enumerated sessions
//! are made with, and nothing is judged by.

use crate::layout::{MAX_COLOUR_BYTES, SLOTS};
use crate::rows::{Pass, Session, Slot};

/// Cost and alignment of the colour formats, from format 1 on.
const TARGETS: [(u32, u32); 14] = [
    (1, 1),
    (2, 1),
    (8, 1),
    (8, 1),
    (8, 1),
    (8, 1),
    (2, 2),
    (4, 2),
    (8, 2),
    (4, 4),
    (8, 4),
    (16, 4),
    (8, 4),
    (8, 4),
];

/// Cost and alignment of each slot that names a view of a colour format.
pub fn targets(session: &Session, pass: &Pass) -> Vec<(u32, u32)> {
    let target = |slot: &Slot| {
        let view = session.views.get(slot.view as usize)?;
        TARGETS.get(view.format.checked_sub(1)? as usize)
    };
    let slots = &pass.slots[..(pass.colours as usize).min(SLOTS)];
    slots.iter().filter_map(target).copied().collect()
}

/// The sum over a pass's slots.
pub fn sum(session: &Session, pass: &Pass) -> u32 {
    let targets = targets(session, pass).into_iter();
    targets.fold(0, |bytes, (cost, alignment)| {
        bytes.next_multiple_of(alignment) + cost
    })
}

/// The lawful limits among one under the sum, the sum itself and one over it.
pub fn limits_around(sum: u32) -> impl Iterator<Item = u32> {
    let near = sum.saturating_sub(1)..=sum + 1;
    near.filter(|limit| (1..=MAX_COLOUR_BYTES).contains(limit))
}
