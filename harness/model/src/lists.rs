//! Discards, actions and clears: what each attachment registers.

use sessions::reply::{Action, Kind, Lists, Surface};

use crate::read::{Load, Store, View};

/// What an attachment asks of the lists.
#[derive(Clone, Copy, Debug)]
pub struct Plan {
    pub action: Option<Kind>,
    pub discards: bool,
}

/// A load needs its memory, a store fills it; a discard is listed.
pub fn plan(load: Load, store: Store) -> Plan {
    Plan {
        action: match (load, store) {
            (Load::Load, _) => Some(Kind::Needing),
            (_, Store::Store) => Some(Kind::Implicit),
            _ => None,
        },
        discards: store == Store::Discard,
    }
}

/// The action of a view's range, at the slice that is drawn to.
fn action(view: &View, slice: u32, kind: Kind) -> Action {
    Action {
        kind,
        texture: view.texture,
        mips: view.mips,
        layers: view.layers,
        slice,
    }
}

/// Which layers of a discarded view are listed.
#[derive(Clone, Copy, Debug)]
pub enum Listed {
    /// Each of them, lowest first.
    Every,
    /// The first alone, as the Rust has it.
    First,
}

/// The lists while a pass is recorded.
pub struct Recording {
    listed: Listed,
    pub lists: Lists,
    pub clears: Vec<Surface>,
    /// The greatest length that the discard list has had.
    pub most_discards: usize,
}

impl Recording {
    /// A recording that starts with the lists as found.
    pub fn new(lists: &Lists, listed: Listed) -> Self {
        Recording {
            listed,
            lists: lists.clone(),
            clears: Vec::new(),
            most_discards: lists.discards.len(),
        }
    }

    /// Records an attachment at a slice, 0 of a view that is not D3: first its action, then its
    /// discards.
    pub fn attach(&mut self, view: &View, slice: u32, plan: Plan) {
        if let Some(kind) = plan.action {
            self.register(action(view, slice, kind));
        }
        if plan.discards {
            self.discard(view, slice);
        }
    }

    /// Lists a discarded view, all its layers in one step.
    fn discard(&mut self, view: &View, slice: u32) {
        let (first, end) = view.layers;
        let layers = match self.listed {
            Listed::Every => first..end,
            Listed::First => first..first + 1,
        };
        self.lists.discards.extend(layers.map(|layer| Surface {
            texture: view.texture,
            mip: view.mips.0,
            layer,
            slice,
        }));
        let length = self.lists.discards.len();
        self.most_discards = self.most_discards.max(length);
    }

    /// Matching discards leave the list; a needing action returns each as a clear and adds an
    /// implicit action for it.
    fn register(&mut self, action: Action) {
        self.lists.actions.push(action);
        let held = std::mem::take(&mut self.lists.discards);
        for discard in held {
            if !covers(&action, &discard) {
                self.lists.discards.push(discard);
            } else if action.kind == Kind::Needing {
                self.clears.push(discard);
                self.lists.actions.push(Action {
                    kind: Kind::Implicit,
                    texture: discard.texture,
                    mips: (discard.mip, discard.mip + 1),
                    layers: (discard.layer, discard.layer + 1),
                    slice: discard.slice,
                });
            }
        }
    }
}

/// Whether a surface lies in an action's range.
pub fn covers(action: &Action, surface: &Surface) -> bool {
    let within = |at: u32, range: (u32, u32)| range.0 <= at && at < range.1;
    action.texture == surface.texture
        && within(surface.mip, action.mips)
        && within(surface.layer, action.layers)
        && action.slice == surface.slice
}
