//! Makes a file smaller while it keeps a property.

use sessions::layout::{NONE, SLOTS};
use sessions::rows::{EMPTY_PASS, EMPTY_SLOT};
use sessions::{reader, Pass, Session};

/// A file that keeps the property and loses it with any one row or attachment taken away.
/// A file that is not a session is left as it is.
pub fn reduce(bytes: &[u8], keeps: impl Fn(&[u8]) -> bool) -> Vec<u8> {
    let Ok(mut session) = reader::read(bytes) else {
        return bytes.to_vec();
    };
    while let Some(smaller) = smaller_ones(&session)
        .into_iter()
        .find(|smaller| keeps(&smaller.to_bytes()))
    {
        session = smaller;
    }
    session.to_bytes()
}

/// The session with one thing taken away, large things first.
fn smaller_ones(session: &Session) -> Vec<Session> {
    let passes = 0..session.passes.len();
    let mut all = Vec::new();
    if passes.len() > 1 {
        let mut half = session.clone();
        half.passes.truncate(passes.len() / 2);
        all.push(half);
    }
    for at in passes.clone().rev() {
        let mut without = session.clone();
        without.passes.remove(at);
        all.push(without);
    }
    for at in passes {
        for pass in smaller_passes(&session.passes[at]) {
            let mut changed = session.clone();
            changed.passes[at] = pass;
            all.push(changed);
        }
    }
    all.extend((0..session.views.len()).map(|at| without_view(session, at)));
    all.extend((0..session.textures.len()).map(|at| without_texture(session, at)));
    all
}

/// The pass without one of its attachments, its last slot, its mask, or what is not examined.
fn smaller_passes(pass: &Pass) -> Vec<Pass> {
    let mut all = Vec::new();
    let mut take = |change: &dyn Fn(&mut Pass)| {
        let mut smaller = *pass;
        change(&mut smaller);
        if smaller != *pass {
            all.push(smaller);
        }
    };
    take(&|p| p.depth_stencil = NONE);
    take(&|p| p.mask = 0);
    take(&|p| p.colours = p.colours.saturating_sub(1));
    for k in 0..(pass.colours as usize).min(SLOTS) {
        take(&|p| p.slots[k] = EMPTY_SLOT);
        take(&|p| p.slots[k].resolve = NONE);
        take(&|p| p.slots[k].clear = [0; 4]);
    }
    take(&forget_unexamined);
    all
}

/// Puts zeros where nothing is examined.
fn forget_unexamined(pass: &mut Pass) {
    for slot in pass.slots.iter_mut().skip(pass.colours as usize) {
        *slot = EMPTY_PASS.slots[0];
    }
    if pass.depth_stencil == NONE {
        pass.depth = EMPTY_PASS.depth;
        pass.stencil = EMPTY_PASS.stencil;
    }
}

/// The number of a row after row `at` is taken away.
fn moved(number: &mut u32, at: usize) {
    if *number != NONE && *number as usize > at {
        *number -= 1;
    }
}

/// The session without a view; whoever named it names the next one.
fn without_view(session: &Session, at: usize) -> Session {
    let mut smaller = session.clone();
    smaller.views.remove(at);
    for pass in &mut smaller.passes {
        moved(&mut pass.depth_stencil, at);
        for slot in &mut pass.slots {
            moved(&mut slot.view, at);
            moved(&mut slot.resolve, at);
        }
    }
    smaller
}

/// The session without a texture; whoever named it names the next one.
fn without_texture(session: &Session, at: usize) -> Session {
    let mut smaller = session.clone();
    smaller.textures.remove(at);
    for view in &mut smaller.views {
        moved(&mut view.texture, at);
    }
    smaller
}
