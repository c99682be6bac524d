//! The calls of document 01 on lent lists, number 6 among them, and a whole session from fresh
//! lists.

use sessions::layout::*;
use sessions::reply::{deskcheck_lines, Action, Answer, Judged, Lists, Reply, Surface};

use crate::lists::Listed;
use crate::pass;
use crate::read::{self, Session};
use crate::submission;

/// What a caller lends: the entries that the lists hold and the room that they have.
#[derive(Clone, Debug, PartialEq, Eq)]
pub struct Lent {
    pub lists: Lists,
    pub clears: Vec<Surface>,
    pub status: Vec<u8>,
    pub discard_room: usize,
    pub action_room: usize,
    pub clear_room: usize,
}

impl Lent {
    /// Status 0 and no entries, with all the room that is asked for.
    pub fn fresh() -> Lent {
        Lent {
            lists: Lists::default(),
            clears: Vec::new(),
            status: vec![0; STATUS_LEN],
            discard_room: DISCARDS,
            action_room: ACTIONS,
            clear_room: CLEARS,
        }
    }

    /// Number 6 before all else: a buffer is too short.
    fn too_short(&self) -> bool {
        self.discard_room < DISCARDS
            || self.action_room < ACTIONS
            || self.clear_room < CLEARS
            || self.status.len() < STATUS_LEN
    }

    /// Number 6 after 4: a count, a record or a status byte is out of range.
    fn out_of_range(&self, session: &Session) -> bool {
        self.lists.discards.len() > DISCARDS
            || self.lists.actions.len() > ACTIONS
            || self.clears.len() > CLEARS
            || !self.lists.discards.iter().all(|s| names(session, s))
            || !self.clears.iter().all(|s| names(session, s))
            || !self.lists.actions.iter().all(|a| spans(session, a))
            || self.status[..session.surfaces()].iter().any(|b| *b > 3)
    }
}

/// Whether a record names a surface of the session.
pub fn names(session: &Session, s: &Surface) -> bool {
    let texture = session.textures.get(s.texture as usize);
    texture.is_some_and(|t| s.mip < t.mips && s.layer < t.layers && s.slice < t.slices(s.mip))
}

/// Whether a record's ranges are not empty and inside its texture, and each of its mips has its slice.
pub fn spans(session: &Session, a: &Action) -> bool {
    let within = |range: (u32, u32), end: u32| range.0 < range.1 && range.1 <= end;
    let Some(t) = session.textures.get(a.texture as usize) else {
        return false;
    };
    within(a.mips, t.mips)
        && within(a.layers, t.layers)
        && (a.mips.0..a.mips.1).all(|mip| a.slice < t.slices(mip))
}

/// The session, if neither the lent buffers nor the bytes refuse the call.
fn open(bytes: &[u8], lent: &Lent) -> Result<Session, u32> {
    if lent.too_short() {
        return Err(6);
    }
    let session = read::session(bytes)?;
    if lent.out_of_range(&session) {
        return Err(6);
    }
    Ok(session)
}

/// Checks one pass. A refusal leaves everything lent as found.
pub fn check_pass(bytes: &[u8], number: usize, lent: &mut Lent) -> Reply {
    match open(bytes, lent) {
        Ok(session) => judge(&session, number, lent, Listed::Every),
        Err(refusal) => Reply::refused(refusal, Some(NO_PLACE), Some(NO_PLACE)),
    }
}

/// Judges a pass of a readable session; a pass number at or past the count is a 5.
fn judge(session: &Session, number: usize, lent: &mut Lent, listed: Listed) -> Reply {
    let row = session.passes.get(number);
    let Some(pass) = row.and_then(|row| row.pass.as_ref()) else {
        return Reply::refused(5, Some(NO_PLACE), Some(NO_PLACE));
    };
    match pass::judge(session, pass, &lent.lists, listed) {
        Ok(accepted) => {
            lent.lists = accepted.lists;
            lent.clears = accepted.reply.clears.clone();
            accepted.reply
        }
        Err(r) => Reply::refused(r.number, Some(r.place), Some(r.earlier)),
    }
}

/// Submits the buffer: 0, or the number that refuses the call.
pub fn submit(bytes: &[u8], lent: &mut Lent) -> u32 {
    match open(bytes, lent) {
        Ok(session) => {
            submit_lent(&session, lent);
            0
        }
        Err(refusal) => refusal,
    }
}

/// Both lists are then empty; the clears stay.
fn submit_lent(session: &Session, lent: &mut Lent) {
    submission::submit(session, &lent.lists, &mut lent.status);
    lent.lists = Lists::default();
}

/// The place of a surface's byte among the status bytes, or a number: the session's refusal, or 6
/// for a surface that the session does not have.
pub fn surface_index(bytes: &[u8], surface: &Surface) -> Result<u32, u32> {
    let session = read::session(bytes)?;
    let mut all = submission::surfaces(&session).into_iter();
    all.position(|s| s == *surface).map(|at| at as u32).ok_or(6)
}

/// The whole session from fresh lists: each pass judged, each buffer submitted at its end.
pub fn run(bytes: &[u8]) -> Answer {
    run_listing(bytes, Listed::Every, |_| None)
}

/// The same with the first layer alone of each discarded view listed, as the Rust has it; `full` tells
/// the passes that 49 or 50 refuses.
pub fn run_first_layers(bytes: &[u8], full: impl Fn(usize) -> Option<u32>) -> Answer {
    run_listing(bytes, Listed::First, full)
}

/// The whole session with these layers listed and these passes refused.
fn run_listing(bytes: &[u8], listed: Listed, full: impl Fn(usize) -> Option<u32>) -> Answer {
    let session = read::session(bytes)?;
    let mut lent = Lent::fresh();
    let judged = |pass: usize| {
        let reply = match full(pass) {
            Some(number) => Reply::refused(number, Some(NO_PLACE), Some(NO_PLACE)),
            None => judge(&session, pass, &mut lent, listed),
        };
        let lists = lent.lists.clone();
        let submitted = session.ends_buffer(pass).then(|| {
            submit_lent(&session, &mut lent);
            lent.status[..session.surfaces()].to_vec()
        });
        Judged {
            pass,
            reply,
            lists,
            submitted,
        }
    };
    Ok((0..session.passes.len()).map(judged).collect())
}

/// What `deskcheck` prints for a file.
pub fn deskcheck(bytes: &[u8]) -> String {
    deskcheck_lines(&run(bytes))
}
