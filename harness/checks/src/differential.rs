//! A session file through the C interface, call by call, against the Rust and the model: every
//! field of every reply, every byte of the lent buffers, whole sessions, calls on buffers that are
//! short or off by one, and the places of surfaces among the status bytes.

use std::fmt;

use compare::reduce::reduce;
use compare::{agreed, Counts};
use interface::{Desk, Lists};
use sessions::layout::COUNT_LEN;
use sessions::random::{self, Prng};
use sessions::reader;
use sessions::reply::{Answer, Judged};
use sessions::text;

use crate::calls::{difference, make, Call, Outcome, Seen};
use crate::expected::{after_pass, after_submission, reply_record};
use crate::surfaces;
use crate::variants;
use crate::whole;

/// What a run has seen.
#[derive(Clone, Debug, Default)]
pub struct Tally {
    pub answers: Counts,
    /// Calls on lent buffers that were made short or off by one.
    pub variants: Seen,
    /// Calls for the status byte of a surface.
    pub surfaces: Seen,
}

impl fmt::Display for Tally {
    fn fmt(&self, f: &mut fmt::Formatter) -> fmt::Result {
        write!(f, "{}", self.answers)?;
        write!(f, "calls on changed lent buffers {}", self.variants)?;
        write!(f, "surfaces asked for {}", self.surfaces)
    }
}

/// Holds one file's answers and adds them to the tally. A difference is told with a small file that
/// shows one.
pub fn hold(
    desk: &dyn Desk,
    bytes: &[u8],
    prng: &mut Prng,
    tally: &mut Tally,
) -> Result<(), String> {
    let expected = agreed(bytes).map_err(|wrong| format!("{wrong}{}", the_file(bytes)))?;
    tally.answers.add(bytes, &expected);
    let filled = fresh(bytes, prng);
    let Ok(states) = held(desk, bytes, &expected, &filled) else {
        return Err(smallest(desk, bytes, &filled));
    };
    variants::hold(desk, bytes, &states, prng, &mut tally.variants)
        .and_then(|()| surfaces::hold(desk, bytes, prng, &mut tally.surfaces))
        .map_err(|wrong| format!("{wrong}{}", the_file(bytes)))
}

/// The file through the calls, and in one: the lists before each pass.
fn held(
    desk: &dyn Desk,
    bytes: &[u8],
    expected: &Answer,
    fresh: &Lists,
) -> Result<Vec<Lists>, String> {
    let states = walk(desk, bytes, expected, fresh)?;
    whole::hold(desk, bytes)?;
    Ok(states)
}

/// Fresh lists: counts and the surfaces' status 0. In half of the cases the buffers are longer than
/// needed, and hold anything behind that.
fn fresh(bytes: &[u8], prng: &mut Prng) -> Lists {
    let mut lists = Lists::fresh();
    if prng.chance(50) {
        return lists;
    }
    let surfaces = reader::read(bytes).map_or(0, |s| reader::surfaces(&s) as usize);
    let parts = [
        (&mut lists.discards, COUNT_LEN),
        (&mut lists.actions, COUNT_LEN),
        (&mut lists.clears, COUNT_LEN),
        (&mut lists.status, surfaces),
    ];
    for (part, fixed) in parts {
        part.resize(part.len() + prng.below(20) as usize, 0);
        part[fixed..].fill_with(|| prng.bits() as u8);
    }
    lists
}

/// The file through the calls, from fresh lists: the lists before each pass.
fn walk(
    desk: &dyn Desk,
    bytes: &[u8],
    expected: &Answer,
    fresh: &Lists,
) -> Result<Vec<Lists>, String> {
    let refusal = desk.session_refusal(bytes);
    let rows = match expected {
        Err(number) if *number == refusal => return refused(desk, bytes, refusal, fresh),
        Ok(rows) if refusal == 0 => rows,
        _ => return Err(format!("the session's refusal is {refusal}\n")),
    };
    let mut lists = fresh.clone();
    let mut states = Vec::new();
    for row in rows {
        states.push(lists.clone());
        lists = pass(desk, bytes, row, lists)?;
        if let Some(status) = &row.submitted {
            lists = submission(desk, bytes, status, lists)?;
        }
    }
    Ok(states)
}

/// Every call on a refused session answers its number.
fn refused(
    desk: &dyn Desk,
    bytes: &[u8],
    number: u32,
    fresh: &Lists,
) -> Result<Vec<Lists>, String> {
    for call in [Call::Pass(0), Call::Submit] {
        let got = make(desk, bytes, call, fresh)?.number();
        if got != number {
            return Err(format!(
                "{call:?} of a session refused as {number}: {got}\n"
            ));
        }
    }
    Ok(vec![fresh.clone()])
}

/// One pass: the reply and what it leaves.
fn pass(desk: &dyn Desk, bytes: &[u8], row: &Judged, before: Lists) -> Result<Lists, String> {
    let expected = Outcome {
        words: reply_record(&row.reply).words(),
        lists: after_pass(&before, row),
    };
    let call = Call::Pass(row.pass as u32);
    let got = make(desk, bytes, call, &before)?;
    match difference(&expected, &got) {
        None => Ok(got.lists),
        Some(wrong) => Err(format!("pass {}\n{wrong}expected:\n{row}", row.pass)),
    }
}

/// One submission: what it leaves.
fn submission(
    desk: &dyn Desk,
    bytes: &[u8],
    status: &[u8],
    before: Lists,
) -> Result<Lists, String> {
    let expected = Outcome {
        words: vec![0],
        lists: after_submission(&before, status),
    };
    let got = make(desk, bytes, Call::Submit, &before)?;
    match difference(&expected, &got) {
        None => Ok(got.lists),
        Some(wrong) => Err(format!("submission\n{wrong}")),
    }
}

/// The first thing that is wrong with the answers to a file, if any.
fn fault(desk: &dyn Desk, bytes: &[u8], fresh: &Lists) -> Option<String> {
    let expected = agreed(bytes).ok()?;
    held(desk, bytes, &expected, fresh).err()
}

/// A small file that shows a fault, and the fault.
fn smallest(desk: &dyn Desk, bytes: &[u8], fresh: &Lists) -> String {
    let small = reduce(bytes, |bytes| fault(desk, bytes, fresh).is_some());
    let told = fault(desk, &small, fresh).unwrap_or_default();
    format!("{told}{}", the_file(&small))
}

/// The file as text.
fn the_file(bytes: &[u8]) -> String {
    format!("the file:\n{}", text::from_bytes(bytes))
}

/// Random files from a seed until there are this many passes; `shown` is told how many there are.
pub fn random_run(
    desk: &dyn Desk,
    seed: u64,
    passes: u64,
    shown: &mut dyn FnMut(u64),
) -> Result<Tally, String> {
    let mut prng = Prng::new(seed);
    let mut tally = Tally::default();
    while tally.answers.passes < passes {
        hold(desk, &random::file(&mut prng), &mut prng, &mut tally)?;
        shown(tally.answers.passes);
    }
    Ok(tally)
}

/// Every `step`th enumerated session.
pub fn enumerated_run(
    desk: &dyn Desk,
    seed: u64,
    step: usize,
    shown: &mut dyn FnMut(u64),
) -> Result<Tally, String> {
    let mut prng = Prng::new(seed);
    let mut tally = Tally::default();
    for session in sessions::enumerate::all().iter().step_by(step) {
        hold(desk, &session.to_bytes(), &mut prng, &mut tally)?;
        shown(tally.answers.passes);
    }
    Ok(tally)
}
