//! Random changes of an input of the C functions: the session, the lent buffers, the call.

use interface::{action_fields, put_records, surface_fields, Action, Kind, Lists, Surface};
use interface::{ACTIONS_LEN, CLEARS_LEN, DISCARDS_LEN, ROWS_LEN, STATUS_LEN};
use sessions::damage;
use sessions::layout::{ACTIONS, CLEARS, DISCARDS, FIELD_LEN, HEADER_LEN};
use sessions::layout::{PASS_FRONT_LEN, PASS_LEN, SLOTS, SLOT_LEN, SLOT_OWN_FIELDS};
use sessions::random::Prng;

use crate::calls::Call;

/// What is called.
#[derive(Clone, Copy, Debug, PartialEq, Eq, PartialOrd, Ord)]
pub enum Function {
    Refusal,
    Pass,
    Submit,
    Session,
    Index,
}

/// An input: a function with all that it is handed.
#[derive(Clone, Debug)]
pub struct Input {
    pub function: Function,
    pub session: Vec<u8>,
    pub pass: u32,
    pub lists: Lists,
    /// Bytes of the rows.
    pub rows: usize,
    /// The surface whose byte is asked for.
    pub surface: Surface,
}

impl Input {
    /// A pass check of a session from fresh lists.
    pub fn new(session: Vec<u8>) -> Input {
        Input {
            function: Function::Pass,
            session,
            pass: 0,
            lists: Lists::fresh(),
            rows: ROWS_LEN,
            surface: Surface::default(),
        }
    }

    /// The call on lent lists, if the function is one.
    pub fn call(&self) -> Option<Call> {
        match self.function {
            Function::Pass => Some(Call::Pass(self.pass)),
            Function::Submit => Some(Call::Submit),
            Function::Refusal | Function::Session | Function::Index => None,
        }
    }
}

/// One change of the input; parts of the other may be taken over.
pub fn change(input: &mut Input, other: &Input, prng: &mut Prng) {
    match prng.below(17) {
        0 | 1 => input.session = damage::random(&input.session, prng),
        2..6 => pass_field(&mut input.session, prng),
        6 => move_pass(&mut input.session, prng),
        7 => copy_field(&mut input.session, prng),
        8 | 9 => input.pass = pass_number(input, prng),
        10 => input.lists = other.lists.clone(),
        11 if prng.chance(50) => fill_list(&mut input.lists, prng),
        11 => list_field(&mut input.lists, prng),
        12 => status_byte(&mut input.lists.status, prng),
        13 => length(input, prng),
        14 => input.surface = surface(prng),
        _ => input.function = function(prng),
    }
}

/// A function; most often a pass check.
fn function(prng: &mut Prng) -> Function {
    use Function::*;
    prng.pick(&[
        Pass, Pass, Pass, Pass, Submit, Submit, Session, Refusal, Index,
    ])
}

/// A surface with small numbers, rarely with great ones.
fn surface(prng: &mut Prng) -> Surface {
    let mut number = |few: u32| match prng.below(30) {
        0 => prng.bits() as u32,
        1 => u32::MAX,
        _ => prng.below(few),
    };
    Surface {
        texture: number(4),
        mip: number(3),
        layer: number(3),
        slice: number(5),
    }
}

/// A pass number, rarely past the count.
fn pass_number(input: &Input, prng: &mut Prng) -> u32 {
    let passes = input.session.len().saturating_sub(HEADER_LEN) / PASS_LEN;
    match prng.below(20) {
        0 => prng.bits() as u32,
        1 => passes as u32,
        _ => prng.below(passes as u32 + 1),
    }
}

/// Overwrites a u32 at a place that has one.
fn put(bytes: &mut [u8], at: usize, value: u32) {
    if let Some(field) = bytes.get_mut(at..at + FIELD_LEN) {
        field.copy_from_slice(&value.to_le_bytes());
    }
}

/// The start of a random pass row, counted from the file's end.
fn some_pass(session: &[u8], prng: &mut Prng) -> Option<usize> {
    let passes = session.len().saturating_sub(HEADER_LEN) / PASS_LEN;
    let back = prng.below(passes.max(1) as u32) as usize + 1;
    session.len().checked_sub(back * PASS_LEN)
}

/// A field of a pass row becomes a small number, or none.
fn pass_field(session: &mut [u8], prng: &mut Prng) {
    let value = match prng.below(10) {
        0 => u32::MAX,
        1 => prng.bits() as u32,
        2..5 => prng.below(16),
        _ => prng.below(4),
    };
    let (front, slot) = (PASS_FRONT_LEN / FIELD_LEN, SLOT_LEN / FIELD_LEN);
    let field = match prng.below(3) {
        0 => prng.below(front as u32),
        _ => {
            let slots = front as u32 + slot as u32 * prng.below(SLOTS as u32);
            slots + prng.below(SLOT_OWN_FIELDS as u32)
        }
    };
    if let Some(start) = some_pass(session, prng) {
        put(session, start + FIELD_LEN * field as usize, value);
    }
}

/// One pass row is overwritten by another.
fn move_pass(session: &mut [u8], prng: &mut Prng) {
    let (from, to) = (some_pass(session, prng), some_pass(session, prng));
    if let (Some(from), Some(to)) = (from, to) {
        session.copy_within(from..from + PASS_LEN, to);
    }
}

/// One field anywhere is overwritten by another.
fn copy_field(session: &mut [u8], prng: &mut Prng) {
    let fields = (session.len() / FIELD_LEN) as u32;
    if fields > 0 {
        let from = FIELD_LEN * prng.below(fields) as usize;
        let to = FIELD_LEN * prng.below(fields) as usize;
        session.copy_within(from..from + FIELD_LEN, to);
    }
}

/// A count or a record's field of a lent list becomes another number.
fn list_field(lists: &mut Lists, prng: &mut Prng) {
    let list = match prng.below(3) {
        0 => &mut lists.discards,
        1 => &mut lists.actions,
        _ => &mut lists.clears,
    };
    let fields = (list.len() / FIELD_LEN).clamp(1, 30) as u32;
    let field = if prng.chance(40) {
        0
    } else {
        prng.below(fields)
    };
    let value = match prng.below(8) {
        0 => prng.bits() as u32,
        1 => {
            let around = |room: usize| [room - 1, room, room + 1];
            prng.pick(&[DISCARDS, CLEARS, ACTIONS].map(around).concat()) as u32
        }
        _ => prng.below(4),
    };
    put(list, FIELD_LEN * field as usize, value);
}

/// A list gets about as many records of one surface as it has room for.
fn fill_list(lists: &mut Lists, prng: &mut Prng) {
    let surface = Surface {
        layer: u32::from(prng.chance(40)),
        slice: u32::from(prng.chance(20)),
        ..Surface::default()
    };
    let action = Action {
        kind: prng.pick(&[Kind::Implicit, Kind::Needing]),
        texture: 0,
        mips: (0, 1 + u32::from(prng.chance(20))),
        layers: (0, 1),
        slice: u32::from(prng.chance(20)),
    };
    let (surface, action) = (surface_fields(&surface), action_fields(&action));
    let fewer = prng.below(12) as usize;
    let surfaces = |room: usize| (0..room - fewer).map(|_| surface);
    match prng.below(3) {
        0 if lists.discards.len() >= DISCARDS_LEN => {
            put_records(&mut lists.discards, surfaces(DISCARDS));
        }
        1 if lists.actions.len() >= ACTIONS_LEN => {
            put_records(&mut lists.actions, (0..ACTIONS - fewer).map(|_| action));
        }
        2 if lists.clears.len() >= CLEARS_LEN => {
            put_records(&mut lists.clears, surfaces(CLEARS));
        }
        _ => (),
    }
}

/// A status byte becomes another number.
fn status_byte(status: &mut [u8], prng: &mut Prng) {
    let end = status.len().min(prng.pick(&[4, 64, 5000])) as u32;
    if end > 0 {
        let at = prng.below(end) as usize;
        status[at] = prng.pick(&[0, 1, 2, 3, 4, 255]);
    }
}

/// A lent buffer gets another length, most often the right one.
fn length(input: &mut Input, prng: &mut Prng) {
    let lists = &mut input.lists;
    let (part, right) = match prng.below(5) {
        0 => (&mut lists.discards, DISCARDS_LEN),
        1 => (&mut lists.actions, ACTIONS_LEN),
        2 => (&mut lists.clears, CLEARS_LEN),
        3 => (&mut lists.status, STATUS_LEN),
        _ => {
            input.rows = prng.pick(&[ROWS_LEN, ROWS_LEN, ROWS_LEN + 1, ROWS_LEN - 1, 0]);
            return;
        }
    };
    let short = prng.below(right as u32) as usize;
    part.resize(prng.pick(&[right, right, right + 1, right - 1, short]), 0);
}
