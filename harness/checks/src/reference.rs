//! The model behind the C interface: lent bytes to records, the model's call, records to bytes.

use interface::{action_fields, put_records, surface_fields, u32_at};
use interface::{Desk, Index, Lent, Lists, Reply};
use interface::{
    ACTIONS_LEN, CLEARS_LEN, DISCARDS_LEN, ROWS_LEN, ROW_LEN, ROW_NUMBERS, STATUS_LEN,
};
use sessions::layout::{
    ACTIONS, ACTION_KIND_AT, ACTION_LEN, CLEARS, COUNT_LEN, DISCARDS, FIELD_LEN,
};
use sessions::reply::{Action, Judged, Kind, Surface};

use crate::expected::reply_record;

/// Document 01's answers, by the model.
pub struct Model;

impl Desk for Model {
    fn session_refusal(&self, session: &[u8]) -> u32 {
        model::read::session(session).err().unwrap_or(0)
    }

    fn pass(&self, session: &[u8], pass: u32, mut lent: Lent) -> Reply {
        let mut records = decode(&lent);
        let reply = model::check_pass(session, pass as usize, &mut records);
        if reply.refusal == 0 {
            put_lists(&mut lent, &records);
            put_records(lent.clears, records.clears.iter().map(surface_fields));
        }
        reply_record(&reply)
    }

    fn submit(&self, session: &[u8], mut lent: Lent) -> u32 {
        let mut records = decode(&lent);
        let number = model::submit(session, &mut records);
        if number == 0 {
            put_lists(&mut lent, &records);
            lent.status.copy_from_slice(&records.status);
        }
        number
    }

    fn session(&self, session: &[u8], rows: &mut [u8]) -> u32 {
        if rows.len() < ROWS_LEN {
            return 6;
        }
        match model::run(session) {
            Err(number) => number,
            Ok(judged) => {
                judged.iter().for_each(|row| put_row(rows, row));
                0
            }
        }
    }

    fn surface_index(&self, session: &[u8], surface: &Surface) -> Index {
        match model::surface_index(session, surface) {
            Ok(index) => Index { number: 0, index },
            Err(number) => Index { number, index: 0 },
        }
    }
}

/// Writes the discards and the actions.
fn put_lists(lent: &mut Lent, records: &model::Lent) {
    put_records(
        lent.discards,
        records.lists.discards.iter().map(surface_fields),
    );
    put_records(
        lent.actions,
        records.lists.actions.iter().map(action_fields),
    );
}

/// Writes the nine numbers of a pass.
fn put_row(rows: &mut [u8], row: &Judged) {
    let at = row.pass * ROW_LEN;
    for (i, number) in row_numbers(row).into_iter().enumerate() {
        let place = at + FIELD_LEN * i;
        rows[place..place + FIELD_LEN].copy_from_slice(&number.to_le_bytes());
    }
}

/// The nine numbers of a pass; its places are told.
pub fn row_numbers(row: &Judged) -> [u32; ROW_NUMBERS] {
    let r = &row.reply;
    [
        row.pass as u32,
        r.refusal,
        r.place.expect("the model tells places"),
        r.earlier.expect("the model tells places"),
        r.width,
        r.height,
        r.samples,
        r.clears.len() as u32,
        row.lists.discards.len() as u32,
    ]
}

/// An entry that no session has.
const NOWHERE: Surface = Surface {
    texture: u32::MAX,
    mip: 0,
    layer: 0,
    slice: 0,
};

/// What is lent as the model's records. A buffer that is too short holds none: 6 comes first. A
/// count past the room, and an unlawful kind, become entries that no session has.
fn decode(lent: &Lent) -> model::Lent {
    let lists = Lists {
        discards: lent.discards.to_vec(),
        actions: lent.actions.to_vec(),
        clears: lent.clears.to_vec(),
        status: lent.status.to_vec(),
    };
    let mut records = model::Lent::fresh();
    records.discard_room = room(&lists.discards, DISCARDS_LEN, DISCARDS);
    records.action_room = room(&lists.actions, ACTIONS_LEN, ACTIONS);
    records.clear_room = room(&lists.clears, CLEARS_LEN, CLEARS);
    records.status = lists.status.clone();
    let short = records.discard_room < DISCARDS
        || records.action_room < ACTIONS
        || records.clear_room < CLEARS
        || records.status.len() < STATUS_LEN;
    if short {
        return records;
    }
    records.lists.discards = within_room(&lists.discards, lists.discards(), DISCARDS);
    records.clears = within_room(&lists.clears, lists.clears(), CLEARS);
    records.lists.actions = if unlawful_actions(&lists.actions) {
        vec![Action {
            kind: Kind::Needing,
            texture: NOWHERE.texture,
            mips: (0, 1),
            layers: (0, 1),
            slice: 0,
        }]
    } else {
        lists.actions()
    };
    records
}

/// All the room that is asked for, or one less where the buffer is too short.
fn room(list: &[u8], needed: usize, entries: usize) -> usize {
    if list.len() < needed {
        entries - 1
    } else {
        entries
    }
}

/// The entries of a count within the room; otherwise one that no session has.
fn within_room(list: &[u8], entries: Vec<Surface>, most: usize) -> Vec<Surface> {
    if u32_at(list, 0) as usize > most {
        vec![NOWHERE]
    } else {
        entries
    }
}

/// A count past the room, or a kind that is neither 0 nor 1.
fn unlawful_actions(list: &[u8]) -> bool {
    let count = u32_at(list, 0) as usize;
    let kind = |i: usize| u32_at(list, COUNT_LEN + ACTION_LEN * i + ACTION_KIND_AT);
    count > ACTIONS || (0..count).any(|i| kind(i) > 1)
}
