//! Calls on lent buffers that are one byte short, on counts, records and status bytes that are off by
//! one, and on slices at the bounds of mips. The model says what each should answer; a refusal leaves
//! every byte.

use std::collections::BTreeSet;

use interface::{action_fields, surface_fields, u32_at, Action, Desk, Kind, Lists, Surface};
use interface::{ACTIONS_LEN, CLEARS_LEN, DISCARDS_LEN, STATUS_LEN};
use sessions::layout::{ACTIONS, ACTION_FIELDS, CLEARS, COUNT_LEN, DISCARDS};
use sessions::layout::{FIELD_LEN, SURFACE_FIELDS};
use sessions::random::Prng;
use sessions::{damage, reader, Session};

use crate::calls::{difference, make, Call, Seen};
use crate::reference::Model;

/// Most records that are changed at one point of a session.
const MOST_RECORDS: usize = 16;

/// Holds the calls at one point of a session, for changed buffers and for pass numbers past the
/// count.
pub fn hold(
    desk: &dyn Desk,
    bytes: &[u8],
    states: &[Lists],
    prng: &mut Prng,
    seen: &mut Seen,
) -> Result<(), String> {
    if states.is_empty() {
        return Ok(());
    }
    let at = prng.below(states.len() as u32);
    let lists = &states[at as usize];
    let session = reader::read(bytes).unwrap_or_default();
    for (name, changed) in changed(lists, &session, prng) {
        for call in [Call::Pass(at), Call::Submit] {
            one(desk, bytes, call, &changed, seen).map_err(|e| format!("{name}: {e}"))?;
        }
    }
    for past in [states.len() as u32, states.len() as u32 + 1, u32::MAX] {
        one(desk, bytes, Call::Pass(past), lists, seen)?;
    }
    damaged_too(desk, bytes, lists, prng, seen)
}

/// On a damaged session a short buffer is 6 before all else, a wrong record only after 4.
fn damaged_too(
    desk: &dyn Desk,
    bytes: &[u8],
    lists: &Lists,
    prng: &mut Prng,
    seen: &mut Seen,
) -> Result<(), String> {
    let damaged = damage::random(bytes, prng);
    let mut wrong = lists.clone();
    let one_more = DISCARDS as u32 + 1;
    wrong.discards[..COUNT_LEN].copy_from_slice(&one_more.to_le_bytes());
    let mut short = lists.clone();
    short.status.truncate(STATUS_LEN - 1);
    for lists in [&wrong, &short] {
        for call in [Call::Pass(0), Call::Submit] {
            one(desk, &damaged, call, lists, seen)?;
        }
    }
    Ok(())
}

/// One call against the model.
fn one(
    desk: &dyn Desk,
    bytes: &[u8],
    call: Call,
    lists: &Lists,
    seen: &mut Seen,
) -> Result<(), String> {
    let expected = make(&Model, bytes, call, lists).expect("the model keeps to the interface");
    let got = make(desk, bytes, call, lists)?;
    seen.count(expected.number());
    match difference(&expected, &got) {
        None => Ok(()),
        Some(wrong) => Err(format!("{call:?}\n{wrong}")),
    }
}

/// The buffers with one change each, and what it is.
fn changed(lists: &Lists, session: &Session, prng: &mut Prng) -> Vec<(String, Lists)> {
    let surfaces = reader::surfaces(session) as usize;
    let mut all = short(lists);
    all.extend(counts(lists));
    all.extend(records(lists, prng));
    all.extend(last_records(lists, session, prng));
    all.extend(status_bytes(lists, surfaces, prng));
    all
}

/// The three lists by name.
const LISTS: [(&str, List); 3] = [
    ("discards", |l| &mut l.discards),
    ("actions", |l| &mut l.actions),
    ("clears", |l| &mut l.clears),
];

/// One of the buffers.
type List = fn(&mut Lists) -> &mut Vec<u8>;

/// Each buffer one byte short, and empty.
fn short(lists: &Lists) -> Vec<(String, Lists)> {
    let needed: [(&str, List, usize); 4] = [
        (LISTS[0].0, LISTS[0].1, DISCARDS_LEN),
        (LISTS[1].0, LISTS[1].1, ACTIONS_LEN),
        (LISTS[2].0, LISTS[2].1, CLEARS_LEN),
        ("status", |l| &mut l.status, STATUS_LEN),
    ];
    let mut all = Vec::new();
    for (name, list, needed) in needed {
        for length in [needed - 1, 0] {
            let mut shorter = lists.clone();
            list(&mut shorter).truncate(length);
            all.push((format!("{length} bytes of {name}"), shorter));
        }
    }
    all
}

/// Each count off by one, one past the room, and as great as can be.
fn counts(lists: &Lists) -> Vec<(String, Lists)> {
    let full = |room: usize| [room as u32, room as u32 + 1];
    let rooms = [DISCARDS, CLEARS, ACTIONS].map(full).concat();
    let mut all = Vec::new();
    for ((name, list), count) in LISTS.into_iter().zip(lists.counts()) {
        let near = [count.wrapping_sub(1), count.wrapping_add(1)];
        for other in [&near, &rooms[..], &[u32::MAX]].concat() {
            let mut changed = lists.clone();
            list(&mut changed)[..COUNT_LEN].copy_from_slice(&other.to_le_bytes());
            all.push((format!("count {other} of {name}"), changed));
        }
    }
    all
}

/// Fields of records off by one: all of them, or a random choice where there are many.
fn records(lists: &Lists, prng: &mut Prng) -> Vec<(String, Lists)> {
    let mut places: Vec<(usize, usize)> = Vec::new();
    for (list, count) in lists.counts().into_iter().enumerate() {
        let fields = if list == 1 {
            ACTION_FIELDS
        } else {
            SURFACE_FIELDS
        };
        let at = |field: usize| (list, COUNT_LEN + FIELD_LEN * field);
        places.extend((0..count as usize * fields).map(at));
    }
    while places.len() > MOST_RECORDS {
        places.swap_remove(prng.below(places.len() as u32) as usize);
    }
    let mut all = Vec::new();
    for (list, at) in places {
        let (name, part) = LISTS[list];
        for step in [-1, 1] {
            let mut changed = lists.clone();
            let field = &mut part(&mut changed)[at..at + FIELD_LEN];
            let value = u32_at(field, 0).wrapping_add_signed(step);
            field.copy_from_slice(&value.to_le_bytes());
            all.push((format!("{name}, byte {at}: {value}"), changed));
        }
    }
    all
}

/// A record more, or another last one: slices at and past the depth of a mip, alone and for several mips.
fn last_records(lists: &Lists, session: &Session, prng: &mut Prng) -> Vec<(String, Lists)> {
    let Some(number) = some_texture(session, prng) else {
        return Vec::new();
    };
    let t = &session.textures[number];
    let (a, b) = (prng.below(t.mips), prng.below(t.mips));
    let (first, last) = (a.min(b), a.max(b));
    let layer = prng.below(reader::layers(t));
    let mut all = Vec::new();
    for slice in around(&[reader::slices(t, first), reader::slices(t, last)]) {
        let surface = surface_fields(&Surface {
            texture: number as u32,
            mip: last,
            layer,
            slice,
        });
        let action = action_fields(&Action {
            kind: prng.pick(&[Kind::Implicit, Kind::Needing]),
            texture: number as u32,
            mips: (first, last + 1),
            layers: (layer, layer + 1),
            slice,
        });
        all.push(with_last(lists, 0, DISCARDS, &surface));
        all.push(with_last(lists, 1, ACTIONS, &action));
        all.push(with_last(lists, 2, CLEARS, &surface));
    }
    all
}

/// A texture of the session, if it has any: a 3D one if it has such.
fn some_texture(session: &Session, prng: &mut Prng) -> Option<usize> {
    let all: Vec<usize> = (0..session.textures.len()).collect();
    let volume = |number: &usize| reader::is_volume(&session.textures[*number]);
    let volumes: Vec<usize> = all.iter().copied().filter(volume).collect();
    let choices = if volumes.is_empty() { all } else { volumes };
    (!choices.is_empty()).then(|| prng.pick(&choices))
}

/// One below each number and the number itself, without repetition.
fn around(numbers: &[u32]) -> BTreeSet<u32> {
    numbers.iter().flat_map(|n| [n - 1, *n]).collect()
}

/// The buffers with a record behind a list's last, or in its place where the list is full.
fn with_last(lists: &Lists, list: usize, room: usize, fields: &[u32]) -> (String, Lists) {
    let (name, part) = LISTS[list];
    let mut changed = lists.clone();
    let count = (lists.counts()[list] as usize + 1).min(room);
    let bytes = part(&mut changed);
    bytes[..COUNT_LEN].copy_from_slice(&(count as u32).to_le_bytes());
    let at = COUNT_LEN + (count - 1) * fields.len() * FIELD_LEN;
    for (field, value) in bytes[at..].chunks_exact_mut(FIELD_LEN).zip(fields) {
        field.copy_from_slice(&value.to_le_bytes());
    }
    (format!("{name}, last record {fields:?}"), changed)
}

/// A surface's status byte off by one and unlawful; the byte past the last surface unlawful.
fn status_bytes(lists: &Lists, surfaces: usize, prng: &mut Prng) -> Vec<(String, Lists)> {
    let mut places = vec![(surfaces, 255)];
    if surfaces > 0 {
        for at in [0, surfaces - 1, prng.below(surfaces as u32) as usize] {
            let byte = lists.status[at];
            places.extend([byte.wrapping_sub(1), byte + 1, 2, 4, 255].map(|b| (at, b)));
        }
    }
    let within = places.into_iter().filter(|(at, _)| *at < STATUS_LEN);
    within
        .map(|(at, byte)| {
            let mut changed = lists.clone();
            changed.status[at] = byte;
            (format!("status byte {at}: {byte}"), changed)
        })
        .collect()
}
