//! The committed list of answers: how it was made, its size, what it shows.

use std::collections::BTreeMap;
use std::fs;

use checks::answers::{from_bytes, list, replay, to_bytes, Record, SEED, SESSIONS};
use checks::examples::repository;
use checks::reference::Model;
use compare::{first_layers, has_layers, has_volume};
use model::submission::{CLEARED, FILLED};
use sessions::colour_bytes::{sum, targets};
use sessions::reader::read;
use sessions::reply::{Action, Judged, Lists, Surface};

/// The committed list.
fn committed() -> Vec<u8> {
    fs::read(repository("crates/replay/stdin")).unwrap()
}

#[test]
fn it_is_what_its_seed_makes() {
    assert!(to_bytes(&list(SEED, SESSIONS)) == committed());
}

#[test]
fn it_has_500_sessions_and_is_small() {
    let bytes = committed();
    assert!(bytes.len() < 600_000, "{}", bytes.len());
    let records = from_bytes(&bytes).unwrap();
    assert!(records.len() >= 500);
    assert!(to_bytes(&records) == bytes);
    assert_eq!(records[0].session.len(), 1120);
    assert_eq!(from_bytes(&bytes[..bytes.len() - 1]), None);
}

#[test]
fn it_shows_every_number_that_is_compared() {
    let mut seen: BTreeMap<u32, u32> = BTreeMap::new();
    for record in from_bytes(&committed()).unwrap() {
        match model::run(&record.session) {
            Err(number) => *seen.entry(number).or_default() += 1,
            Ok(rows) => {
                for row in rows.iter().filter(|row| !row.reply.withheld()) {
                    *seen.entry(row.reply.refusal).or_default() += 1;
                }
            }
        }
    }
    let compared = compare::numbers_of_files().into_iter();
    for number in compared.filter(|n| ![5, 48, 49, 50].contains(n)) {
        let times = seen.get(&number).unwrap_or(&0);
        assert!(*times >= 3, "number {number}: {times}\n{seen:?}");
    }
    assert!(seen[&0] > 150, "{seen:?}");
}

#[test]
fn it_shows_siblings() {
    let records = from_bytes(&committed()).unwrap();
    let readable = records.iter().filter_map(|r| read(&r.session).ok());
    let shown = readable.filter(|s| {
        let mut views = s.views.iter();
        views.any(|v| v.format != s.textures[v.texture as usize].format)
    });
    assert!(shown.count() > 100);
}

#[test]
fn it_shows_sums_around_the_limit() {
    let (mut over, mut only_aligned, mut later, mut reached) = (0, 0, 0, 0);
    for record in from_bytes(&committed()).unwrap() {
        let Ok(session) = read(&record.session) else {
            continue;
        };
        let rows = model::run(&record.session).unwrap();
        for (pass, row) in session.passes.iter().zip(rows) {
            let costs = targets(&session, pass).into_iter().map(|(cost, _)| cost);
            let refused = row.reply.refusal == 51;
            over += u32::from(refused);
            only_aligned += u32::from(refused && costs.sum::<u32>() <= session.colour_bytes);
            later += u32::from(refused && row.reply.place != Some(0));
            let at_limit = sum(&session, pass) == session.colour_bytes;
            reached += u32::from(row.reply.refusal == 0 && at_limit);
        }
    }
    let shown = [over, only_aligned, later, reached];
    assert!(shown.iter().all(|times| *times >= 3), "{shown:?}");
}

/// Whether an entry of another slice is listed beside an action of its mip.
fn stays_beside(lists: &Lists) -> bool {
    let beside = |a: &Action| {
        let of_mip = |s: &&Surface| s.texture == a.texture && s.mip == a.mips.0;
        let mut of_mip = lists.discards.iter().filter(of_mip);
        of_mip.any(|s| s.slice != a.slice)
    };
    lists.actions.iter().any(beside)
}

#[test]
fn it_shows_slices() {
    let (mut volumes, mut listed, mut cleared, mut stays) = (0, 0, 0, 0);
    for record in from_bytes(&committed()).unwrap() {
        volumes += u32::from(has_volume(&record.session));
        for row in model::run(&record.session).unwrap_or_default() {
            let sliced = |surfaces: &[Surface]| surfaces.iter().any(|s| s.slice > 0);
            listed += u32::from(sliced(&row.lists.discards));
            cleared += u32::from(sliced(&row.reply.clears));
            stays += u32::from(stays_beside(&row.lists));
        }
    }
    let shown = [listed, cleared, stays];
    assert!(shown.iter().all(|times| *times >= 3), "{shown:?}");
    assert!(volumes > 60, "{volumes}");
}

#[test]
fn it_shows_layers() {
    let (mut layered, mut shown) = (0, [0; 4]);
    for record in from_bytes(&committed()).unwrap() {
        let model = model::run(&record.session);
        let first = first_layers(&record.session, &model).unwrap_or_default();
        layered += u32::from(has_layers(&record.session));
        for (row, first) in model.unwrap_or_default().iter().zip(&first) {
            let kinds = [
                row.lists.discards.len() > first.lists.discards.len(),
                row.reply.clears.len() > first.reply.clears.len(),
                statuses(row, first).any(|(ours, rusts)| (ours ^ rusts) & FILLED != 0),
                statuses(row, first).any(|(ours, rusts)| (ours ^ rusts) & CLEARED != 0),
            ];
            let counted = shown.iter_mut().zip(kinds);
            counted.for_each(|(times, kind)| *times += u32::from(kind));
        }
    }
    assert!(shown.iter().all(|times| *times >= 3), "{shown:?}");
    assert!(layered > 100, "{layered}");
}

/// The status bytes after a submission, with those of another row.
fn statuses<'a>(row: &'a Judged, other: &'a Judged) -> impl Iterator<Item = (&'a u8, &'a u8)> {
    let (ours, others) = (row.submitted.iter(), other.submitted.iter());
    ours.flatten().zip(others.flatten())
}

#[test]
fn a_replay_by_the_model_agrees_and_a_changed_word_is_seen() {
    for record in from_bytes(&committed()).unwrap() {
        assert_eq!(replay(&Model, &record), record.words);
        let words = record.words.iter().map(|word| word ^ 1).collect();
        let wrong = Record { words, ..record };
        assert_ne!(replay(&Model, &wrong), wrong.words);
    }
}
