//! Short runs of the proved library: differential, fuzzing, replayed answers. The long ones are
//! programs.

use std::fs;

use checks::answers::{from_bytes, replay};
use checks::differential::{enumerated_run, random_run, Tally};
use checks::examples::{self, repository};
use checks::fuzz;
use desk::Library;

/// What a run has seen; a difference ends the test.
fn seen(result: Result<Tally, String>) -> Tally {
    result.unwrap_or_else(|difference| panic!("{difference}"))
}

#[test]
fn random_passes_do_not_differ() {
    let tally = seen(random_run(&Library, 20_009, 12_000, &mut |_| ()));
    let counts = &tally.answers;
    assert!(counts.passes >= 12_000);
    assert_eq!(counts.passes, counts.compared + counts.withheld);
    assert!(counts.accepted > 6_000, "{tally}");
    assert!(tally.variants.by_number[&6] > 10_000, "{tally}");
    assert!(tally.surfaces.by_number[&0] > 10_000, "{tally}");
    let known = examples::numbers();
    for number in counts.by_number.keys().filter(|n| **n != 0) {
        assert!(known.contains(number), "number {number}");
    }
    for number in known.iter().filter(|n| **n != 6) {
        assert!(counts.of(*number) > 0, "number {number}\n{tally}");
    }
}

#[test]
fn enumerated_passes_do_not_differ() {
    let tally = seen(enumerated_run(&Library, 9, 12, &mut |_| ()));
    assert!(tally.answers.passes > 6_000, "{tally}");
}

#[test]
fn fuzzed_inputs_keep_to_the_interface() {
    let sessions: Vec<Vec<u8>> = examples::sessions().into_iter().map(|(_, b)| b).collect();
    let seen = fuzz::run(&Library, 9, 30_000, &sessions, &mut |_| ());
    let seen = seen.unwrap_or_else(|wrong| panic!("{wrong}"));
    assert!(seen.of(0) > 2_000, "{seen}");
    assert!(seen.of(6) > 1_000, "{seen}");
}

#[test]
fn replayed_answers_agree() {
    let bytes = fs::read(repository("crates/replay/stdin")).unwrap();
    let records = from_bytes(&bytes).unwrap();
    assert!(records.len() >= 500);
    for (number, record) in records.iter().enumerate() {
        assert_eq!(replay(&Library, record), record.words, "session {number}");
    }
}
