//! The library's refusal of a session is that of the harness's own reader.

use checks::examples;
use checks::readers::{damaged, hold, long_files, short_strings, ByNumber};

/// What a set has seen; a difference ends the test.
fn seen(result: Result<ByNumber, String>) -> ByNumber {
    result.unwrap_or_else(|difference| panic!("{difference}"))
}

#[test]
fn short_byte_strings() {
    let seen = seen(short_strings(&desk::session_refusal));
    assert!(seen.values().sum::<u64>() > 20_000, "{seen:?}");
    assert!([0, 1, 2].iter().all(|n| seen[n] > 40), "{seen:?}");
}

#[test]
fn files_longer_than_any_session() {
    let seen = seen(long_files(&desk::session_refusal));
    assert!([1, 2].iter().all(|n| seen[n] > 0), "{seen:?}");
}

#[test]
fn damaged_sessions() {
    let seen = seen(damaged(&desk::session_refusal, 6, 20_000, &mut |_| ()));
    assert!((0..=4).all(|n| seen[&n] > 100), "{seen:?}");
}

#[test]
fn examples_of_document_01() {
    let mut seen = ByNumber::new();
    for (name, bytes) in examples::sessions() {
        hold(&desk::session_refusal, &bytes, &mut seen).unwrap_or_else(|e| panic!("{name}: {e}"));
    }
    assert!((0..=4).all(|n| seen[&n] > 0), "{seen:?}");
}
