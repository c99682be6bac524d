//! What `deskcheck` prints is what the model says, for every kind of input.

use checks::examples::sessions;
use program::deskcheck;
use sessions::layout::{HEADER_LEN, LONGEST, MAX_PASSES, TOTAL_AT};
use sessions::random::{self, Prng};

#[test]
fn examples() {
    let examples = sessions();
    assert!(examples.len() > 40);
    for (name, bytes) in examples {
        assert_eq!(deskcheck(&bytes), model::deskcheck(&bytes), "{name}");
    }
}

#[test]
fn random_sessions() {
    let mut prng = Prng::new(20_010);
    for _ in 0..300 {
        let bytes = random::file(&mut prng);
        assert_eq!(deskcheck(&bytes), model::deskcheck(&bytes));
    }
}

#[test]
fn empty_short_and_long_input() {
    assert_eq!(deskcheck(&[]), "session 1\n");
    assert_eq!(deskcheck(&[0; HEADER_LEN - 1]), "session 1\n");
    assert_eq!(deskcheck(&[0; HEADER_LEN]), "session 1\n");
    for (length, field) in [
        (LONGEST, LONGEST),
        (LONGEST + 1, LONGEST + 1),
        (LONGEST + 1, LONGEST),
        (65_536, 65_536),
        (65_537, 65_536),
        (70_000, 70_000),
        (70_000, LONGEST),
        (1_000_000, 1_000_000),
        (1_000_000, 65_536),
    ] {
        let mut bytes = vec![0; length];
        bytes[TOTAL_AT..HEADER_LEN].copy_from_slice(&(field as u32).to_le_bytes());
        let number = if field == length { 2 } else { 1 };
        assert_eq!(
            deskcheck(&bytes),
            format!("session {number}\n"),
            "{length} {field}"
        );
    }
}

#[test]
fn the_longest_session() {
    let mut prng = Prng::new(1);
    let mut session = random::session(&mut prng);
    let most = MAX_PASSES as usize;
    while session.passes.len() < most {
        let more = session.passes.clone();
        session.passes.extend(more);
        session.passes.truncate(most);
    }
    let bytes = session.to_bytes();
    let printed = deskcheck(&bytes);
    assert_eq!(printed.lines().count(), most);
    assert_eq!(printed, model::deskcheck(&bytes));
}
