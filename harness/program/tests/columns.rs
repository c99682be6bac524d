//! What `to_columns` and `to_rows` write: a readable session with its passes rearranged, for any other file what `deskcheck` prints.

use checks::examples::{repository, sessions};
use program::{deskcheck, to_columns, to_rows};
use sessions::layout::{HEADER_LEN, LONGEST, MAX_PASSES, PASS_LEN, TOTAL_AT};
use sessions::random::{self, Prng};
use sessions::reader;

/// The number of passes of a readable session.
fn passes(file: &[u8]) -> Option<usize> {
    reader::read(file).ok().map(|session| session.passes.len())
}

/// A file whose last r rows of c bytes stand column by column.
fn rearranged(file: &[u8], r: usize, c: usize) -> Vec<u8> {
    if r * c == 0 {
        return file.to_vec();
    }
    let (front, part) = file.split_at(file.len() - r * c);
    let columns = (0..c).flat_map(|j| part.chunks_exact(c).map(move |row| row[j]));
    front.iter().copied().chain(columns).collect()
}

/// Both programs on a file; whether it is readable.
fn checked(file: &[u8], name: &str) -> bool {
    let Some(n) = passes(file) else {
        let line = model::deskcheck(file).into_bytes();
        assert_eq!(to_columns(file), line, "{name}");
        assert_eq!(to_rows(file), line, "{name}");
        return false;
    };
    let columns = to_columns(file);
    assert!(columns == rearranged(file, n, PASS_LEN), "{name}");
    assert!(to_rows(&columns) == file, "{name}");
    let rows = to_rows(file);
    assert!(rows == rearranged(file, PASS_LEN, n), "{name}");
    assert!(to_columns(&rows) == file, "{name}");
    true
}

#[test]
fn examples_come_back() {
    let examples = sessions();
    let readable = examples.iter().filter(|(name, file)| checked(file, name));
    let readable = readable.count();
    assert!(readable > 40 && readable < examples.len(), "{readable}");
}

#[test]
fn random_sessions_come_back() {
    let mut prng = Prng::new(20_012);
    let readable = (0..150).filter(|k| checked(&random::file(&mut prng), &k.to_string()));
    let readable = readable.count();
    assert!((50..150).contains(&readable), "{readable}");
}

/// A hundred passes, none, and what is longer than any session.
#[test]
fn the_longest_and_the_empty() {
    let mut prng = Prng::new(2);
    let mut session = random::session(&mut prng);
    let pass = session.passes[0];
    for count in [0, 1, MAX_PASSES] {
        session.passes = vec![pass; count as usize];
        let file = session.to_bytes();
        assert!(checked(&file, &count.to_string()));
        assert_eq!(to_columns(&file) == file, count < 2);
    }
    for length in [
        0,
        HEADER_LEN - 1,
        HEADER_LEN,
        LONGEST,
        LONGEST + 1,
        65_536,
        70_000,
        1_000_000,
    ] {
        let mut file = vec![0; length];
        assert!(!checked(&file, &length.to_string()));
        if length >= HEADER_LEN {
            file[TOTAL_AT..HEADER_LEN].copy_from_slice(&(length as u32).to_le_bytes());
            assert!(!checked(&file, &length.to_string()));
        }
    }
}

/// The line of a refused session is no session: written to a file, it is refused in its turn.
#[test]
fn a_refusal_is_not_taken_for_a_file() {
    let line = to_columns(&[0; HEADER_LEN]);
    assert_eq!(line, b"session 1\n");
    assert_eq!(to_rows(&line), b"session 1\n");
}

/// A file by columns has a header that can be read: `deskcheck` answers it as rows, and does not tell the two apart.
#[test]
fn deskcheck_reads_rows() {
    let file = std::fs::read(repository("examples/first.session")).expect("document 01's example");
    let columns = to_columns(&file);
    assert_eq!(deskcheck(&columns), model::deskcheck(&columns));
    assert_ne!(deskcheck(&columns), deskcheck(&file));
}
