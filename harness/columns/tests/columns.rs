//! The proved rearrangement against two plain loops: every number of passes, columns, refusals with
//! every byte of the target, and the passes of the example files.

use checks::examples;
use checks::guard::Guarded;
use columns::layout::{MAX_PASSES, PASS_LEN};
use columns::{column, to_columns, to_rows};
use sessions::random::Prng;
use sessions::reader;

/// The numbers of the refusals.
const SESSION: u32 = 2;
const ROOM: u32 = 6;

/// Bytes of a target behind what is written.
const BEHIND: [usize; 3] = [0, 1, 77];

/// A way: `to_columns` or `to_rows`.
type Way = fn(u32, &[u8], &mut [u8]) -> Result<(), u32>;

/// Both of them.
const WAYS: [Way; 2] = [to_columns, to_rows];

/// So many random bytes.
fn random(prng: &mut Prng, length: usize) -> Vec<u8> {
    (0..length).map(|_| prng.bits() as u8).collect()
}

/// Rows of c bytes, column by column.
fn transposed(src: &[u8], c: usize) -> Vec<u8> {
    let mut out = Vec::new();
    for j in 0..c {
        for row in src.chunks_exact(c) {
            out.push(row[j]);
        }
    }
    out
}

/// The columns of these passes.
fn by_columns(rows: &[u8]) -> Vec<u8> {
    transposed(rows, PASS_LEN)
}

/// The way back: the columns are rows of a byte a pass.
fn by_rows(passes: u32, columns: &[u8]) -> Vec<u8> {
    transposed(columns, passes as usize)
}

/// What a target of these bytes holds after a call, and the answer; nothing around it is written.
fn called(way: Way, passes: u32, part: &[u8], target: &[u8]) -> (Result<(), u32>, Vec<u8>) {
    let mut target = Guarded::new(target);
    let part = Guarded::new(part);
    let answer = way(passes, part.content(), target.content_mut());
    assert!(target.intact() && part.intact(), "{passes} passes");
    (answer, target.content().to_vec())
}

/// What an accepted call writes into a longer target that holds anything.
fn rearranged(way: Way, passes: u32, part: &[u8], behind: usize, prng: &mut Prng) -> Vec<u8> {
    let before = random(prng, part.len() + behind);
    let (answer, mut after) = called(way, passes, part, &before);
    assert_eq!(answer, Ok(()), "{passes} passes");
    assert_eq!(after[part.len()..], before[part.len()..], "{passes} passes");
    after.truncate(part.len());
    after
}

/// A call that is refused with this number, whatever the target holds: every byte of it stays.
fn refused(way: Way, passes: u32, part: &[u8], room: usize, number: u32, prng: &mut Prng) {
    let before = random(prng, room);
    let (answer, after) = called(way, passes, part, &before);
    let told = format!("{passes} passes, {} bytes into {room}", part.len());
    assert_eq!(answer, Err(number), "{told}");
    assert!(after == before, "{told}");
}

#[test]
fn both_ways_are_two_loops_and_undo_each_other() {
    let mut prng = Prng::new(12_001);
    for passes in 0..=MAX_PASSES {
        let part = random(&mut prng, passes as usize * PASS_LEN);
        for behind in BEHIND {
            let mut go = |way, part: &[u8]| rearranged(way, passes, part, behind, &mut prng);
            let columns = go(to_columns, &part);
            assert!(columns == by_columns(&part), "{passes} passes");
            assert!(go(to_rows, &columns) == part, "{passes} passes");
            let rows = go(to_rows, &part);
            assert!(rows == by_rows(passes, &part), "{passes} passes");
            assert!(go(to_columns, &rows) == part, "{passes} passes");
        }
    }
}

#[test]
fn a_column_is_the_callers_own_part() {
    let mut prng = Prng::new(12_002);
    for passes in [0, 1, 2, MAX_PASSES - 1, MAX_PASSES] {
        let n = passes as usize;
        let rows = random(&mut prng, n * PASS_LEN);
        let mut columns = vec![0; rows.len()];
        to_columns(passes, &rows, &mut columns).unwrap();
        for j in 0..PASS_LEN {
            let part = column(passes, &columns, j as u32).unwrap();
            assert_eq!(
                part.as_ptr_range(),
                columns[n * j..n * j + n].as_ptr_range()
            );
            let of_passes: Vec<u8> = rows.chunks_exact(PASS_LEN).map(|row| row[j]).collect();
            assert_eq!(part, of_passes, "column {j} of {passes} passes");
        }
        for j in [PASS_LEN as u32, PASS_LEN as u32 + 1, u32::MAX] {
            assert_eq!(column(passes, &columns, j), Err(SESSION), "column {j}");
        }
    }
}

/// No passes: nothing is written, and each column is empty and not refused.
#[test]
fn no_passes_have_empty_columns() {
    let mut prng = Prng::new(12_003);
    for way in WAYS {
        for behind in BEHIND {
            assert_eq!(rearranged(way, 0, &[], behind, &mut prng), []);
        }
    }
    for j in 0..PASS_LEN as u32 {
        assert_eq!(column(0, &[], j), Ok(&[][..]));
    }
    assert_eq!(column(0, &[], PASS_LEN as u32), Err(SESSION));
}

/// Every function refuses these passes in a part of this length with 2, whatever the room is.
fn not_a_part(passes: u32, length: usize, prng: &mut Prng) {
    let part = random(prng, length);
    for way in WAYS {
        for room in [0, length.saturating_sub(1), length, length + 1] {
            refused(way, passes, &part, room, SESSION, prng);
        }
    }
    for j in [0, 1, PASS_LEN as u32 - 1, PASS_LEN as u32, u32::MAX] {
        let told = format!("column {j} of {passes} passes in {length} bytes");
        assert_eq!(column(passes, &part, j), Err(SESSION), "{told}");
    }
}

#[test]
fn too_many_passes_are_refused() {
    let mut prng = Prng::new(12_004);
    for passes in [MAX_PASSES + 1, MAX_PASSES + 2, 2 * MAX_PASSES, 256, 1_000] {
        not_a_part(passes, passes as usize * PASS_LEN, &mut prng);
    }
    for passes in [MAX_PASSES + 1, 1 << 16, 1 << 31, u32::MAX] {
        for length in [0, PASS_LEN, MAX_PASSES as usize * PASS_LEN] {
            not_a_part(passes, length, &mut prng);
        }
    }
}

/// Counts whose bytes, reckoned in 32 bits, are the length that is handed over.
#[test]
fn a_length_does_not_wrap() {
    let mut prng = Prng::new(12_005);
    let wrapped = |passes: u32| passes.wrapping_mul(PASS_LEN as u32) as usize;
    assert_eq!(wrapped(8_521_761), 248);
    not_a_part(8_521_761, 248, &mut prng);
    for passes in [0, 1, 2, 50, MAX_PASSES] {
        for high in 1..8 {
            let count = passes + (high << 29);
            assert_eq!(wrapped(count), passes as usize * PASS_LEN);
            not_a_part(count, wrapped(count), &mut prng);
        }
    }
}

#[test]
fn a_length_that_is_off_is_refused() {
    let mut prng = Prng::new(12_006);
    for passes in 0..=MAX_PASSES {
        let length = passes as usize * PASS_LEN;
        not_a_part(passes, length + 1, &mut prng);
        not_a_part(passes, length + PASS_LEN, &mut prng);
        if passes > 0 {
            not_a_part(passes, length - 1, &mut prng);
            not_a_part(passes, length - PASS_LEN, &mut prng);
            not_a_part(passes, 0, &mut prng);
        }
    }
}

/// A target that is too short is 6, and 2 comes before it.
#[test]
fn a_short_target_is_refused_last() {
    let mut prng = Prng::new(12_007);
    for passes in 1..=MAX_PASSES {
        let length = passes as usize * PASS_LEN;
        let part = random(&mut prng, length);
        for way in WAYS {
            for room in [0, 1, length - PASS_LEN, length - 1] {
                refused(way, passes, &part, room, ROOM, &mut prng);
                refused(way, passes + 1, &part, room, SESSION, &mut prng);
                refused(way, passes, &part[1..], room, SESSION, &mut prng);
            }
        }
    }
}

/// The passes of every readable example, from the pass offset on.
#[test]
fn passes_of_files_come_back() {
    let mut prng = Prng::new(12_008);
    let (mut files, mut most) = (0, 0);
    for (name, file) in examples::sessions() {
        let Ok(session) = reader::read(&file) else {
            continue;
        };
        let passes = session.passes.len() as u32;
        let rows = &file[session.header().pass_offset as usize..];
        let columns = rearranged(to_columns, passes, rows, 0, &mut prng);
        assert!(columns == by_columns(rows), "{name}");
        // The first byte of a row is the low one of its colour count.
        let colours: Vec<u8> = session.passes.iter().map(|p| p.colours as u8).collect();
        assert_eq!(column(passes, &columns, 0), Ok(&colours[..]), "{name}");
        let back = rearranged(to_rows, passes, &columns, 0, &mut prng);
        assert!(back == rows, "{name}");
        files += 1;
        most = most.max(passes);
    }
    assert!(files > 50 && most > 50, "{files} files, {most} passes");
}
