//! The Rust against the model: random sessions from a seed, enumerations, damaged copies.

use std::sync::OnceLock;

use compare::reduce::reduce;
use compare::{compare_file, enumerated_run, numbers_of_files, random_run, Counts};
use sessions::layout::{HEADER_LEN, LONGEST, TOTAL_AT};
use sessions::random::{self, Prng};
use sessions::{colour_bytes, damage, enumerate, reader, text};

/// Seed and passes of the random run.
const SEED: u64 = 20_001;
const PASSES: u64 = 20_000;

/// The run, made once; several tests look at it from different sides.
fn random() -> &'static Counts {
    static RUN: OnceLock<Counts> = OnceLock::new();
    RUN.get_or_init(|| random_run(SEED, PASSES).unwrap_or_else(|e| panic!("{e}")))
}

#[test]
fn random_passes_do_not_differ() {
    let counts = random();
    assert!(counts.passes >= PASSES);
    assert_eq!(counts.passes, counts.compared + counts.withheld);
    assert!(counts.compared > PASSES * 8 / 10, "{counts}");
    assert!(counts.submissions > PASSES / 10, "{counts}");
}

#[test]
fn a_large_share_is_accepted() {
    let counts = random();
    assert!(counts.accepted > PASSES / 2, "{counts}");
    assert!(counts.accepted < PASSES * 9 / 10, "{counts}");
}

#[test]
fn every_number_appears_often() {
    let counts = random();
    for number in numbers_of_files() {
        let times = counts.of(number);
        assert!(times >= 20, "number {number}: {times}\n{counts}");
    }
    let known = numbers_of_files();
    let unknown = counts
        .by_number
        .keys()
        .find(|n| **n != 0 && !known.contains(n));
    assert_eq!(unknown, None);
}

#[test]
fn a_seed_repeats_its_run() {
    let again = |seed: u64| random_run(seed, 2_000).unwrap().by_number;
    assert_eq!(again(5), again(5));
    assert_ne!(again(5), again(6));
}

#[test]
fn accepted_passes_show_every_kind_of_answer() {
    let mut prng = Prng::new(SEED);
    let mut seen = [0u32; 10];
    for _ in 0..2_000 {
        for row in model::run(&random::file(&mut prng)).unwrap_or_default() {
            let reply = &row.reply;
            let usage = |number: u32| reply.attachments.iter().any(|at| at.usage == number);
            let status = row.submitted.unwrap_or_default();
            let kinds = [
                !reply.clears.is_empty(),
                reply.clears.len() > 1,
                reply.divergent == 1,
                reply.divergent == 2,
                usage(2),
                usage(3),
                reply.attachments.len() > 8,
                status.contains(&1),
                status.contains(&2),
                status.contains(&3),
            ];
            for (count, kind) in seen.iter_mut().zip(kinds) {
                *count += u32::from(kind);
            }
        }
    }
    assert!(seen.iter().all(|count| *count >= 20), "{seen:?}");
}

#[test]
fn enumerated_passes_do_not_differ() {
    let counts = enumerated_run().unwrap_or_else(|difference| panic!("{difference}"));
    assert!(counts.passes > 38_000, "{counts}");
    let numbers = (14..=21).chain(23..=26).chain(30..=32).chain(34..=37);
    for number in numbers.chain([51]) {
        assert!(counts.of(number) > 0, "number {number}\n{counts}");
    }
}

#[test]
fn sums_around_the_limit_are_judged_as_they_are_made() {
    let mut kinds = [0; 3];
    for session in enumerate::colour_bytes() {
        let rows = model::run(&session.to_bytes()).unwrap();
        for (pass, row) in session.passes.iter().zip(rows) {
            let over = colour_bytes::sum(&session, pass) > session.colour_bytes;
            let own = matches!((row.reply.refusal, row.reply.place), (37 | 40, Some(0 | 1)));
            match row.reply.refusal {
                51 => assert!(over),
                _ => assert!(!over || own, "{row}"),
            }
            let kind = row.reply.refusal.min(1) + u32::from(row.reply.refusal == 51);
            kinds[kind as usize] += 1;
        }
    }
    assert!(kinds.iter().all(|count| *count > 800), "{kinds:?}");
}

#[test]
fn both_readers_agree_on_damaged_copies() {
    let mut prng = Prng::new(SEED);
    let mut counts = Counts::default();
    for _ in 0..40 {
        let bytes = random::session(&mut prng).to_bytes();
        for copy in damage::systematic(&bytes) {
            compare_file(&copy, &mut counts).unwrap_or_else(|e| panic!("{e}"));
        }
    }
    for _ in 0..4_000 {
        let bytes = random::session(&mut prng).to_bytes();
        let copy = damage::random(&damage::random(&bytes, &mut prng), &mut prng);
        compare_file(&copy, &mut counts).unwrap_or_else(|e| panic!("{e}"));
    }
    for number in 1..=4 {
        assert!(counts.of(number) >= 100, "number {number}\n{counts}");
    }
}

#[test]
fn both_readers_agree_on_short_byte_strings() {
    let header = text::to_bytes("session").unwrap();
    for length in 0..=48 {
        for base in [
            vec![0; length],
            vec![255; length],
            damage::resize(&header, length, true),
        ] {
            for bit in 0..length * 8 {
                let bytes = damage::flip_bit(&base, bit);
                let read = reader::read(&bytes).err();
                assert_eq!(read, model::run(&bytes).err(), "{bytes:?}");
                assert_eq!(
                    read == Some(1),
                    length < HEADER_LEN
                        || bytes[TOTAL_AT..HEADER_LEN] != (length as u32).to_le_bytes()
                );
            }
        }
    }
}

#[test]
fn a_file_is_reduced_to_what_shows_the_property() {
    let mut prng = Prng::new(SEED);
    let shows = |bytes: &[u8]| {
        let rows = model::run(bytes).unwrap_or_default();
        rows.iter().any(|row| row.reply.refusal == 41)
    };
    let file = std::iter::repeat_with(|| random::session(&mut prng).to_bytes())
        .find(|bytes| shows(bytes))
        .unwrap();
    let small = reduce(&file, shows);
    assert!(shows(&small));
    let session = reader::read(&small).unwrap();
    assert_eq!(session.passes.len(), 1);
    assert!(session.views.len() <= 2 && session.textures.len() <= 2);
    let text = text::from_bytes(&small);
    assert!(text.lines().count() <= 9, "{text}");
}

#[test]
fn both_readers_agree_on_long_files() {
    for (length, field) in [
        (70_000, 70_000),
        (70_000, LONGEST),
        (LONGEST + 1, LONGEST + 1),
    ] {
        let mut bytes = vec![0; length];
        bytes[TOTAL_AT..HEADER_LEN].copy_from_slice(&(field as u32).to_le_bytes());
        let number = if field == length { 2 } else { 1 };
        assert_eq!(oracle::run(&bytes), Err(number));
        assert_eq!(model::run(&bytes), Err(number));
    }
}
