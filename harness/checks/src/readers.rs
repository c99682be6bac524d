//! The session's refusal against the reader of `sessions`, which shares no code with it.

use std::collections::BTreeMap;

use sessions::crowd::crowd;
use sessions::damage;
use sessions::layout::*;
use sessions::random::{self, Prng};
use sessions::reader;
use sessions::text;
use sessions::Session;

/// Answers by number; 0 counts readable files.
pub type ByNumber = BTreeMap<u32, u64>;

/// What is asked: the refusal of a file.
pub type Refusal<'a> = &'a dyn Fn(&[u8]) -> u32;

/// Longest byte string of the systematic set: a header and two fields.
pub const SHORT: usize = HEADER_LEN + 2 * FIELD_LEN;

/// Holds one file's refusal to the reader's, and counts it.
pub fn hold(refusal: Refusal, bytes: &[u8], seen: &mut ByNumber) -> Result<(), String> {
    let expected = reader::read(bytes).err().unwrap_or(0);
    let got = refusal(bytes);
    *seen.entry(expected).or_default() += 1;
    if got == expected {
        return Ok(());
    }
    Err(format!(
        "the reader answers {expected}, the library {got}; the file:\n{}",
        text::from_bytes(bytes)
    ))
}

/// Every byte string of the systematic set.
pub fn short_strings(refusal: Refusal) -> Result<ByNumber, String> {
    let mut seen = ByNumber::new();
    for length in 0..=SHORT {
        for bytes in strings_of(length) {
            hold(refusal, &bytes, &mut seen)?;
        }
    }
    Ok(seen)
}

/// The set's strings of one length: equal bytes, counting bytes, a header with each field at its
/// bounds, its total right and wrong, and every bit of a right header changed.
fn strings_of(length: usize) -> Vec<Vec<u8>> {
    let mut all = vec![vec![0; length], vec![255; length], vec![1; length]];
    all.push((0..length).map(|i| i as u8).collect());
    let right = header(length as u32);
    for field in 0..HEADER_FIELDS {
        for value in bounds(field) {
            for total in totals(length) {
                let mut fields = right;
                fields[HEADER_FIELDS - 1] = total;
                fields[field] = value;
                all.push(string(&fields, length));
            }
        }
    }
    let plain = string(&right, length);
    all.extend((0..length * 8).map(|bit| damage::flip_bit(&plain, bit)));
    all
}

/// The header of a session without rows, with a total length.
fn header(total: u32) -> [u32; HEADER_FIELDS] {
    let at = HEADER_LEN as u32;
    [
        0,
        at,
        0,
        at,
        0,
        at,
        SLOTS as u32,
        MAX_MULTIVIEW,
        ALL_FLAGS,
        MAX_COLOUR_BYTES,
        total,
    ]
}

/// The fields as bytes, cut or continued with zeros.
fn string(fields: &[u32; HEADER_FIELDS], length: usize) -> Vec<u8> {
    let mut bytes: Vec<u8> = fields
        .iter()
        .flat_map(|field| field.to_le_bytes())
        .collect();
    bytes.resize(length, 0);
    bytes
}

/// Total lengths to try: the right one, its neighbours, and the header's own.
fn totals(length: usize) -> [u32; 4] {
    let length = length as u32;
    [
        length,
        length.wrapping_sub(1),
        length + 1,
        HEADER_LEN as u32,
    ]
}

/// The values of a header field around its bounds, and great ones.
fn bounds(field: usize) -> Vec<u32> {
    let around = |n: u32| [n.wrapping_sub(1), n, n.wrapping_add(1)];
    let most = match field * FIELD_LEN {
        TEXTURE_COUNT_AT => MAX_TEXTURES,
        VIEW_COUNT_AT => MAX_VIEWS,
        PASS_COUNT_AT => MAX_PASSES,
        MAX_COLOURS_AT => SLOTS as u32,
        MAX_VIEWS_AT => MAX_MULTIVIEW,
        FLAGS_AT => ALL_FLAGS,
        COLOUR_BYTES_AT => MAX_COLOUR_BYTES,
        _ => HEADER_LEN as u32,
    };
    let mut all = vec![0, 1, 2, 1 << 8, 1 << 16, 1 << 24, 1 << 31];
    all.extend(around(most));
    all.extend(around(HEADER_LEN as u32));
    all.extend(around(u32::MAX));
    all
}

/// Damaged copies of each random session.
const COPIES: u64 = 4;

/// A random session; in one of ten cases one of about the most surfaces.
fn session(prng: &mut Prng) -> Session {
    let session = random::session(prng);
    if prng.chance(10) {
        crowd(session, prng)
    } else {
        session
    }
}

/// This many damaged sessions from a seed: one to three random changes each. `shown` is told how
/// many there were.
pub fn damaged(
    refusal: Refusal,
    seed: u64,
    files: u64,
    shown: &mut dyn FnMut(u64),
) -> Result<ByNumber, String> {
    let mut prng = Prng::new(seed);
    let mut seen = ByNumber::new();
    let mut whole = Vec::new();
    for number in 0..files {
        if number % COPIES == 0 {
            whole = session(&mut prng).to_bytes();
        }
        let mut copy = damage::random(&whole, &mut prng);
        for _ in 0..prng.below(3) {
            copy = damage::random(&copy, &mut prng);
        }
        hold(refusal, &copy, &mut seen)?;
        shown(number + 1);
    }
    Ok(seen)
}

/// Files around and past the longest session.
pub fn long_files(refusal: Refusal) -> Result<ByNumber, String> {
    let mut seen = ByNumber::new();
    for length in [LONGEST - 1, LONGEST, LONGEST + 1, 65_536, 70_000] {
        for field in [length as u32, LONGEST as u32, 65_536, 0] {
            let mut bytes = string(&header(field), length);
            hold(refusal, &bytes, &mut seen)?;
            bytes[PASS_COUNT_AT] = MAX_PASSES as u8;
            hold(refusal, &bytes, &mut seen)?;
        }
    }
    Ok(seen)
}
