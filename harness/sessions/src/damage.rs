//! Damaged copies of a file: one change each.

use crate::layout::{FIELD_LEN, HEADER_FIELDS, HEADER_LEN, TOTAL_AT};
use crate::random::Prng;
use crate::rows::{Header, Row, Session};

/// A copy with one bit changed.
pub fn flip_bit(bytes: &[u8], bit: usize) -> Vec<u8> {
    let mut copy = bytes.to_vec();
    copy[bit / 8] ^= 1 << (bit % 8);
    copy
}

/// A copy with one header field changed by `step`, wrapping.
pub fn shift_header_field(bytes: &[u8], field: usize, step: i32) -> Vec<u8> {
    let at = field * FIELD_LEN;
    let mut copy = bytes.to_vec();
    let value = u32::from_le_bytes([copy[at], copy[at + 1], copy[at + 2], copy[at + 3]]);
    copy[at..at + FIELD_LEN].copy_from_slice(&value.wrapping_add_signed(step).to_le_bytes());
    copy
}

/// A copy of another length whose last header field says so, too, where `told`.
pub fn resize(bytes: &[u8], length: usize, told: bool) -> Vec<u8> {
    let mut copy = bytes.to_vec();
    copy.resize(length, 0);
    if told && length >= HEADER_LEN {
        copy[TOTAL_AT..HEADER_LEN].copy_from_slice(&(length as u32).to_le_bytes());
    }
    copy
}

/// Every damaged copy of a systematic set: each header field off by one, the lengths around
/// the file's own and the header's, told and untold, and every bit of the header.
pub fn systematic(bytes: &[u8]) -> Vec<Vec<u8>> {
    let off_by_one =
        (0..HEADER_FIELDS).flat_map(|f| [-1, 1].map(|step| shift_header_field(bytes, f, step)));
    let near = |length: usize| length.saturating_sub(1)..=length + 1;
    let lengths = (0..=1)
        .chain(near(HEADER_LEN))
        .chain(near(bytes.len()))
        .chain(near(bytes.len() / 2));
    let resized = lengths.flat_map(|n| [false, true].map(|told| resize(bytes, n, told)));
    let flipped = (0..HEADER_LEN * 8).map(|bit| flip_bit(bytes, bit));
    off_by_one.chain(resized).chain(flipped).collect()
}

/// A copy with one random change.
pub fn random(bytes: &[u8], prng: &mut Prng) -> Vec<u8> {
    if bytes.len() < HEADER_LEN {
        return resize(bytes, bytes.len() + 1, false);
    }
    let told = prng.chance(50);
    match prng.below(9) {
        0 => resize(bytes, prng.below(bytes.len() as u32 + 1) as usize, told),
        1 => resize(bytes, bytes.len() + 1 + prng.below(600) as usize, told),
        2 => shift_header_field(
            bytes,
            prng.below(HEADER_FIELDS as u32) as usize,
            prng.pick(&[-1, 1]),
        ),
        3 => flip_bit(bytes, prng.below(bytes.len() as u32 * 8) as usize),
        4 => random_view_format(bytes, prng),
        _ => random_field(bytes, prng),
    }
}

/// A copy in which a view has a format at random, or none's number.
fn random_view_format(bytes: &[u8], prng: &mut Prng) -> Vec<u8> {
    let Some(mut session) = Session::decode(bytes).filter(|s| !s.views.is_empty()) else {
        return random_field(bytes, prng);
    };
    let view = prng.below(session.views.len() as u32);
    session.views[view as usize].format = prng.below(27);
    session.to_bytes()
}

/// A copy with one field of the header, a texture, a view or a pass replaced by a small or
/// large number.
fn random_field(bytes: &[u8], prng: &mut Prng) -> Vec<u8> {
    let header = Header::read(bytes, 0).expect("the caller knows the header's length");
    let ends = [
        0,
        HEADER_LEN,
        header.view_offset as usize,
        header.pass_offset as usize,
        bytes.len(),
    ];
    let part = prng.below(4) as usize;
    let fields = ends[part + 1].saturating_sub(ends[part]) / FIELD_LEN;
    if fields == 0 || ends[part + 1] > bytes.len() {
        return flip_bit(bytes, prng.below(bytes.len() as u32 * 8) as usize);
    }
    let at = ends[part] + prng.below(fields as u32) as usize * FIELD_LEN;
    let value = match prng.below(3) {
        0 => prng.below(70),
        1 => u32::MAX - prng.below(3),
        _ => prng.bits() as u32,
    };
    let mut copy = bytes.to_vec();
    copy[at..at + FIELD_LEN].copy_from_slice(&value.to_le_bytes());
    copy
}
