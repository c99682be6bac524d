//! The pass part of a session by columns, and back, for Rust callers: the proved library's C
//! functions on slices, without `unsafe`.
//!
//! Byte 0 of all passes comes first, then byte 1, up to the last byte of a pass:
//!
//! ```
//! use columns::layout::{FIELD_LEN, PASS_FRONT_LEN, PASS_LEN};
//! use columns::{column, to_columns, to_rows};
//!
//! // The two passes of a session, which stand at its end.
//! let file = std::fs::read("../../examples/first.session").unwrap();
//! let rows = &file[file.len() - 2 * PASS_LEN..];
//!
//! let mut by_columns = vec![0; rows.len()];
//! assert_eq!(to_columns(2, rows, &mut by_columns), Ok(()));
//!
//! // The load operation of the first slot: Clear, then Load.
//! let load = PASS_FRONT_LEN + 4 * FIELD_LEN;
//! assert_eq!(column(2, &by_columns, load as u32), Ok(&[1, 0][..]));
//!
//! let mut back = vec![0; rows.len()];
//! assert_eq!(to_rows(2, &by_columns, &mut back), Ok(()));
//! assert_eq!(back, rows);
//!
//! // Three passes have more bytes; and a target may be too short.
//! assert_eq!(to_columns(3, rows, &mut by_columns), Err(2));
//! assert_eq!(to_columns(2, rows, &mut by_columns[1..]), Err(6));
//! ```
//!
//! `include/pass_columns.h` says what each number means.

mod foreign;

pub use sessions::layout;

/// Writes the rows of so many passes by columns, to the front of `columns`; its bytes behind them
/// stay. Or 2 for the pass count or the length of the rows, then 6 for a target that is too short;
/// these leave every byte.
#[inline]
pub fn to_columns(passes: u32, rows: &[u8], columns: &mut [u8]) -> Result<(), u32> {
    // SAFETY: pointers and lengths of two slices, which live through the call and do not overlap.
    let number = unsafe {
        foreign::deskcheck_columns(
            passes,
            rows.as_ptr(),
            rows.len(),
            columns.as_mut_ptr(),
            columns.len(),
        )
    };
    answer(number)
}

/// The way back, with the same refusals: 2 for the pass count or the length of the columns, then 6.
#[inline]
pub fn to_rows(passes: u32, columns: &[u8], rows: &mut [u8]) -> Result<(), u32> {
    // SAFETY: pointers and lengths of two slices, which live through the call and do not overlap.
    let number = unsafe {
        foreign::deskcheck_rows(
            passes,
            columns.as_ptr(),
            columns.len(),
            rows.as_mut_ptr(),
            rows.len(),
        )
    };
    answer(number)
}

/// The part of the columns that holds column j: byte j of each pass. Of no passes it is empty. Or 2
/// for the pass count, the length of the columns or a column past the last.
#[inline]
pub fn column(passes: u32, columns: &[u8], j: u32) -> Result<&[u8], u32> {
    // SAFETY: a pointer and a length of one slice, which lives through the call.
    let place = unsafe { foreign::deskcheck_column(passes, columns.as_ptr(), columns.len(), j) };
    answer(place.number)?;
    Ok(&columns[place.first..place.first + place.bytes])
}

/// Nothing for 0, or the number of a refusal.
fn answer(number: u32) -> Result<(), u32> {
    match number {
        0 => Ok(()),
        number => Err(number),
    }
}
