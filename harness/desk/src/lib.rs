//! The desk check for Rust callers: the proved library's C functions on slices, without `unsafe`.
//!
//! A session file is checked whole, or pass by pass on lists that the caller owns:
//!
//! ```
//! let file = std::fs::read("../../examples/first.session").unwrap();
//!
//! // The whole session: nine numbers a pass, or the number that refuses the file.
//! let rows = desk::check(&file).unwrap();
//! assert_eq!(rows[1], [1, 0, 17, 17, 4, 4, 1, 1, 0]);
//! assert_eq!(desk::check(b"short"), Err(1));
//!
//! // Pass by pass, then the buffer's submission.
//! let mut lists = desk::Lists::fresh();
//! let first = desk::check_pass(&file, 0, &mut lists);
//! assert_eq!((first.number, first.width, first.height), (0, 4, 4));
//! assert_eq!(lists.discards().len(), 1);
//! let second = desk::check_pass(&file, 1, &mut lists);
//! assert_eq!((second.number, second.clears), (0, 1));
//! assert_eq!(desk::submit_buffer(&file, &mut lists), 0);
//!
//! // A surface's status byte: 1 filled, plus 2 cleared by the submission.
//! let surface = desk::Surface { texture: 0, mip: 0, layer: 0, slice: 0 };
//! let at = desk::surface_index(&file, &surface).unwrap();
//! assert_eq!(lists.status[at], 3);
//! assert_eq!(desk::surface_index(&file, &desk::Surface { slice: 1, ..surface }), Err(6));
//! ```
//!
//! Numbers and places are those of `docs/REFUSALS.md`; `include/deskcheck.h` has every layout.

mod foreign;

pub use interface::layout;
pub use interface::{Action, Attachment, Color, Desk, Index, Kind, Lent, Lists, Reply, Surface};
pub use interface::{ACTIONS_LEN, CLEARS_LEN, DISCARDS_LEN, ROWS_LEN, STATUS_LEN};

use interface::{u32_at, ROW_LEN, ROW_NUMBERS};
use layout::{FIELD_LEN, PASS_COUNT_AT};

/// The session's refusal: 0, or 1 to 4.
#[inline]
pub fn session_refusal(session: &[u8]) -> u32 {
    // SAFETY: a pointer and a length of one slice, which lives through the call.
    unsafe { foreign::deskcheck_session_refusal(session.as_ptr(), session.len()) }
}

/// Checks one pass on lent buffers. A refusal leaves every byte of them.
#[inline]
pub fn pass(
    session: &[u8],
    pass: u32,
    discards: &mut [u8],
    actions: &mut [u8],
    clears: &mut [u8],
    status: &[u8],
) -> Reply {
    // SAFETY: pointers and lengths of slices, which live through the call and do not overlap.
    unsafe {
        foreign::deskcheck_pass(
            session.as_ptr(),
            session.len(),
            pass,
            discards.as_mut_ptr(),
            discards.len(),
            actions.as_mut_ptr(),
            actions.len(),
            clears.as_mut_ptr(),
            clears.len(),
            status.as_ptr(),
            status.len(),
        )
    }
}

/// Submits the open buffer: 0, or 1 to 4 or 6, which leave every lent byte.
#[inline]
pub fn submit(
    session: &[u8],
    discards: &mut [u8],
    actions: &mut [u8],
    clears: &[u8],
    status: &mut [u8],
) -> u32 {
    // SAFETY: pointers and lengths of slices, which live through the call and do not overlap.
    unsafe {
        foreign::deskcheck_submit(
            session.as_ptr(),
            session.len(),
            discards.as_mut_ptr(),
            discards.len(),
            actions.as_mut_ptr(),
            actions.len(),
            clears.as_ptr(),
            clears.len(),
            status.as_mut_ptr(),
            status.len(),
        )
    }
}

/// Checks a whole session from fresh lists into lent rows: 0, or 1 to 4 or 6, which leave every
/// lent byte.
#[inline]
pub fn session(session: &[u8], rows: &mut [u8]) -> u32 {
    // SAFETY: pointers and lengths of two slices, which live through the call and do not overlap.
    unsafe {
        foreign::deskcheck_session(
            session.as_ptr(),
            session.len(),
            rows.as_mut_ptr(),
            rows.len(),
        )
    }
}

/// The place of a surface's byte among the status bytes; or the number that refuses the session, 1 to
/// 4, or 6 for a surface that the session does not have.
pub fn surface_index(session: &[u8], surface: &Surface) -> Result<usize, u32> {
    match index(session, surface) {
        Index { number: 0, index } => Ok(index as usize),
        Index { number, .. } => Err(number),
    }
}

/// The same as the C function tells it.
fn index(session: &[u8], surface: &Surface) -> Index {
    let (pointer, length) = (session.as_ptr(), session.len());
    let Surface {
        texture,
        mip,
        layer,
        slice,
    } = *surface;
    // SAFETY: a pointer and a length of one slice, which lives through the call.
    unsafe { foreign::deskcheck_surface_index(pointer, length, texture, mip, layer, slice) }
}

/// Checks one pass on owned lists.
pub fn check_pass(session: &[u8], number: u32, lists: &mut Lists) -> Reply {
    Library.pass(session, number, lists.lend())
}

/// Submits the open buffer of owned lists.
pub fn submit_buffer(session: &[u8], lists: &mut Lists) -> u32 {
    Library.submit(session, lists.lend())
}

/// The nine numbers of each pass of a session: pass, refusal, place, earlier place, width, height,
/// samples, clears returned, length of the discard list before any submission. Or the number that
/// refuses the session.
pub fn check(file: &[u8]) -> Result<Vec<[u32; ROW_NUMBERS]>, u32> {
    let mut rows = vec![0; ROWS_LEN];
    match session(file, &mut rows) {
        0 => {
            let passes = u32_at(file, PASS_COUNT_AT) as usize;
            Ok(rows.chunks_exact(ROW_LEN).take(passes).map(row).collect())
        }
        number => Err(number),
    }
}

/// The numbers of a row.
fn row(bytes: &[u8]) -> [u32; ROW_NUMBERS] {
    std::array::from_fn(|i| u32_at(bytes, FIELD_LEN * i))
}

/// The proved library as the calls that the harness checks.
pub struct Library;

impl Desk for Library {
    fn session_refusal(&self, session: &[u8]) -> u32 {
        session_refusal(session)
    }

    fn pass(&self, session: &[u8], number: u32, lent: Lent) -> Reply {
        pass(
            session,
            number,
            lent.discards,
            lent.actions,
            lent.clears,
            lent.status,
        )
    }

    fn submit(&self, session: &[u8], lent: Lent) -> u32 {
        submit(
            session,
            lent.discards,
            lent.actions,
            lent.clears,
            lent.status,
        )
    }

    fn session(&self, bytes: &[u8], rows: &mut [u8]) -> u32 {
        session(bytes, rows)
    }

    fn surface_index(&self, session: &[u8], surface: &Surface) -> Index {
        index(session, surface)
    }
}
