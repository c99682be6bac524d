//! The C functions as `include/deskcheck.h` declares them.

use interface::{Index, Reply};

unsafe extern "C" {
    pub fn deskcheck_session_refusal(session: *const u8, session_len: usize) -> u32;

    pub fn deskcheck_pass(
        session: *const u8,
        session_len: usize,
        pass: u32,
        discards: *mut u8,
        discards_len: usize,
        actions: *mut u8,
        actions_len: usize,
        clears: *mut u8,
        clears_len: usize,
        status: *const u8,
        status_len: usize,
    ) -> Reply;

    pub fn deskcheck_submit(
        session: *const u8,
        session_len: usize,
        discards: *mut u8,
        discards_len: usize,
        actions: *mut u8,
        actions_len: usize,
        clears: *const u8,
        clears_len: usize,
        status: *mut u8,
        status_len: usize,
    ) -> u32;

    pub fn deskcheck_session(
        session: *const u8,
        session_len: usize,
        rows: *mut u8,
        rows_len: usize,
    ) -> u32;

    pub fn deskcheck_surface_index(
        session: *const u8,
        session_len: usize,
        texture: u32,
        mip: u32,
        layer: u32,
        slice: u32,
    ) -> Index;
}
