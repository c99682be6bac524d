//! The C functions as `include/pass_columns.h` declares them.

/// Where a column stands, and its bytes.
#[repr(C)]
pub struct ColumnPlace {
    pub number: u32,
    pub first: usize,
    pub bytes: usize,
}

unsafe extern "C" {
    pub fn deskcheck_columns(
        passes: u32,
        rows: *const u8,
        rows_len: usize,
        columns: *mut u8,
        columns_len: usize,
    ) -> u32;

    pub fn deskcheck_rows(
        passes: u32,
        columns: *const u8,
        columns_len: usize,
        rows: *mut u8,
        rows_len: usize,
    ) -> u32;

    pub fn deskcheck_column(
        passes: u32,
        columns: *const u8,
        columns_len: usize,
        j: u32,
    ) -> ColumnPlace;
}
