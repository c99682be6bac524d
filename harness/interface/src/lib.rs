//! The C interface in Rust: its records, the buffers that a caller lends, and its five calls as a
//! trait. The proved library and the model both stand behind the trait, so that one set of checks
//! serves both.

mod lists;
mod records;

pub use lists::{action_fields, put_records, surface_fields, u32_at};
pub use lists::{Lent, Lists};
pub use records::{Attachment, Color, Index, Reply};
pub use sessions::layout;
pub use sessions::layout::{ACTIONS_LEN, CLEARS_LEN, DISCARDS_LEN, ROWS_LEN, STATUS_LEN};
pub use sessions::layout::{ROW_LEN, ROW_NUMBERS};
pub use sessions::reply::{Action, Kind, Surface};

/// The five calls. Each tests its own input.
pub trait Desk {
    /// The session's refusal: 0, or 1 to 4.
    fn session_refusal(&self, session: &[u8]) -> u32;

    /// The check of one pass.
    fn pass(&self, session: &[u8], pass: u32, lent: Lent) -> Reply;

    /// A submission: 0, 1 to 4, or 6.
    fn submit(&self, session: &[u8], lent: Lent) -> u32;

    /// The whole session from fresh lists, nine numbers a pass: 0, 1 to 4, or 6.
    fn session(&self, session: &[u8], rows: &mut [u8]) -> u32;

    /// The place of a surface's byte among the status bytes.
    fn surface_index(&self, session: &[u8], surface: &Surface) -> Index;
}
