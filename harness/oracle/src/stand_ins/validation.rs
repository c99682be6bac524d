//! `validation`: the sum of colour bytes per sample, and how often it is asked for.

use std::cell::Cell;

use super::wgt::TextureFormat;
use crate::command::render::ColorAttachmentError;

thread_local! {
    /// How often this thread asked since the count began.
    static ASKED: Cell<usize> = const { Cell::new(0) };
}

/// Begins the count for a pass.
pub fn begin_count() {
    ASKED.set(0);
}

/// How often the sum was asked for since the count began.
pub fn asked() -> usize {
    ASKED.get()
}

/// Document 02's sum: each format in turn is aligned, then its cost is added. A format without a cost
/// adds nothing. The sum may reach the limit.
pub fn validate_color_attachment_bytes_per_sample(
    formats: impl Iterator<Item = TextureFormat>,
    limit: u32,
) -> Result<(), ColorAttachmentError> {
    ASKED.set(ASKED.get() + 1);
    let mut total: u32 = 0;
    for format in formats {
        let cost = format.target_pixel_byte_cost();
        let alignment = format.target_component_alignment();
        if let (Some(cost), Some(alignment)) = (cost, alignment) {
            total = total.div_ceil(alignment) * alignment + cost;
        }
    }
    if total > limit {
        return Err(ColorAttachmentError::TooManyBytesPerSample { total, limit });
    }
    Ok(())
}
