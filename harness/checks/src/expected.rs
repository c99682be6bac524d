//! What a call should answer and leave, in the form of the C interface.

use interface::{action_fields, put_records, surface_fields, Attachment, Color, Lists, Reply};
use sessions::layout::{ACTION_FIELDS, NO_PLACE, SURFACE_FIELDS};
use sessions::reply::{self, Judged, Part};

/// The bits that every NaN colour comes back with.
pub const CANONICAL_NAN: u64 = 0x7ff8_0000_0000_0000;

/// A reply as the record of the C interface.
pub fn reply_record(r: &reply::Reply) -> Reply {
    let mut record = Reply {
        number: r.refusal,
        place: r.place.unwrap_or(NO_PLACE),
        earlier: r.earlier.unwrap_or(NO_PLACE),
        width: r.width,
        height: r.height,
        samples: r.samples,
        depth_read_only: u32::from(r.depth_read_only),
        stencil_read_only: u32::from(r.stencil_read_only),
        divergent: r.divergent,
        clears: r.clears.len() as u32,
        count: r.attachments.len() as u32,
        ..Reply::default()
    };
    for (place, at) in record.attachments.iter_mut().zip(&r.attachments) {
        *place = attachment(at);
    }
    record
}

/// An attachment as the record of the C interface.
fn attachment(at: &reply::Attachment) -> Attachment {
    let plain = Attachment {
        view: at.view,
        usage: at.usage,
        ..Attachment::default()
    };
    match at.part {
        Part::Resolve => plain,
        Part::Colour { operations, clear } => Attachment {
            ops: operations,
            color: Color::from_bits(clear.map(canonical)),
            ..plain
        },
        Part::DepthStencil {
            depth,
            stencil,
            clear_depth,
            clear_stencil,
        } => Attachment {
            ops: depth,
            stencil_ops: stencil,
            depth: f32::from_bits(clear_depth),
            stencil: clear_stencil,
            ..plain
        },
    }
}

/// The bits of a colour as they come back: every NaN is the canonical one.
fn canonical(bits: u64) -> u64 {
    if f64::from_bits(bits).is_nan() {
        CANONICAL_NAN
    } else {
        bits
    }
}

/// What a pass leaves in the buffers: its lists and clears where it is accepted, and every byte past
/// their records; else everything.
pub fn after_pass(before: &Lists, row: &Judged) -> Lists {
    let mut after = before.clone();
    if row.reply.refusal == 0 {
        put_records(
            &mut after.discards,
            row.lists.discards.iter().map(surface_fields),
        );
        put_records(
            &mut after.actions,
            row.lists.actions.iter().map(action_fields),
        );
        put_records(
            &mut after.clears,
            row.reply.clears.iter().map(surface_fields),
        );
    }
    after
}

/// What a submission leaves in the buffers: empty lists, the clears, and these status bytes.
pub fn after_submission(before: &Lists, status: &[u8]) -> Lists {
    let mut after = before.clone();
    put_records(
        &mut after.discards,
        std::iter::empty::<[u32; SURFACE_FIELDS]>(),
    );
    put_records(
        &mut after.actions,
        std::iter::empty::<[u32; ACTION_FIELDS]>(),
    );
    after.status[..status.len()].copy_from_slice(status);
    after
}
