//! Sizes, counts, lengths and limits of document 01. The harness has each of them here and nowhere
//! else. `tests/layout.rs` holds them to document 01's numbers, and `include/deskcheck.h` is held to
//! them by the tests of `runs`.

/// Bytes of a field.
pub const FIELD_LEN: usize = 4;

/// Fields of the header.
pub const HEADER_FIELDS: usize = 11;
/// Fields of a texture row.
pub const TEXTURE_FIELDS: usize = 8;
/// Fields of a view row.
pub const VIEW_FIELDS: usize = 9;
/// Fields of a depth or stencil channel.
pub const CHANNEL_FIELDS: usize = 5;
/// Fields of a pass row before its channels.
pub const PASS_OWN_FIELDS: usize = 4;
/// Fields of a colour slot before its clear value.
pub const SLOT_OWN_FIELDS: usize = 6;
/// Numbers of a colour's clear value, and bytes of each.
pub const COLOR_NUMBERS: usize = 4;
pub const COLOR_NUMBER_LEN: usize = 8;
/// Bytes of a colour's clear value.
pub const COLOR_LEN: usize = COLOR_NUMBERS * COLOR_NUMBER_LEN;
/// Colour slots of a pass row.
pub const SLOTS: usize = 8;

/// Bytes of the header.
pub const HEADER_LEN: usize = HEADER_FIELDS * FIELD_LEN;
/// Bytes of a texture row.
pub const TEXTURE_LEN: usize = TEXTURE_FIELDS * FIELD_LEN;
/// Bytes of a view row.
pub const VIEW_LEN: usize = VIEW_FIELDS * FIELD_LEN;
/// Bytes of a depth or stencil channel.
pub const CHANNEL_LEN: usize = CHANNEL_FIELDS * FIELD_LEN;
/// Bytes of a colour slot.
pub const SLOT_LEN: usize = SLOT_CLEAR_AT + COLOR_LEN;
/// Bytes of a pass row before its colour slots.
pub const PASS_FRONT_LEN: usize = DEPTH_AT + 2 * CHANNEL_LEN;
/// Bytes of a pass row.
pub const PASS_LEN: usize = PASS_FRONT_LEN + SLOTS * SLOT_LEN;

/// Where the header has its counts and offsets.
pub const TEXTURE_COUNT_AT: usize = 0;
pub const TEXTURE_OFFSET_AT: usize = FIELD_LEN;
pub const VIEW_COUNT_AT: usize = 2 * FIELD_LEN;
pub const VIEW_OFFSET_AT: usize = 3 * FIELD_LEN;
pub const PASS_COUNT_AT: usize = 4 * FIELD_LEN;
pub const PASS_OFFSET_AT: usize = 5 * FIELD_LEN;
/// Where the header has the maxima of colours and of multiview views, the flags, and the limit of colour bytes.
pub const MAX_COLOURS_AT: usize = 6 * FIELD_LEN;
pub const MAX_VIEWS_AT: usize = 7 * FIELD_LEN;
pub const FLAGS_AT: usize = 8 * FIELD_LEN;
pub const COLOUR_BYTES_AT: usize = 9 * FIELD_LEN;
/// Where the header has the total length: its last field.
pub const TOTAL_AT: usize = HEADER_LEN - FIELD_LEN;
/// Where a pass row has its ends-buffer field.
pub const PASS_ENDS_AT: usize = 2 * FIELD_LEN;
/// Where a pass row has its depth channel; the stencil's follows.
pub const DEPTH_AT: usize = PASS_OWN_FIELDS * FIELD_LEN;
/// Where a colour slot has its clear value.
pub const SLOT_CLEAR_AT: usize = SLOT_OWN_FIELDS * FIELD_LEN;

/// The number that stands for "no view".
pub const NONE: u32 = u32::MAX;

/// Most textures of a session.
pub const MAX_TEXTURES: u32 = 64;
/// Most views of a session.
pub const MAX_VIEWS: u32 = 256;
/// Most passes of a session.
pub const MAX_PASSES: u32 = 100;
/// Most surfaces of a session.
pub const MAX_SURFACES: u32 = 4096;
/// Greatest maximum of multiview views.
pub const MAX_MULTIVIEW: u32 = 32;
/// Greatest limit of colour bytes per sample, which no pass is over.
pub const MAX_COLOUR_BYTES: u32 = 128;
/// All header flags.
pub const ALL_FLAGS: u32 = STRICT | MULTIVIEW | SELECTIVE_MULTIVIEW | READ_ONLY_DEPTH_STENCIL;
/// Greatest width and height of a texture.
pub const MAX_SIZE: u32 = 16384;
/// Greatest depth, or most layers, of a texture.
pub const MAX_LAYERS: u32 = 32;
/// Most mips of a texture.
pub const MAX_MIPS: u32 = 15;
/// Sample counts of a texture.
pub const SAMPLES: [u32; 5] = [1, 2, 4, 8, 16];
/// All usage bits.
pub const ALL_USAGES: u32 = 63;

/// Length of the longest session.
pub const LONGEST: usize = HEADER_LEN
    + MAX_TEXTURES as usize * TEXTURE_LEN
    + MAX_VIEWS as usize * VIEW_LEN
    + MAX_PASSES as usize * PASS_LEN;

/// Places of the lent discard list.
pub const DISCARDS: usize = 64;
/// Places of the lent action list.
pub const ACTIONS: usize = 512;
/// Places of the lent clear list.
pub const CLEARS: usize = 80;
/// Lent status bytes.
pub const STATUS_LEN: usize = MAX_SURFACES as usize;

/// Bytes of a list's count; its records follow.
pub const COUNT_LEN: usize = FIELD_LEN;
/// Fields of a surface record: texture, mip, layer, slice.
pub const SURFACE_FIELDS: usize = 4;
/// Fields of an action record: texture, mip, mips, layer, layers, kind, slice.
pub const ACTION_FIELDS: usize = 7;
/// Bytes of a surface record.
pub const SURFACE_LEN: usize = SURFACE_FIELDS * FIELD_LEN;
/// Bytes of an action record.
pub const ACTION_LEN: usize = ACTION_FIELDS * FIELD_LEN;
/// Where a surface record has its slice: its last field.
pub const SURFACE_SLICE_AT: usize = SURFACE_LEN - FIELD_LEN;
/// Where an action record has its kind, and behind it its slice: its last field.
pub const ACTION_KIND_AT: usize = ACTION_SLICE_AT - FIELD_LEN;
pub const ACTION_SLICE_AT: usize = ACTION_LEN - FIELD_LEN;

/// Bytes that the lent discard list needs.
pub const DISCARDS_LEN: usize = COUNT_LEN + DISCARDS * SURFACE_LEN;
/// Bytes that the lent action list needs.
pub const ACTIONS_LEN: usize = COUNT_LEN + ACTIONS * ACTION_LEN;
/// Bytes that the lent clear list needs.
pub const CLEARS_LEN: usize = COUNT_LEN + CLEARS * SURFACE_LEN;

/// Numbers of a pass's row in the answer to a whole session.
pub const ROW_NUMBERS: usize = 9;
/// Bytes of a pass's row.
pub const ROW_LEN: usize = ROW_NUMBERS * FIELD_LEN;
/// Bytes that the rows of a whole session need.
pub const ROWS_LEN: usize = MAX_PASSES as usize * ROW_LEN;

/// Most attachments of a pass: depth-stencil, and each colour with its resolve target.
pub const MOST_ATTACHMENTS: usize = 1 + 2 * SLOTS;
/// Bytes of an attachment of a reply: six fields and a colour's clear value.
pub const ATTACHMENT_LEN: usize = 6 * FIELD_LEN + COLOR_LEN;
/// Words of an attachment.
pub const ATTACHMENT_WORDS: usize = ATTACHMENT_LEN / FIELD_LEN;
/// Fields of a reply before its attachments.
pub const REPLY_FIELDS: usize = 11;
/// Bytes of a reply: its fields, up to where an attachment may stand, and the attachments.
pub const REPLY_LEN: usize = (REPLY_FIELDS * FIELD_LEN).next_multiple_of(COLOR_NUMBER_LEN)
    + MOST_ATTACHMENTS * ATTACHMENT_LEN;

/// Bytes of the answer to where a surface's status byte is: a number and an index.
pub const INDEX_LEN: usize = 2 * FIELD_LEN;

/// Flag: strict WebGPU compliance.
pub const STRICT: u32 = 1;
/// Flag: the feature MULTIVIEW.
pub const MULTIVIEW: u32 = 2;
/// Flag: the feature SELECTIVE_MULTIVIEW.
pub const SELECTIVE_MULTIVIEW: u32 = 4;
/// Flag: the downlevel flag READ_ONLY_DEPTH_STENCIL.
pub const READ_ONLY_DEPTH_STENCIL: u32 = 8;

/// Usage bit: texture binding.
pub const TEXTURE_BINDING: u32 = 4;
/// Usage bit: render attachment.
pub const RENDER_ATTACHMENT: u32 = 16;
/// Usage bit: transient attachment.
pub const TRANSIENT: u32 = 32;

/// View dimensions.
pub const D1: u32 = 1;
pub const D2: u32 = 2;
pub const D2_ARRAY: u32 = 3;
pub const CUBE: u32 = 4;
pub const CUBE_ARRAY: u32 = 5;
pub const D3: u32 = 6;

/// Load operations of a row; 3 is lawful for depth and stencil only.
pub const LOAD: u32 = 0;
pub const CLEAR: u32 = 1;
pub const DONT_CARE: u32 = 2;
pub const NO_LOAD: u32 = 3;
/// Store operations of a row; 2 is lawful for depth and stencil only.
pub const STORE: u32 = 0;
pub const DISCARD: u32 = 1;
pub const NO_STORE: u32 = 2;

/// Places of an answer: 0 to 7 a colour slot, from 8 on its resolve target.
pub const RESOLVE_PLACE: u32 = 8;
/// The place of the depth-stencil attachment.
pub const DEPTH_STENCIL_PLACE: u32 = 16;
/// No place.
pub const NO_PLACE: u32 = 17;
