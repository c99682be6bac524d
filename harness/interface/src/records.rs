//! The reply to one pass, and the index of a surface, as the C interface lays them out.

use sessions::layout::{ATTACHMENT_LEN, ATTACHMENT_WORDS, COLOR_LEN, INDEX_LEN};
use sessions::layout::{MOST_ATTACHMENTS, REPLY_LEN};

/// A colour clear value.
#[repr(C)]
#[derive(Clone, Copy, Debug, Default)]
pub struct Color {
    pub red: f64,
    pub green: f64,
    pub blue: f64,
    pub alpha: f64,
}

/// One attachment of an accepted pass. A value that is not cleared is zero.
#[repr(C)]
#[derive(Clone, Copy, Debug, Default)]
pub struct Attachment {
    /// The view's number.
    pub view: u32,
    /// 1 COLOR_TARGET, 2 DEPTH_STENCIL_READ, 3 that with RESOURCE, 4 DEPTH_STENCIL_WRITE.
    pub usage: u32,
    /// Operations of colour or depth: 1 Load, 2 Clear, 4 DontCare, plus 8 Store, 16 Discard; 0 for a
    /// resolve target.
    pub ops: u32,
    /// Operations of the stencil; 0 for a colour and a resolve target.
    pub stencil_ops: u32,
    /// Clear value of a colour.
    pub color: Color,
    /// Clear value of the depth.
    pub depth: f32,
    /// Clear value of the stencil.
    pub stencil: u32,
}

/// The reply to one pass. A refused pass has zeros after its three places.
#[repr(C)]
#[derive(Clone, Copy, Debug, Default)]
pub struct Reply {
    /// 0 accepted, or document 01's number.
    pub number: u32,
    /// 0 to 7 a colour slot, 8 to 15 its resolve target, 16 depth-stencil, 17 none.
    pub place: u32,
    /// For 35 and 36 the place of the view accepted last; else 17.
    pub earlier: u32,
    pub width: u32,
    pub height: u32,
    pub samples: u32,
    pub depth_read_only: u32,
    pub stencil_read_only: u32,
    /// The divergent aspect: 0 none, 1 depth, 2 stencil.
    pub divergent: u32,
    /// Clears returned: so many records stand in the lent clears.
    pub clears: u32,
    /// Attachments: so many of the array are filled.
    pub count: u32,
    /// Depth-stencil, then each colour with its resolve target behind it.
    pub attachments: [Attachment; MOST_ATTACHMENTS],
}

/// Where a surface has its byte among the status bytes.
#[repr(C)]
#[derive(Clone, Copy, Debug, Default, PartialEq, Eq)]
pub struct Index {
    /// 0, or the session's refusal, 1 to 4, or 6 for a surface that the session does not have.
    pub number: u32,
    /// The place of the byte; 0 where the number is not.
    pub index: u32,
}

// The sizes that a C compiler gives the four records.
const _: () = assert!(size_of::<Index>() == INDEX_LEN);
const _: () = assert!(size_of::<Color>() == COLOR_LEN);
const _: () = assert!(size_of::<Attachment>() == ATTACHMENT_LEN);
const _: () = assert!(size_of::<Reply>() == REPLY_LEN);

impl Color {
    /// The colour of four f64 given as bits.
    pub fn from_bits([red, green, blue, alpha]: [u64; 4]) -> Color {
        Color {
            red: f64::from_bits(red),
            green: f64::from_bits(green),
            blue: f64::from_bits(blue),
            alpha: f64::from_bits(alpha),
        }
    }

    /// The bits as eight words, the low half of each number first.
    fn words(&self) -> [u32; 8] {
        let mut words = [0; 8];
        let values = [self.red, self.green, self.blue, self.alpha];
        for (pair, value) in words.chunks_exact_mut(2).zip(values) {
            pair[0] = value.to_bits() as u32;
            pair[1] = (value.to_bits() >> 32) as u32;
        }
        words
    }
}

impl Attachment {
    /// The fields as fourteen words, floats as their bits.
    pub fn words(&self) -> [u32; ATTACHMENT_WORDS] {
        let mut words = [0; ATTACHMENT_WORDS];
        words[..4].copy_from_slice(&[self.view, self.usage, self.ops, self.stencil_ops]);
        words[4..12].copy_from_slice(&self.color.words());
        words[12..].copy_from_slice(&[self.depth.to_bits(), self.stencil]);
        words
    }
}

impl Reply {
    /// The attachments that are filled.
    pub fn filled(&self) -> &[Attachment] {
        &self.attachments[..(self.count as usize).min(MOST_ATTACHMENTS)]
    }

    /// Everything that the reply says as words: eleven, then fourteen an attachment.
    pub fn words(&self) -> Vec<u32> {
        let mut words = vec![
            self.number,
            self.place,
            self.earlier,
            self.width,
            self.height,
            self.samples,
            self.depth_read_only,
            self.stencil_read_only,
            self.divergent,
            self.clears,
            self.count,
        ];
        words.extend(self.filled().iter().flat_map(Attachment::words));
        words
    }
}
