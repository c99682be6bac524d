//! What a caller lends: three lists and the status bytes, as byte buffers. A list is a count and
//! then its records, all little-endian u32.

use sessions::layout::{ACTIONS_LEN, ACTION_FIELDS, ACTION_KIND_AT, ACTION_LEN, ACTION_SLICE_AT};
use sessions::layout::{CLEARS_LEN, COUNT_LEN, DISCARDS_LEN, FIELD_LEN, STATUS_LEN};
use sessions::layout::{SURFACE_FIELDS, SURFACE_LEN, SURFACE_SLICE_AT};
use sessions::reply::{Action, Kind, Surface};

/// The four lent buffers of one call. Shorter ones are refused as 6, further bytes are not touched.
pub struct Lent<'a> {
    pub discards: &'a mut [u8],
    pub actions: &'a mut [u8],
    pub clears: &'a mut [u8],
    pub status: &'a mut [u8],
}

/// The four buffers, owned.
#[derive(Clone, Debug, PartialEq, Eq)]
pub struct Lists {
    pub discards: Vec<u8>,
    pub actions: Vec<u8>,
    pub clears: Vec<u8>,
    pub status: Vec<u8>,
}

impl Lists {
    /// Fresh lists: no entries, status 0.
    pub fn fresh() -> Lists {
        Lists {
            discards: vec![0; DISCARDS_LEN],
            actions: vec![0; ACTIONS_LEN],
            clears: vec![0; CLEARS_LEN],
            status: vec![0; STATUS_LEN],
        }
    }

    /// Empties the lists; the status stays.
    pub fn empty(&mut self) {
        for list in [&mut self.discards, &mut self.actions, &mut self.clears] {
            list[..COUNT_LEN].fill(0);
        }
    }

    /// Empties the lists and the status, without a new allocation.
    pub fn clear(&mut self) {
        self.empty();
        self.status.fill(0);
    }

    /// The buffers, lent to one call.
    pub fn lend(&mut self) -> Lent<'_> {
        Lent {
            discards: &mut self.discards,
            actions: &mut self.actions,
            clears: &mut self.clears,
            status: &mut self.status,
        }
    }

    /// The surfaces that are listed as discarded.
    pub fn discards(&self) -> Vec<Surface> {
        records(&self.discards, SURFACE_LEN, surface_at)
    }

    /// The actions of the open buffer.
    pub fn actions(&self) -> Vec<Action> {
        records(&self.actions, ACTION_LEN, action_at)
    }

    /// The clears of the pass accepted last.
    pub fn clears(&self) -> Vec<Surface> {
        records(&self.clears, SURFACE_LEN, surface_at)
    }

    /// How many discards, actions and clears are listed.
    pub fn counts(&self) -> [u32; 3] {
        [&self.discards, &self.actions, &self.clears].map(|list| u32_at(list, 0))
    }
}

/// The u32 at an offset; 0 past the end.
pub fn u32_at(bytes: &[u8], at: usize) -> u32 {
    let four = bytes.get(at..at + FIELD_LEN);
    let four = four.and_then(|four| four.try_into().ok());
    four.map_or(0, u32::from_le_bytes)
}

/// The records that a list's count names, as far as the buffer reaches.
fn records<T>(list: &[u8], length: usize, record: impl Fn(&[u8]) -> T) -> Vec<T> {
    let all = list.get(COUNT_LEN..).unwrap_or(&[]).chunks_exact(length);
    all.take(u32_at(list, 0) as usize).map(record).collect()
}

/// A surface of its record.
fn surface_at(record: &[u8]) -> Surface {
    Surface {
        texture: u32_at(record, 0),
        mip: u32_at(record, FIELD_LEN),
        layer: u32_at(record, 2 * FIELD_LEN),
        slice: u32_at(record, SURFACE_SLICE_AT),
    }
}

/// An action of its record. A range that ends past u32 ends at its greatest number.
fn action_at(record: &[u8]) -> Action {
    let range = |at: usize| {
        let first = u32_at(record, at);
        let count = u32_at(record, at + FIELD_LEN);
        (first, first.saturating_add(count))
    };
    Action {
        kind: match u32_at(record, ACTION_KIND_AT) {
            0 => Kind::Implicit,
            _ => Kind::Needing,
        },
        texture: u32_at(record, 0),
        mips: range(FIELD_LEN),
        layers: range(3 * FIELD_LEN),
        slice: u32_at(record, ACTION_SLICE_AT),
    }
}

/// A surface as the fields of its record.
pub fn surface_fields(s: &Surface) -> [u32; SURFACE_FIELDS] {
    [s.texture, s.mip, s.layer, s.slice]
}

/// An action as the fields of its record.
pub fn action_fields(a: &Action) -> [u32; ACTION_FIELDS] {
    let kind = match a.kind {
        Kind::Implicit => 0,
        Kind::Needing => 1,
    };
    let (mips, layers) = (a.mips, a.layers);
    [
        a.texture,
        mips.0,
        mips.1 - mips.0,
        layers.0,
        layers.1 - layers.0,
        kind,
        a.slice,
    ]
}

/// Writes a count and its records; bytes after them stay.
pub fn put_records<const N: usize>(list: &mut [u8], records: impl Iterator<Item = [u32; N]>) {
    let mut count = 0u32;
    let mut at = COUNT_LEN;
    for field in records.inspect(|_| count += 1).flatten() {
        list[at..at + FIELD_LEN].copy_from_slice(&field.to_le_bytes());
        at += FIELD_LEN;
    }
    list[..COUNT_LEN].copy_from_slice(&count.to_le_bytes());
}
