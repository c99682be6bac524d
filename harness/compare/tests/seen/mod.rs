//! What runs meet, counted.

use std::collections::BTreeMap;

/// How often each thing was seen.
pub type Seen = BTreeMap<&'static str, u32>;

/// Counts a thing where it is so.
pub fn count(seen: &mut Seen, what: &'static str, so: bool) {
    *seen.entry(what).or_default() += u32::from(so);
}
