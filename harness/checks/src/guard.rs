//! Buffers with guard bytes on both sides: whoever writes past a buffer's end is seen.

use interface::{Lent, Lists};

/// Guard bytes on each side.
const GUARD: usize = 64;

/// A buffer between guard bytes.
pub struct Guarded {
    bytes: Vec<u8>,
}

/// The guard byte at a place; neighbours differ, so that a shifted copy is seen, too.
fn guard_byte(at: usize) -> u8 {
    0xa5 ^ (at as u8).wrapping_mul(29)
}

impl Guarded {
    /// The content between fresh guard bytes.
    pub fn new(content: &[u8]) -> Guarded {
        let mut bytes = Vec::with_capacity(content.len() + 2 * GUARD);
        bytes.extend((0..GUARD).map(guard_byte));
        bytes.extend_from_slice(content);
        bytes.extend((0..GUARD).map(guard_byte));
        Guarded { bytes }
    }

    /// The part that is lent.
    pub fn content(&self) -> &[u8] {
        &self.bytes[GUARD..self.bytes.len() - GUARD]
    }

    /// The part that is lent, for writing.
    pub fn content_mut(&mut self) -> &mut [u8] {
        let end = self.bytes.len() - GUARD;
        &mut self.bytes[GUARD..end]
    }

    /// Whether every guard byte is as it was.
    pub fn intact(&self) -> bool {
        let whole = |side: &[u8]| side.iter().enumerate().all(|(i, b)| *b == guard_byte(i));
        whole(&self.bytes[..GUARD]) && whole(&self.bytes[self.bytes.len() - GUARD..])
    }
}

/// The four lent buffers, guarded.
pub struct Loan {
    discards: Guarded,
    actions: Guarded,
    clears: Guarded,
    status: Guarded,
}

impl Loan {
    /// A guarded copy of the buffers.
    pub fn of(lists: &Lists) -> Loan {
        Loan {
            discards: Guarded::new(&lists.discards),
            actions: Guarded::new(&lists.actions),
            clears: Guarded::new(&lists.clears),
            status: Guarded::new(&lists.status),
        }
    }

    /// The buffers for one call.
    pub fn lend(&mut self) -> Lent<'_> {
        Lent {
            discards: self.discards.content_mut(),
            actions: self.actions.content_mut(),
            clears: self.clears.content_mut(),
            status: self.status.content_mut(),
        }
    }

    /// What the buffers hold, or which of them was written past its end.
    pub fn back(self) -> Result<Lists, String> {
        let parts = [
            ("discards", &self.discards),
            ("actions", &self.actions),
            ("clears", &self.clears),
            ("status", &self.status),
        ];
        if let Some((name, _)) = parts.iter().find(|(_, part)| !part.intact()) {
            return Err(format!("written outside the lent {name}\n"));
        }
        let [discards, actions, clears, status] = parts.map(|(_, part)| part.content().to_vec());
        Ok(Lists {
            discards,
            actions,
            clears,
            status,
        })
    }
}

#[cfg(test)]
mod tests {
    use interface::DISCARDS_LEN;

    use super::*;

    #[test]
    fn a_byte_written_on_either_side_is_seen() {
        for length in [0, 1, DISCARDS_LEN] {
            let content = vec![7; length];
            assert!(Guarded::new(&content).intact());
            assert_eq!(Guarded::new(&content).content(), content);
            for at in [0, GUARD - 1, GUARD + length, 2 * GUARD + length - 1] {
                let mut guarded = Guarded::new(&content);
                guarded.bytes[at] ^= 1;
                assert!(!guarded.intact(), "byte {at}");
            }
        }
    }

    #[test]
    fn a_loan_names_the_buffer() {
        let mut loan = Loan::of(&Lists::fresh());
        loan.clears.bytes[0] ^= 1;
        assert!(loan.back().unwrap_err().contains("clears"));
        assert_eq!(Loan::of(&Lists::fresh()).back(), Ok(Lists::fresh()));
    }
}
