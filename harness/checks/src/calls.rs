//! One call on guarded copies of lent buffers, and the comparison of two outcomes.

use std::collections::BTreeMap;
use std::fmt;

use interface::{Desk, Lists};

use crate::guard::{Guarded, Loan};

/// How many calls were made, and how often each number was answered.
#[derive(Clone, Debug, Default)]
pub struct Seen {
    pub calls: u64,
    pub by_number: BTreeMap<u32, u64>,
}

impl Seen {
    /// One call more, with its number.
    pub fn count(&mut self, number: u32) {
        self.calls += 1;
        *self.by_number.entry(number).or_default() += 1;
    }
}

impl fmt::Display for Seen {
    fn fmt(&self, f: &mut fmt::Formatter) -> fmt::Result {
        writeln!(f, "{}", self.calls)?;
        for (number, count) in &self.by_number {
            writeln!(f, "  answered {number}: {count}")?;
        }
        Ok(())
    }
}

/// A call.
#[derive(Clone, Copy, Debug, PartialEq, Eq)]
pub enum Call {
    /// The check of a pass by its number.
    Pass(u32),
    Submit,
}

/// What a call answers and leaves.
#[derive(Clone, Debug, PartialEq, Eq)]
pub struct Outcome {
    /// The reply's words, or a submission's number.
    pub words: Vec<u32>,
    pub lists: Lists,
}

impl Outcome {
    /// The number: 0 accepted.
    pub fn number(&self) -> u32 {
        self.words[0]
    }
}

/// Makes a call on guarded copies. Nothing outside them is written, a session stays as it is, and
/// what a call may not write stays: everything after a refusal; the status in a pass check; the
/// clears in a submission.
pub fn make(desk: &dyn Desk, session: &[u8], call: Call, lists: &Lists) -> Result<Outcome, String> {
    let file = Guarded::new(session);
    let mut loan = Loan::of(lists);
    let words = match call {
        Call::Pass(number) => desk.pass(file.content(), number, loan.lend()).words(),
        Call::Submit => vec![desk.submit(file.content(), loan.lend())],
    };
    let told = |wrong: &str| format!("{call:?} answered {}: {wrong}\n", words[0]);
    if !file.intact() || file.content() != session {
        return Err(told("the session was written"));
    }
    let lists_after = loan.back().map_err(|wrong| told(&wrong))?;
    if let Some(part) = wrongly_changed(call, words[0], lists, &lists_after) {
        return Err(told(&format!("changed the {part}")));
    }
    Ok(Outcome {
        words,
        lists: lists_after,
    })
}

/// A buffer that the call may not change, and did.
fn wrongly_changed(call: Call, number: u32, before: &Lists, after: &Lists) -> Option<&'static str> {
    let refused = number != 0;
    let kept = [
        ("discards", refused, before.discards == after.discards),
        ("actions", refused, before.actions == after.actions),
        (
            "clears",
            refused || call == Call::Submit,
            before.clears == after.clears,
        ),
        (
            "status",
            refused || call != Call::Submit,
            before.status == after.status,
        ),
    ];
    let wrong = kept.iter().find(|(_, keeps, same)| *keeps && !same);
    wrong.map(|(name, _, _)| *name)
}

/// Where two outcomes of the same call differ, if anywhere: in a word or in a byte that is lent.
pub fn difference(expected: &Outcome, got: &Outcome) -> Option<String> {
    if expected.words != got.words {
        return Some(format!(
            "expected {:?}\ngot      {:?}\n",
            expected.words, got.words
        ));
    }
    let (expected, got) = (&expected.lists, &got.lists);
    let parts = [
        ("discards", &expected.discards, &got.discards),
        ("actions", &expected.actions, &got.actions),
        ("clears", &expected.clears, &got.clears),
        ("status", &expected.status, &got.status),
    ];
    let (name, expected, got) = parts.iter().find(|(_, a, b)| a != b)?;
    Some(first_byte(name, expected, got))
}

/// The first byte at which two buffers differ.
fn first_byte(name: &str, expected: &[u8], got: &[u8]) -> String {
    if expected.len() != got.len() {
        return format!("{name}: {} bytes, {} bytes\n", expected.len(), got.len());
    }
    let at = expected.iter().zip(got).position(|(a, b)| a != b);
    let at = at.expect("the caller knows that they differ");
    let (a, b) = (expected[at], got[at]);
    format!("{name}, byte {at}: expected {a}, got {b}\n")
}
