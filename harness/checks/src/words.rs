//! The command lines and the progress of the runs.

use std::io::{IsTerminal, Write};
use std::str::FromStr;

/// The value after a name, or what is used where the name is not given.
pub fn value<T: FromStr>(arguments: &[String], name: &str, otherwise: T) -> Result<T, String> {
    let Some(at) = arguments.iter().position(|word| word == name) else {
        return Ok(otherwise);
    };
    let word = arguments
        .get(at + 1)
        .ok_or(format!("{name} has no value"))?;
    word.parse()
        .map_err(|_| format!("{name}: not a number: {word}"))
}

/// The text after a name, if the name is given.
pub fn text(arguments: &[String], name: &str) -> Option<String> {
    let at = arguments.iter().position(|word| word == name)?;
    arguments.get(at + 1).cloned()
}

/// Refuses words that are neither one of the names nor the value behind one.
pub fn only(arguments: &[String], names: &[&str], flags: &[&str]) -> Result<(), String> {
    let mut words = arguments.iter();
    while let Some(word) = words.next() {
        if names.contains(&word.as_str()) {
            words.next();
        } else if !flags.contains(&word.as_str()) {
            let known = [names, flags].concat().join(", ");
            return Err(format!("{word}: not known; known are {known}"));
        }
    }
    Ok(())
}

/// Shows on standard error how far a run is, at each percent.
pub struct Progress {
    what: &'static str,
    whole: u64,
    shown: u64,
    terminal: bool,
}

impl Progress {
    /// A run of so many.
    pub fn new(what: &'static str, whole: u64) -> Progress {
        Progress {
            what,
            whole: whole.max(1),
            shown: 0,
            terminal: std::io::stderr().is_terminal(),
        }
    }

    /// Shows that so many are done: each percent on a terminal, each tenth elsewhere.
    pub fn at(&mut self, done: u64) {
        let step = if self.terminal { 1 } else { 10 };
        let percent = (done.min(self.whole) * 100 / self.whole) / step * step;
        if percent <= self.shown {
            return;
        }
        self.shown = percent;
        let (whole, what) = (self.whole, self.what);
        let (start, end) = if self.terminal && percent < 100 {
            ("\r", "")
        } else if self.terminal {
            ("\r", "\n")
        } else {
            ("", "\n")
        };
        eprint!("{start}{percent:3}% of {whole} {what}{end}");
        let _ = std::io::stderr().flush();
    }
}
