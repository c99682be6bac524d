//! The harness's own fuzzer: inputs of the C functions are changed at random, and those that give
//! a kind of answer not seen before are kept and changed further. Guard bytes stand around every
//! buffer, and the model says what each input should be answered.

use std::collections::{BTreeMap, BTreeSet};
use std::fmt;

use interface::{Desk, Lists};
use sessions::random::{self, Prng};
use sessions::text;

use crate::calls::{difference, make, Call, Outcome};
use crate::guard::Guarded;
use crate::mutate::{change, Function, Input};
use crate::reference::Model;
use crate::surfaces;

/// What a run has seen.
#[derive(Clone, Debug, Default)]
pub struct Seen {
    pub inputs: u64,
    /// Inputs kept because their kind of answer was new.
    pub kept: u64,
    /// Answers by function and number.
    pub by_number: BTreeMap<(Function, u32), u64>,
}

impl Seen {
    /// How often a number was answered, by any function.
    pub fn of(&self, number: u32) -> u64 {
        let all = self.by_number.iter();
        all.filter(|((_, n), _)| *n == number).map(|(_, c)| c).sum()
    }
}

impl fmt::Display for Seen {
    fn fmt(&self, f: &mut fmt::Formatter) -> fmt::Result {
        writeln!(f, "inputs {}", self.inputs)?;
        writeln!(f, "accepted {}", self.of(0))?;
        writeln!(f, "refused {}", self.inputs - self.of(0))?;
        writeln!(f, "kept for a new kind of answer {}", self.kept)?;
        for ((function, number), count) in &self.by_number {
            writeln!(f, "{function:?} {number}: {count}")?;
        }
        Ok(())
    }
}

/// Most inputs that are kept.
const MOST_KEPT: usize = 1024;
/// Random sessions among the first inputs.
const FIRST_RANDOM: usize = 48;
/// Most changes of one input.
const MOST_CHANGES: u32 = 4;

/// What tells kinds of answers apart.
type Kind = Vec<u32>;

/// A run in progress.
pub struct Fuzzer<'a> {
    desk: &'a dyn Desk,
    prng: Prng,
    kept: Vec<Input>,
    kinds: BTreeSet<Kind>,
    pub seen: Seen,
}

impl<'a> Fuzzer<'a> {
    /// A run that starts with these sessions and with random ones.
    pub fn new(desk: &'a dyn Desk, seed: u64, sessions: &[Vec<u8>]) -> Fuzzer<'a> {
        let mut prng = Prng::new(seed);
        let given = sessions.iter().cloned();
        let mut kept: Vec<Input> = given.map(Input::new).collect();
        for _ in 0..FIRST_RANDOM {
            kept.push(Input::new(random::session(&mut prng).to_bytes()));
        }
        Fuzzer {
            desk,
            prng,
            kept,
            kinds: BTreeSet::new(),
            seen: Seen::default(),
        }
    }

    /// The next input: a kept one with a few changes.
    pub fn choose(&mut self) -> Input {
        let prng = &mut self.prng;
        let some = |prng: &mut Prng| prng.below(self.kept.len() as u32) as usize;
        let mut input = self.kept[some(prng)].clone();
        for _ in 0..prng.below(MOST_CHANGES) + 1 {
            let other = &self.kept[some(prng)];
            change(&mut input, other, prng);
        }
        input
    }

    /// Runs an input, counts its answer, and keeps it if the kind of answer is new.
    pub fn run(&mut self, mut input: Input) -> Result<(), String> {
        let outcome = answer(self.desk, &input)
            .map_err(|wrong| format!("input {}\n{wrong}{}", self.seen.inputs, told(&input)))?;
        self.seen.inputs += 1;
        let number = outcome.number();
        let place = (input.function, number);
        *self.seen.by_number.entry(place).or_default() += 1;
        if self.kinds.insert(kind(input.function, &outcome)) {
            self.seen.kept += 1;
            input.lists = outcome.lists;
            self.keep(input);
        }
        Ok(())
    }

    /// Keeps an input, in place of another where there are many.
    fn keep(&mut self, input: Input) {
        if self.kept.len() < MOST_KEPT {
            self.kept.push(input);
        } else {
            let at = self.prng.below(MOST_KEPT as u32) as usize;
            self.kept[at] = input;
        }
    }
}

/// Runs so many inputs; `shown` is told how many there were.
pub fn run(
    desk: &dyn Desk,
    seed: u64,
    inputs: u64,
    sessions: &[Vec<u8>],
    shown: &mut dyn FnMut(u64),
) -> Result<Seen, String> {
    let mut fuzzer = Fuzzer::new(desk, seed, sessions);
    for number in 1..=inputs {
        let input = fuzzer.choose();
        fuzzer.run(input)?;
        shown(number);
    }
    Ok(fuzzer.seen)
}

/// The answer to an input; an error where it breaks a rule or is not the model's.
fn answer(desk: &dyn Desk, input: &Input) -> Result<Outcome, String> {
    if let Some(call) = input.call() {
        return called(desk, input, call);
    }
    if input.function == Function::Index {
        return index(desk, input);
    }
    let (got, expected) = (without_lists(desk, input)?, without_lists(&Model, input)?);
    if got == expected {
        let (number, rows) = got;
        return Ok(Outcome {
            words: vec![number, rows.len() as u32],
            lists: input.lists.clone(),
        });
    }
    let difference = format!("expected {}, got {}", expected.0, got.0);
    Err(format!("{:?}: {difference}\n", input.function))
}

/// A call on lent lists.
fn called(desk: &dyn Desk, input: &Input, call: Call) -> Result<Outcome, String> {
    let got = make(desk, &input.session, call, &input.lists)?;
    let expected = make(&Model, &input.session, call, &input.lists)?;
    match difference(&expected, &got) {
        None => Ok(got),
        Some(wrong) => Err(format!("{call:?}\n{wrong}")),
    }
}

/// The place of a surface's byte.
fn index(desk: &dyn Desk, input: &Input) -> Result<Outcome, String> {
    let told = surfaces::one(desk, &input.session, &input.surface)?;
    Ok(Outcome {
        words: vec![told.number],
        lists: input.lists.clone(),
    })
}

/// A session's refusal, or a whole session: the number and the rows. A refusal leaves them.
fn without_lists(desk: &dyn Desk, input: &Input) -> Result<(u32, Vec<u8>), String> {
    let file = Guarded::new(&input.session);
    if input.function == Function::Refusal {
        return Ok((desk.session_refusal(file.content()), Vec::new()));
    }
    let before = vec![0x3c; input.rows];
    let mut rows = Guarded::new(&before);
    let number = desk.session(file.content(), rows.content_mut());
    if !rows.intact() {
        return Err("written outside the rows\n".into());
    }
    if number != 0 && rows.content() != before {
        return Err(format!("refused as {number}, and the rows were written\n"));
    }
    Ok((number, rows.content().to_vec()))
}

/// The kind of an answer: the function, number and places, and where it is accepted flags and
/// small counts.
fn kind(function: Function, outcome: &Outcome) -> Kind {
    let small = |n: u32| if n < 4 { n } else { 2 + n.ilog2() };
    let mut kind = vec![function as u32];
    kind.extend(outcome.words.iter().take(3));
    if outcome.number() != 0 {
        return kind;
    }
    kind.extend(outcome.words.iter().skip(5).take(4));
    kind.extend(outcome.words.iter().skip(9).take(2).map(|n| small(*n)));
    kind.extend(outcome.lists.counts().map(small));
    kind
}

/// An input as text.
fn told(input: &Input) -> String {
    let Lists {
        discards,
        actions,
        clears,
        status,
    } = &input.lists;
    format!(
        "{:?} of pass {}, surface {}, lent {} {} {} {} bytes with {:?} entries, {} bytes of rows\nthe file:\n{}",
        input.function,
        input.pass,
        input.surface,
        discards.len(),
        actions.len(),
        clears.len(),
        status.len(),
        input.lists.counts(),
        input.rows,
        text::from_bytes(&input.session)
    )
}
