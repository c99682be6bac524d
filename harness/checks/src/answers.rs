//! A fixed list of sessions with the Rust's answers, to be replayed without Rust. README.md has the
//! form, and what is the model's.

use std::collections::BTreeMap;

use compare::agreed;
use interface::{surface_fields, Desk, Lists, Reply};
use sessions::colour_bytes::targets;
use sessions::layout::{COUNT_LEN, FIELD_LEN, NONE, SLOTS};
use sessions::layout::{PASS_COUNT_AT, PASS_ENDS_AT, PASS_LEN};
use sessions::random::{self, Prng};
use sessions::reply::{Answer, Judged};
use sessions::{damage, enumerate, reader, text, Pass, Session};

use crate::expected::reply_record;
use crate::reference::row_numbers;

/// Seed and sessions of the committed list.
pub const SEED: u64 = 9_020;
pub const SESSIONS: usize = 510;

/// A session with its answer words.
#[derive(Clone, Debug, PartialEq, Eq)]
pub struct Record {
    pub session: Vec<u8>,
    pub words: Vec<u32>,
}

impl Record {
    /// A session with the answer that the Rust agrees with.
    pub fn new(session: Vec<u8>) -> Record {
        let answer = agreed(&session).unwrap_or_else(|difference| panic!("{difference}"));
        Record {
            words: words(&answer),
            session,
        }
    }

    /// Bytes of the record in a file.
    fn length(&self) -> usize {
        2 * COUNT_LEN + self.session.len() + FIELD_LEN * self.words.len()
    }
}

/// The mark of a pass that is withheld from the comparison.
pub const WITHHELD: u32 = 1;

/// The words of an answer: the session's number, then every pass.
fn words(answer: &Answer) -> Vec<u32> {
    match answer {
        Err(number) => vec![*number],
        Ok(rows) => {
            let mut words = vec![0];
            rows.iter().for_each(|row| pass_words(row, &mut words));
            words
        }
    }
}

/// The words of one pass, and of the submission after it.
fn pass_words(row: &Judged, words: &mut Vec<u32>) {
    if row.reply.withheld() {
        words.push(WITHHELD);
    } else {
        words.push(0);
        words.extend(row_numbers(row));
        words.extend(after_the_line(&reply_record(&row.reply)));
        words.extend(row.reply.clears.iter().flat_map(surface_fields));
        words.extend(row.lists.discards.iter().flat_map(surface_fields));
    }
    match &row.submitted {
        None => words.push(0),
        Some(status) => {
            words.extend([1, status.len() as u32]);
            words.extend(packed(status));
        }
    }
}

/// Read-only flags, divergent aspect, count, and every attachment.
fn after_the_line(reply: &Reply) -> Vec<u32> {
    let mut words = vec![
        reply.depth_read_only,
        reply.stencil_read_only,
        reply.divergent,
        reply.count,
    ];
    words.extend(reply.filled().iter().flat_map(|at| at.words()));
    words
}

/// Bytes as little-endian words; the last is filled up with zeros.
fn packed(bytes: &[u8]) -> impl Iterator<Item = u32> + '_ {
    bytes.chunks(FIELD_LEN).map(|some| {
        let mut four = [0; FIELD_LEN];
        four[..some.len()].copy_from_slice(some);
        u32::from_le_bytes(four)
    })
}

/// Sessions of the list that are of the systematic set of slices, and as many of that of layers.
const SYSTEMATIC: usize = 48;
/// How often a kind of pass is wanted.
const OFTEN: u32 = 4;
/// Largest record of the list, in bytes.
const LARGEST: usize = 2_000;

/// A list of sessions from a seed: document 01's example and pairs of passes of slices and of layers, then
/// small sessions, those that show something rare first; one of twelve is damaged.
pub fn list(seed: u64, sessions: usize) -> Vec<Record> {
    let mut prng = Prng::new(seed);
    let mut seen: BTreeMap<Kind, u32> = BTreeMap::new();
    let mut all = vec![Record::new(text::document_01())];
    all.extend(systematic(&enumerate::slices_in_passes(), &mut prng));
    all.extend(systematic(&enumerate::layers_in_passes(), &mut prng));
    while all.len() < sessions {
        let record = Record::new(candidate(&mut prng));
        let kinds = kinds(&record.session);
        let rare = kinds.iter().any(|k| seen.get(k).unwrap_or(&0) < &OFTEN);
        let small = record.length() <= LARGEST;
        if small && (rare || prng.chance(1)) {
            kinds
                .into_iter()
                .for_each(|k| *seen.entry(k).or_default() += 1);
            all.push(record);
        }
    }
    all
}

/// What tells kinds of answers apart.
type Kind = [u32; 7];

/// What kinds of answers a session shows.
fn kinds(bytes: &[u8]) -> Vec<Kind> {
    let session = match reader::read(bytes) {
        Err(number) => return vec![[number, 0, 0, 0, 0, 0, 0]],
        Ok(session) => session,
    };
    let kind = |row: &Judged| {
        let r = &row.reply;
        [
            r.refusal,
            r.place.unwrap_or(0).min(9),
            r.clears.len().min(2) as u32,
            r.divergent,
            r.attachments.first().map_or(0, |at| at.usage),
            u32::from(row.pass > 0),
            u32::from(r.refusal == 51 && fits_unaligned(&session, &session.passes[row.pass])),
        ]
    };
    let rows = model::run(bytes).unwrap_or_default();
    rows.iter().map(kind).collect()
}

/// Whether the costs of a pass's colours are within the limit, alignment left out.
fn fits_unaligned(session: &Session, pass: &Pass) -> bool {
    let costs = targets(session, pass).into_iter().map(|(cost, _)| cost);
    costs.sum::<u32>() <= session.colour_bytes
}

/// Pairs of passes of a systematic set.
fn systematic(sets: &[Session], prng: &mut Prng) -> Vec<Record> {
    let record = |_| Record::new(two_passes(sets, prng));
    (0..SYSTEMATIC).map(record).collect()
}

/// Two passes of a systematic set, with the rows that they name.
fn two_passes(sets: &[Session], prng: &mut Prng) -> Vec<u8> {
    let mut session = sets[prng.below(sets.len() as u32) as usize].clone();
    let pair = prng.below(session.passes.len() as u32 / 2) as usize;
    session.passes = session.passes[2 * pair..2 * pair + 2].to_vec();
    only_named_rows(&session).to_bytes()
}

/// A small session: some passes of a random one with the rows that they name.
fn candidate(prng: &mut Prng) -> Vec<u8> {
    let mut session = random::session(prng);
    let wanted = prng.pick(&[1, 1, 1, 1, 1, 1, 1, 1, 1, 2, 3]);
    let first = prng.below(session.passes.len() as u32) as usize;
    session.passes.drain(..first);
    session.passes.truncate(wanted);
    let bytes = only_named_rows(&session).to_bytes();
    if prng.chance(8) {
        damage::random(&bytes, prng)
    } else {
        bytes
    }
}

/// The session without views that no pass names, and without textures that no view names.
fn only_named_rows(session: &Session) -> Session {
    let mut small = session.clone();
    let views = named_views(session);
    small.views = views.iter().map(|v| session.views[*v as usize]).collect();
    for pass in &mut small.passes {
        each_view(pass, |view| *view = moved(&views, *view));
    }
    let mut textures: Vec<u32> = small.views.iter().map(|v| v.texture).collect();
    textures.sort_unstable();
    textures.dedup();
    let kept = textures.iter().map(|t| session.textures[*t as usize]);
    small.textures = kept.collect();
    for view in &mut small.views {
        view.texture = moved(&textures, view.texture);
    }
    small
}

/// The views that passes name, in order.
fn named_views(session: &Session) -> Vec<u32> {
    let mut named = Vec::new();
    for mut pass in session.passes.clone() {
        each_view(&mut pass, |view| named.push(*view));
    }
    named.retain(|view| (*view as usize) < session.views.len());
    named.sort_unstable();
    named.dedup();
    named
}

/// Every examined view number of a pass.
fn each_view(pass: &mut Pass, mut tell: impl FnMut(&mut u32)) {
    tell(&mut pass.depth_stencil);
    let colours = (pass.colours as usize).min(SLOTS);
    for slot in &mut pass.slots[..colours] {
        tell(&mut slot.view);
        tell(&mut slot.resolve);
    }
}

/// A row's number among the kept ones; a number that names no row names none afterwards.
fn moved(kept: &[u32], number: u32) -> u32 {
    match kept.binary_search(&number) {
        Ok(at) => at as u32,
        Err(_) if number == NONE => NONE,
        Err(_) => kept.len() as u32,
    }
}

/// The list as bytes.
pub fn to_bytes(records: &[Record]) -> Vec<u8> {
    let mut out = Vec::with_capacity(records.iter().map(Record::length).sum());
    for record in records {
        out.extend((record.session.len() as u32).to_le_bytes());
        out.extend(&record.session);
        out.extend((record.words.len() as u32).to_le_bytes());
        out.extend(record.words.iter().flat_map(|word| word.to_le_bytes()));
    }
    out
}

/// The list of these bytes, or none where they are cut off.
pub fn from_bytes(mut bytes: &[u8]) -> Option<Vec<Record>> {
    let mut records = Vec::new();
    while !bytes.is_empty() {
        let session = take_counted(&mut bytes, 1)?.to_vec();
        let words = take_counted(&mut bytes, FIELD_LEN)?.chunks_exact(FIELD_LEN);
        let words = words.map(|four| interface::u32_at(four, 0)).collect();
        records.push(Record { session, words });
    }
    Some(records)
}

/// Takes a count and so many entries of a size off the front.
fn take_counted<'a>(bytes: &mut &'a [u8], size: usize) -> Option<&'a [u8]> {
    let (count, rest) = bytes.split_at_checked(COUNT_LEN)?;
    let length = interface::u32_at(count, 0) as usize * size;
    let (entries, rest) = rest.split_at_checked(length)?;
    *bytes = rest;
    Some(entries)
}

/// The words that the calls answer, to be held to a record's. Withheld passes are marked as there.
pub fn replay(desk: &dyn Desk, record: &Record) -> Vec<u32> {
    let session = &record.session;
    let number = desk.session_refusal(session);
    let mut words = vec![number];
    if number != 0 {
        return words;
    }
    let mut lists = Lists::fresh();
    let passes = interface::u32_at(session, PASS_COUNT_AT);
    for pass in 0..passes {
        let reply = desk.pass(session, pass, lists.lend());
        replayed_pass(pass, &reply, &lists, &mut words);
        let row = session.len() - (passes - pass) as usize * PASS_LEN;
        if interface::u32_at(session, row + PASS_ENDS_AT) == 1 || pass + 1 == passes {
            desk.submit(session, lists.lend());
            words.extend([1, surfaces(session)]);
            words.extend(packed(&lists.status[..surfaces(session) as usize]));
        } else {
            words.push(0);
        }
    }
    words
}

/// The words of one replayed pass.
fn replayed_pass(pass: u32, reply: &Reply, lists: &Lists, words: &mut Vec<u32>) {
    if matches!(reply.number, 5 | 48 | 49 | 50) {
        words.push(WITHHELD);
        return;
    }
    let discards = lists.discards();
    words.extend([0, pass, reply.number, reply.place, reply.earlier]);
    words.extend([reply.width, reply.height, reply.samples]);
    words.extend([reply.clears, discards.len() as u32]);
    words.extend(after_the_line(reply));
    let clears = lists.clears().into_iter().take(reply.clears as usize);
    words.extend(clears.flat_map(|s| surface_fields(&s)));
    words.extend(discards.iter().flat_map(surface_fields));
}

/// Surfaces of a readable session.
fn surfaces(session: &[u8]) -> u32 {
    reader::read(session).map_or(0, |s| reader::surfaces(&s))
}
