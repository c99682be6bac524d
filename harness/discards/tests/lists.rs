//! The proved functions against a plain vector of quadruples with `Vec::retain`, on random lists.

use discards::{discard, retain, TextureInitRange, TextureSurfaceDiscard};
use sessions::random::Prng;

/// A list's room, with records around it that no call may touch.
const GUARD: usize = 2;
const MOST: u32 = 24;
const LISTS: u32 = 100_000;

/// The flat form of a record.
type Quadruple = [u32; 4];

fn quadruple(s: &TextureSurfaceDiscard) -> Quadruple {
    [s.texture, s.mip, s.layer, s.slice]
}

fn quadruples(list: &[TextureSurfaceDiscard]) -> Vec<Quadruple> {
    list.iter().map(quadruple).collect()
}

/// Whether x is one of `count` numbers from `first` on.
fn among(first: u32, count: u32, x: u32) -> bool {
    (u64::from(first)..u64::from(first) + u64::from(count)).contains(&u64::from(x))
}

fn hits(range: &TextureInitRange, s: &Quadruple) -> bool {
    s[0] == range.texture
        && among(range.mip, range.mips, s[1])
        && among(range.layer, range.layers, s[2])
        && s[3] == range.slice
}

/// A number of few, so that lists have duplicates; rarely one at the end of all.
fn number(prng: &mut Prng, few: u32) -> u32 {
    if prng.chance(4) {
        u32::MAX - prng.below(2)
    } else {
        prng.below(few)
    }
}

fn surface(prng: &mut Prng) -> TextureSurfaceDiscard {
    TextureSurfaceDiscard {
        texture: number(prng, 2),
        mip: number(prng, 3),
        layer: number(prng, 3),
        slice: number(prng, 2),
    }
}

fn range(prng: &mut Prng) -> TextureInitRange {
    TextureInitRange {
        texture: number(prng, 2),
        mip: number(prng, 3),
        mips: number(prng, 4),
        layer: number(prng, 3),
        layers: number(prng, 4),
        slice: number(prng, 2),
    }
}

/// How often each kind of call was made.
#[derive(Default, Debug)]
struct Seen {
    appended: u32,
    full: u32,
    kept_some: u32,
    kept_all: u32,
    kept_none: u32,
    empty: u32,
    past_end: u32,
}

/// A list with guards around its room, and the calls made on it.
struct Trial {
    records: Vec<TextureSurfaceDiscard>,
    prng: Prng,
    seen: Seen,
}

impl Trial {
    fn room(&self) -> usize {
        self.records.len() - 2 * GUARD
    }

    /// Records as they stood before a call on the room, what it answers, and as they stand after it.
    fn call(
        &mut self,
        made: impl FnOnce(&mut [TextureSurfaceDiscard]) -> usize,
    ) -> (Vec<Quadruple>, usize, Vec<Quadruple>) {
        let room = self.room();
        let before = quadruples(&self.records);
        let r = made(&mut self.records[GUARD..GUARD + room]);
        (before, r, quadruples(&self.records))
    }

    /// One append: the new count.
    fn append(&mut self, n: usize) -> usize {
        let room = self.room();
        let s = surface(&mut self.prng);
        let (mut flat, r, after) = self.call(|list| discard(list, n, s));
        if n < room {
            flat[GUARD + n] = quadruple(&s);
            self.seen.appended += 1;
        } else {
            self.seen.full += 1;
        }
        assert_eq!(r, if n < room { n + 1 } else { n });
        assert_eq!(after, flat);
        r
    }

    /// One compaction likewise.
    fn compact(&mut self, n: usize) -> usize {
        let range = range(&mut self.prng);
        let (before, r, after) = self.call(|list| retain(list, n, range));
        if n > self.room() {
            self.seen.past_end += 1;
            assert_eq!((r, after), (n, before));
            return r;
        }
        let mut flat = before[GUARD..GUARD + n].to_vec();
        flat.retain(|s| !hits(&range, s));
        assert_eq!(after[GUARD..GUARD + r], flat, "{range:?} of {before:?}");
        assert_eq!(after[..GUARD], before[..GUARD]);
        assert_eq!(after[GUARD + n..], before[GUARD + n..]);
        match r {
            _ if n == 0 => self.seen.empty += 1,
            0 => self.seen.kept_none += 1,
            r if r == n => self.seen.kept_all += 1,
            _ => self.seen.kept_some += 1,
        }
        r
    }
}

#[test]
fn random_lists_do_not_differ() {
    let mut t = Trial {
        records: Vec::new(),
        prng: Prng::new(10_010),
        seen: Seen::default(),
    };
    for _ in 0..LISTS {
        let room = t.prng.below(MOST + 1) as usize;
        t.records = (0..room + 2 * GUARD)
            .map(|_| surface(&mut t.prng))
            .collect();
        let mut n = match t.prng.below(4) {
            0 => room,
            1 => 0,
            _ => t.prng.below(room as u32 + 1) as usize,
        };
        for _ in 0..6 {
            n = if t.prng.chance(50) {
                t.append(n)
            } else {
                t.compact(n)
            };
        }
        let past = room + 1 + t.prng.below(3) as usize;
        t.append(past);
        t.compact(past);
        t.compact(usize::MAX);
    }
    let seen = t.seen;
    let Seen {
        appended,
        full,
        kept_some,
        kept_all,
        kept_none,
        empty,
        past_end,
    } = seen;
    for count in [
        appended, full, kept_some, kept_all, kept_none, empty, past_end,
    ] {
        assert!(count > 1_000, "{seen:?}");
    }
}

/// A surface by its four numbers.
fn s(texture: u32, mip: u32, layer: u32, slice: u32) -> TextureSurfaceDiscard {
    TextureSurfaceDiscard {
        texture,
        mip,
        layer,
        slice,
    }
}

#[test]
fn order_and_duplicates_stay() {
    let mut list = [
        s(1, 0, 0, 0),
        s(2, 0, 0, 0),
        s(1, 0, 0, 0),
        s(1, 0, 5, 0),
        s(2, 0, 0, 0),
        s(2, 0, 1, 0),
    ];
    let range = TextureInitRange {
        texture: 1,
        mip: 0,
        mips: 1,
        layer: 0,
        layers: 5,
        slice: 0,
    };
    let kept = [s(2, 0, 0, 0), s(1, 0, 5, 0), s(2, 0, 0, 0), s(2, 0, 1, 0)];
    assert_eq!(retain(&mut list, 6, range), 4);
    assert_eq!(list[..4], kept);
    assert_eq!(discard(&mut list, 4, s(2, 0, 0, 0)), 5);
    assert_eq!(list[..4], kept);
    assert_eq!(list[4], s(2, 0, 0, 0));
}

#[test]
fn a_range_has_its_slice_alone() {
    let mut list = [s(0, 0, 0, 0), s(0, 0, 0, 1), s(0, 1, 0, 1), s(0, 1, 0, 2)];
    let range = TextureInitRange {
        texture: 0,
        mip: 0,
        mips: 2,
        layer: 0,
        layers: 1,
        slice: 1,
    };
    assert_eq!(retain(&mut list, 4, range), 2);
    assert_eq!(list[..2], [s(0, 0, 0, 0), s(0, 1, 0, 2)]);
}

#[test]
fn an_empty_slice_has_no_room() {
    let all = TextureInitRange {
        texture: 0,
        mip: 0,
        mips: u32::MAX,
        layer: 0,
        layers: u32::MAX,
        slice: 0,
    };
    assert_eq!(discard(&mut [], 0, s(0, 0, 0, 0)), 0);
    assert_eq!(retain(&mut [], 0, all), 0);
    assert_eq!(retain(&mut [], 1, all), 1);
}
