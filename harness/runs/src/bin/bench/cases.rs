//! What is timed: sessions, passes, and how their cost grows.

use std::hint::black_box;

use desk::{Lists, ROWS_LEN};
use oracle::Run;
use runs::timed::*;
use sessions::layout::*;
use sessions::random::{self, Prng};
use sessions::reader;
use sessions::{text, Session};

use crate::timing::{pair, Pair};

/// A cost over a size.
pub struct Growth {
    /// The plot's file.
    pub name: &'static str,
    pub title: &'static str,
    /// What the size counts.
    pub unit: &'static str,
    pub points: fn() -> Vec<(u32, Pair)>,
}

/// Every growth that is plotted.
pub fn growths() -> [Growth; 7] {
    [
        Growth {
            name: "sessions-by-passes",
            title: "Whole sessions over passes",
            unit: "passes",
            points: || grow(&[1, 2, 5, 10, 20, 40, 60, 80, MAX_PASSES], by_passes),
        },
        Growth {
            name: "sessions-by-views",
            title: "Whole sessions of ten passes over views",
            unit: "views",
            points: || grow(&[1, 8, 32, 64, 128, 192, MAX_VIEWS], by_views),
        },
        Growth {
            name: "sessions-by-surfaces",
            title: "Whole sessions of ten passes over surfaces",
            unit: "surfaces",
            points: || grow(&[1, 64, 512, 1024, 2048, 3072, MAX_SURFACES], by_surfaces),
        },
        Growth {
            name: "sessions-by-layers",
            title: "Whole sessions of 96 passes over the layers of their views",
            unit: "layers",
            points: || grow(&LAYERS, by_layers),
        },
        Growth {
            name: "passes-by-discards",
            title: "Single passes over discards held",
            unit: "discards held",
            points: by_discards,
        },
        Growth {
            name: "passes-by-layers",
            title: "Single passes of two views, discarded and stored, over their layers",
            unit: "layers",
            points: || LAYERS.map(|n| (n, lost_and_stored(n))).to_vec(),
        },
        Growth {
            name: "passes-by-views",
            title: "Single passes over the session's views",
            unit: "views",
            points: || {
                let sizes = [1, 8, 32, 64, 128, 192, MAX_VIEWS];
                sizes.map(|n| (n, passes_of(&by_views(n)))).to_vec()
            },
        },
    ]
}

/// Layers of views.
const LAYERS: [u32; 6] = [1, 2, 4, 8, 16, MAX_LAYERS];

/// The cost of whole sessions of each size.
fn grow(sizes: &[u32], session: fn(u32) -> Session) -> Vec<(u32, Pair)> {
    let point = |n: &u32| (*n, session_pair(&[session(*n).to_bytes()]));
    sizes.iter().map(point).collect()
}

/// A whole session by the Rust: the bytes read, each pass judged, each buffer submitted.
fn rust_session(bytes: &[u8]) {
    let Ok(session) = reader::read(bytes) else {
        return;
    };
    let mut run = Run::new(&session);
    for (number, pass) in session.passes.iter().enumerate() {
        if reader::pass_fits(&session, pass) {
            let _ = black_box(&run.judge_only(pass));
        }
        if reader::ends_buffer(&session, number) {
            black_box(run.submit_only());
        }
    }
}

/// The cost of a whole session, on average over these.
fn session_pair(files: &[Vec<u8>]) -> Pair {
    let mut rows = vec![0; ROWS_LEN];
    pair(
        files.len(),
        || {
            for file in files {
                black_box(desk::session(black_box(file), &mut rows));
            }
        },
        || files.iter().for_each(|file| rust_session(black_box(file))),
    )
}

/// Random readable sessions without passes that are withheld from comparison: there the Rust may
/// panic.
fn comparable(seed: u64, count: usize) -> Vec<Vec<u8>> {
    let mut prng = Prng::new(seed);
    let withheld = |bytes: &[u8]| {
        let rows = model::run(bytes).unwrap_or_default();
        rows.iter().any(|row| row.reply.withheld())
    };
    std::iter::repeat_with(|| random::session(&mut prng).to_bytes())
        .filter(|bytes| !withheld(bytes))
        .take(count)
        .collect()
}

/// Whole sessions: document 01's example, random ones, of a hundred passes, with all discards held, and of the most layers.
pub fn whole_sessions() -> impl Iterator<Item = (String, Pair)> {
    let sets = [
        ("document 01's example, 2 passes", vec![text::document_01()]),
        ("200 random sessions, on average", comparable(9, 200)),
        (
            "100 passes of one slot",
            vec![by_passes(MAX_PASSES).to_bytes()],
        ),
        (
            "100 passes of 17 attachments",
            vec![wide(MAX_PASSES).to_bytes()],
        ),
        (
            "64 discards held, then 61 passes of 8 loads",
            vec![loads_beside_discards().to_bytes()],
        ),
        (
            "3 buffers: 64 discards, 25 passes of 17 loads",
            vec![loads_among_discards().to_bytes()],
        ),
        (
            "12 buffers of 8 passes: 64 layers cleared, lost",
            vec![by_layers(MAX_LAYERS).to_bytes()],
        ),
    ];
    sets.into_iter()
        .map(|(name, files)| (name.to_string(), session_pair(&files)))
}

/// Reading only, with the file's length.
pub fn reading() -> impl Iterator<Item = (String, usize, Pair)> {
    let files = [
        ("document 01's example", text::document_01()),
        ("64 textures, 256 views, 100 passes", longest().to_bytes()),
        ("56 volumes of 15 mips", volumes().to_bytes()),
    ];
    files.into_iter().map(|(name, file)| {
        let ours = || {
            black_box(desk::session_refusal(black_box(&file)));
        };
        let rust = || {
            let _ = black_box(reader::read(black_box(&file)));
        };
        let named = format!("{name}, {} bytes", file.len());
        (named, file.len(), pair(1, ours, rust))
    })
}

/// Passes between two clearings of the lists.
const PASSES: usize = 24;

/// The cost of the session's first pass, on lists that are emptied after so many.
fn passes_of(session: &Session) -> Pair {
    let file = session.to_bytes();
    let mut lists = Lists::fresh();
    let mut run = Run::new(session);
    let empty = run.kept();
    let first = session.passes[0];
    let accepted = desk::check_pass(&file, 0, &mut lists).number;
    assert_eq!(accepted, 0, "the pass is accepted");
    pair(
        PASSES,
        || {
            lists.clear();
            for _ in 0..PASSES {
                black_box(&desk::check_pass(black_box(&file), 0, &mut lists));
            }
        },
        || {
            run.put_back(&empty);
            for _ in 0..PASSES {
                let _ = black_box(&run.judge_only(black_box(&first)));
            }
        },
    )
}

/// A session for each kind of pass.
fn kinds() -> impl Iterator<Item = (&'static str, Session)> {
    let kinds = [
        ("one colour, Clear, Store", by_passes(1)),
        ("one colour, Load, Store", loading()),
        ("one slice, Load, Store", slice()),
        ("depth-stencil and one colour", depth_and_colour()),
        ("17 attachments", wide(1)),
        ("one colour, longest session", longest()),
    ];
    kinds.into_iter()
}

/// Single passes of each kind.
pub fn single_passes() -> impl Iterator<Item = (String, Pair)> {
    kinds().map(|(name, session)| (name.to_string(), passes_of(&session)))
}

/// The cost of the session's first pass from the file's bytes: the session is read and the pass judged on empty lists.
fn first_of(session: &Session) -> Pair {
    let file = session.to_bytes();
    let mut lists = Lists::fresh();
    pair(
        1,
        || {
            lists.empty();
            black_box(&desk::check_pass(black_box(&file), 0, &mut lists));
        },
        || {
            let session = reader::read(black_box(&file)).expect("a readable session");
            let _ = black_box(&Run::new(&session).judge_only(&session.passes[0]));
        },
    )
}

/// First passes of each kind.
pub fn first_passes() -> impl Iterator<Item = (String, Pair)> {
    kinds().map(|(name, session)| (name.to_string(), first_of(&session)))
}

/// Passes of a session that is read once: a hundred of the same, each ending its buffer, without the time of reading.
fn judged(session: &Session) -> Pair {
    let mut many = session.clone();
    let mut pass = session.passes[0];
    pass.ends = 1;
    many.passes = vec![pass; MAX_PASSES as usize];
    let file = many.to_bytes();
    let mut rows = vec![0; ROWS_LEN];
    let whole_and_read = pair(
        MAX_PASSES as usize,
        || {
            black_box(desk::session(black_box(&file), &mut rows));
        },
        || {
            black_box(desk::session_refusal(black_box(&file)));
        },
    );
    Pair {
        ours: whole_and_read.ours - whole_and_read.rust,
        rust: passes_of(session).rust,
    }
}

/// The same of each kind.
pub fn judged_passes() -> impl Iterator<Item = (String, Pair)> {
    kinds().map(|(name, session)| (name.to_string(), judged(&session)))
}

/// Pairs of passes between two emptyings of the action list.
const PAIRS: usize = 200;

/// Clear with Discard and then Clear with Store of one surface, while others are held.
fn by_discards() -> Vec<(u32, Pair)> {
    let session = many_discards();
    let two = [DISCARDS as u32 - 1, DISCARDS as u32];
    let held = |count: u32| (count, repeated(&session, count, two));
    [0, 1, 8, 16, 32, 48, DISCARDS as u32 - 1]
        .map(held)
        .to_vec()
}

/// Clear with Discard and then Clear with Store of two views of so many layers.
fn lost_and_stored(layers: u32) -> Pair {
    repeated(&layers_lost(layers), 0, [0, 2])
}

/// Two passes by turns, while the discards of the session's first passes are held.
fn repeated(session: &Session, held: u32, two: [u32; 2]) -> Pair {
    let file = session.to_bytes();
    let mut lists = Lists::fresh();
    let mut run = Run::new(session);
    for pass in 0..held {
        desk::check_pass(&file, pass, &mut lists);
        let _ = run.judge_only(&session.passes[pass as usize]);
    }
    assert_eq!(lists.discards().len(), held as usize);
    let kept = run.kept();
    let ours = || {
        lists.actions[..COUNT_LEN].fill(0);
        for pass in (0..PAIRS).flat_map(|_| two) {
            black_box(&desk::check_pass(black_box(&file), pass, &mut lists));
        }
    };
    let rust = || {
        run.put_back(&kept);
        for pass in (0..PAIRS).flat_map(|_| two) {
            let _ = black_box(&run.judge_only(&session.passes[pass as usize]));
        }
    };
    pair(2 * PAIRS, ours, rust)
}
