//! The slice of records against the flat list of the pass check, both proved, on many lists: each
//! pass of a random session discards, keeps or loads the surfaces of one view, and the same is done
//! to a slice of records.

use discards::{discard, retain, TextureInitRange, TextureSurfaceDiscard};
use sessions::layout::*;
use sessions::random::Prng;
use sessions::reader::slices;
use sessions::rows::{EMPTY_PASS, EMPTY_SLOT, PLAIN_TEXTURE, PLAIN_VIEW};
use sessions::{Pass, Session, Slot, Texture, View};

const SESSIONS: u32 = 300;
const TEXTURES: u32 = 3;
const MIPS: u32 = 3;
const LAYERS: u32 = 4;
const VIEWS: u32 = 40;

/// The last texture, which is 3D.
const VOLUME: u32 = TEXTURES - 1;

/// The number of a pass that needs a 65th discard.
const NO_ROOM: u32 = 49;

/// A view of one mip, and of one layer or several; or one that is D3.
fn view(prng: &mut Prng) -> View {
    let base_layer = prng.below(LAYERS);
    let flat = View {
        texture: prng.below(TEXTURES),
        dimension: D2_ARRAY,
        base_mip: prng.below(MIPS),
        base_layer,
        layer_count: 1 + prng.below(LAYERS - base_layer),
        ..PLAIN_VIEW
    };
    if flat.texture != VOLUME {
        return flat;
    }
    View {
        dimension: D3,
        base_layer: 0,
        layer_count: 1,
        ..flat
    }
}

/// A pass of one view that mostly discards, so that the lists fill.
fn pass(session: &Session, prng: &mut Prng) -> Pass {
    let number = prng.below(VIEWS);
    let view = &session.views[number as usize];
    let depth = slices(&session.textures[view.texture as usize], view.base_mip);
    let mut pass = EMPTY_PASS;
    pass.colours = 1;
    pass.slots[0] = Slot {
        view: number,
        slice_given: u32::from(view.dimension == D3),
        slice: prng.below(depth),
        load: if prng.chance(10) { LOAD } else { CLEAR },
        store: if prng.chance(5) { STORE } else { DISCARD },
        ..EMPTY_SLOT
    };
    pass
}

fn session(prng: &mut Prng) -> Session {
    let texture = Texture {
        depth_or_layers: LAYERS,
        mips: MIPS,
        ..PLAIN_TEXTURE
    };
    let mut session = Session {
        max_views: LAYERS,
        flags: MULTIVIEW,
        textures: vec![texture; TEXTURES as usize],
        views: (0..VIEWS).map(|_| view(prng)).collect(),
        ..Session::new()
    };
    session.textures[VOLUME as usize].dimension = 3;
    session.passes = (0..MAX_PASSES).map(|_| pass(&session, prng)).collect();
    session
}

/// The slice's part in a pass: what is loaded or kept is listed no more, then each layer of a discarded view
/// is listed. The new count, and whether all layers had room.
fn step(
    records: &mut [TextureSurfaceDiscard],
    n: usize,
    view: &View,
    slot: &Slot,
) -> (usize, bool) {
    let range = TextureInitRange {
        texture: view.texture,
        mip: view.base_mip,
        mips: view.mip_count,
        layer: view.base_layer,
        layers: view.layer_count,
        slice: slot.slice,
    };
    let surface = |layer: u32| TextureSurfaceDiscard {
        texture: view.texture,
        mip: view.base_mip,
        layer,
        slice: slot.slice,
    };
    let kept = if slot.load == LOAD || slot.store == STORE {
        retain(records, n, range)
    } else {
        n
    };
    let discarded = if slot.store == DISCARD {
        view.layer_count
    } else {
        0
    };
    let layers = view.base_layer..view.base_layer + discarded;
    layers.fold((kept, true), |(n, room), layer| {
        let after = discard(records, n, surface(layer));
        (after, room && after > n)
    })
}

/// The flat list's discards, as records.
fn flat(lists: &desk::Lists) -> Vec<TextureSurfaceDiscard> {
    let record = |s: sessions::reply::Surface| TextureSurfaceDiscard {
        texture: s.texture,
        mip: s.mip,
        layer: s.layer,
        slice: s.slice,
    };
    lists.discards().into_iter().map(record).collect()
}

#[test]
fn slices_and_flat_lists_do_not_differ() {
    let none = TextureSurfaceDiscard {
        texture: 0,
        mip: 0,
        layer: 0,
        slice: 0,
    };
    let mut prng = Prng::new(10_011);
    let (mut listed, mut removed, mut full) = (0, 0, 0);
    for _ in 0..SESSIONS {
        let session = session(&mut prng);
        let file = session.to_bytes();
        let mut lists = desk::Lists::fresh();
        let mut records = [none; DISCARDS];
        let mut n = 0;
        for (number, pass) in session.passes.iter().enumerate() {
            let slot = &pass.slots[0];
            let view = &session.views[slot.view as usize];
            let reply = desk::check_pass(&file, number as u32, &mut lists);
            let mut tried = records;
            let (after, room) = step(&mut tried, n, view, slot);
            if reply.number == NO_ROOM {
                full += 1;
                assert_eq!((after, room), (DISCARDS, false), "no room in the slice");
            } else {
                assert_eq!(
                    (reply.number, room),
                    (0, true),
                    "pass {number} of {session:?}"
                );
                listed += u32::from(after > n);
                removed += u32::from(after < n);
                (records, n) = (tried, after);
            }
            assert_eq!(flat(&lists), records[..n], "after pass {number}");
        }
    }
    assert!(
        listed > 1_000 && removed > 1_000 && full > 1_000,
        "{listed} {removed} {full}"
    );
}
