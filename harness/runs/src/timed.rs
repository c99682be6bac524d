//! The sessions that are timed and whose instructions are counted.

use sessions::layout::*;
use sessions::reader;
use sessions::rows::{EMPTY_PASS, EMPTY_SLOT, PLAIN_TEXTURE, PLAIN_VIEW};
use sessions::{Channel, Pass, Session, Slot, Texture, View};

/// A slot of a view that clears and stores.
pub fn clearing(view: u32) -> Slot {
    Slot {
        view,
        load: CLEAR,
        store: STORE,
        ..EMPTY_SLOT
    }
}

/// A pass of these slots.
pub fn pass_of(slots: &[Slot]) -> Pass {
    let mut pass = EMPTY_PASS;
    pass.colours = slots.len() as u32;
    pass.slots[..slots.len()].copy_from_slice(slots);
    pass
}

/// One texture and view, so many passes that clear and store.
pub fn by_passes(passes: u32) -> Session {
    Session {
        textures: vec![PLAIN_TEXTURE],
        views: vec![PLAIN_VIEW],
        passes: vec![pass_of(&[clearing(0)]); passes as usize],
        ..Session::new()
    }
}

/// A pass that loads.
pub fn loading() -> Session {
    let mut session = by_passes(1);
    session.passes[0].slots[0].load = LOAD;
    session
}

/// A pass that loads the last slice of a volume.
pub fn slice() -> Session {
    let mut session = loading();
    session.textures[0] = VOLUME;
    session.views[0].dimension = D3;
    session.passes[0].slots[0].slice_given = 1;
    session.passes[0].slots[0].slice = MAX_LAYERS - 1;
    session
}

/// The deepest 3D texture, with the most mips.
pub const VOLUME: Texture = Texture {
    dimension: 3,
    depth_or_layers: MAX_LAYERS,
    mips: MAX_MIPS,
    ..PLAIN_TEXTURE
};

/// As many of them as a session can have, and no more rows.
pub fn volumes() -> Session {
    let most = MAX_SURFACES / reader::surfaces_of(&VOLUME);
    Session {
        textures: vec![VOLUME; most as usize],
        ..Session::new()
    }
}

/// One texture, so many views, ten passes over the last of them.
pub fn by_views(views: u32) -> Session {
    Session {
        views: vec![PLAIN_VIEW; views as usize],
        passes: vec![pass_of(&[clearing(views - 1)]); 10],
        ..by_passes(0)
    }
}

/// So many surfaces, ten passes over the first.
pub fn by_surfaces(surfaces: u32) -> Session {
    let layers = surfaces.min(MAX_LAYERS);
    let mips = (surfaces / layers).min(8);
    let texture = Texture {
        width: 256,
        height: 256,
        depth_or_layers: layers,
        mips,
        ..PLAIN_TEXTURE
    };
    let textures = (surfaces / layers / mips) as usize;
    Session {
        textures: vec![texture; textures],
        views: vec![PLAIN_VIEW],
        passes: vec![pass_of(&[clearing(0)]); 10],
        ..Session::new()
    }
}

/// A depth-stencil and a colour attachment.
pub fn depth_and_colour() -> Session {
    let depth_stencil = Texture {
        format: 23,
        ..PLAIN_TEXTURE
    };
    let channel = Channel {
        load: CLEAR,
        store: STORE,
        read_only: 0,
        clear_given: 1,
        clear: 0,
    };
    let mut session = by_passes(1);
    session.textures.push(depth_stencil);
    session.views.push(View {
        texture: 1,
        format: depth_stencil.format,
        ..PLAIN_VIEW
    });
    session.passes[0].depth_stencil = 1;
    session.passes[0].depth = channel;
    session.passes[0].stencil = channel;
    session
}

/// Passes of a depth-stencil, eight colours and their resolve targets. Each ends its buffer.
pub fn wide(passes: u32) -> Session {
    let mut session = depth_and_colour();
    session.textures[0].samples = 4;
    session.textures[0].depth_or_layers = SLOTS as u32;
    session.textures[1].samples = 4;
    session.textures.push(Texture {
        depth_or_layers: SLOTS as u32,
        ..PLAIN_TEXTURE
    });
    let depth_view = session.views[1];
    let layer = |texture: u32, base_layer: u32| View {
        texture,
        base_layer,
        ..PLAIN_VIEW
    };
    let colours = SLOTS as u32;
    session.views = (0..colours).map(|k| layer(0, k)).collect();
    session.views.extend((0..colours).map(|k| layer(2, k)));
    session.views.push(depth_view);
    let slots: [Slot; SLOTS] = std::array::from_fn(|k| Slot {
        resolve: colours + k as u32,
        ..clearing(k as u32)
    });
    let front = session.passes[0];
    let pass = Pass {
        depth_stencil: 2 * colours,
        depth: front.depth,
        stencil: front.stencil,
        ends: 1,
        ..pass_of(&slots)
    };
    session.passes = vec![pass; passes as usize];
    session
}

/// Two views of so many layers, each of a texture of its own.
fn pair_of_layers(layers: u32) -> Session {
    let texture = Texture {
        depth_or_layers: layers,
        ..PLAIN_TEXTURE
    };
    let view = |texture: u32| View {
        texture,
        dimension: D2_ARRAY,
        layer_count: layers,
        ..PLAIN_VIEW
    };
    Session {
        flags: MULTIVIEW,
        max_views: MAX_MULTIVIEW,
        textures: vec![texture; 2],
        views: vec![view(0), view(1)],
        ..Session::new()
    }
}

/// A pass over both views.
fn both_views(load: u32, store: u32) -> Pass {
    pass_of(&[0, 1].map(|view| Slot {
        load,
        store,
        ..clearing(view)
    }))
}

/// Two views of so many layers: a pass that discards both, one that loads and one that stores them.
pub fn layers_lost(layers: u32) -> Session {
    Session {
        passes: vec![
            both_views(CLEAR, DISCARD),
            both_views(LOAD, STORE),
            both_views(CLEAR, STORE),
        ],
        ..pair_of_layers(layers)
    }
}

/// Twelve buffers of eight passes that load and discard two views of so many layers: in each but a buffer's first, all that
/// the pass before has listed is cleared and listed again. With 32 layers a buffer has 64 discards and 464 actions.
pub fn by_layers(layers: u32) -> Session {
    let mut buffer = vec![both_views(LOAD, DISCARD); 8];
    buffer[7].ends = 1;
    Session {
        passes: (0..12).flat_map(|_| buffer.clone()).collect(),
        ..pair_of_layers(layers)
    }
}

/// As many rows as a session can have.
pub fn longest() -> Session {
    Session {
        textures: vec![PLAIN_TEXTURE; MAX_TEXTURES as usize],
        views: vec![PLAIN_VIEW; MAX_VIEWS as usize],
        ..by_passes(MAX_PASSES)
    }
}

/// 63 passes that each discard a surface of their own; then one that discards another surface, and
/// one that stores it.
pub fn many_discards() -> Session {
    let layered = Texture {
        depth_or_layers: MAX_LAYERS,
        ..PLAIN_TEXTURE
    };
    let layer = |k: u32| View {
        texture: k / MAX_LAYERS,
        base_layer: k % MAX_LAYERS,
        ..PLAIN_VIEW
    };
    let discarding = |view: u32| {
        pass_of(&[Slot {
            store: DISCARD,
            ..clearing(view)
        }])
    };
    let mut passes: Vec<Pass> = (0..DISCARDS as u32).map(discarding).collect();
    passes.push(pass_of(&[clearing(DISCARDS as u32 - 1)]));
    Session {
        textures: vec![layered; 2],
        views: (0..DISCARDS as u32).map(layer).collect(),
        passes,
        ..Session::new()
    }
}

/// Colours of a pass that discards or loads eight surfaces.
const COLOURS: u32 = SLOTS as u32;

/// Passes of eight colours each over these views, in order: cleared and discarded.
fn discarding(first: u32, passes: u32) -> Vec<Pass> {
    let slots = |pass: u32| -> [Slot; SLOTS] {
        std::array::from_fn(|k| Slot {
            store: DISCARD,
            ..clearing(first + pass * COLOURS + k as u32)
        })
    };
    (0..passes).map(|pass| pass_of(&slots(pass))).collect()
}

/// 64 discards are held, in two textures; then 61 passes load and store eight layers of a third.
pub fn loads_beside_discards() -> Session {
    let held = DISCARDS as u32;
    let layers = [MAX_LAYERS, held - MAX_LAYERS, COLOURS];
    let textures = layers.map(|depth_or_layers| Texture {
        depth_or_layers,
        ..PLAIN_TEXTURE
    });
    let views = |texture: u32| {
        (0..layers[texture as usize]).map(move |base_layer| View {
            texture,
            base_layer,
            ..PLAIN_VIEW
        })
    };
    let loads: [Slot; SLOTS] = std::array::from_fn(|k| Slot {
        load: LOAD,
        ..clearing(held + k as u32)
    });
    let mut passes = discarding(0, held / COLOURS);
    passes.extend(vec![pass_of(&loads); 61]);
    Session {
        textures: textures.to_vec(),
        views: (0..3).flat_map(views).collect(),
        passes,
        ..Session::new()
    }
}

/// Three buffers: in each, eight passes fill 64 discards in the colours' own texture, and 25 passes load and store all seventeen
/// attachments.
pub fn loads_among_discards() -> Session {
    let held = DISCARDS as u32;
    let mut session = wide(1);
    let mips = held / MAX_LAYERS;
    session.textures[0].depth_or_layers = MAX_LAYERS;
    session.textures[0].mips = 1 + mips;
    let mut all = session.passes[0];
    all.depth.load = LOAD;
    all.stencil.load = LOAD;
    all.slots.iter_mut().for_each(|slot| slot.load = LOAD);
    all.ends = 0;
    let first = session.views.len() as u32;
    let small = |k: u32| View {
        base_mip: 1 + k / MAX_LAYERS,
        base_layer: k % MAX_LAYERS,
        ..session.views[0]
    };
    let more: Vec<View> = (0..held).map(small).collect();
    session.views.extend(more);
    let mut buffer = discarding(first, held / COLOURS);
    buffer.extend(vec![all; 25]);
    buffer.last_mut().expect("a pass").ends = 1;
    session.passes = (0..3).flat_map(|_| buffer.clone()).collect();
    session
}
