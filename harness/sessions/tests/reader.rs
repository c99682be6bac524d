//! The reader's numbers at the edges of every range.

use sessions::layout::*;
use sessions::reader::{pass_fits, read, surfaces, surfaces_of};
use sessions::rows::*;
use sessions::text;

/// A session with one texture, one view and one pass.
fn small() -> Session {
    let bytes = text::to_bytes("texture usage=63\nview\npass\n  colour view=0").unwrap();
    read(&bytes).unwrap()
}

/// The number that refuses a session, or 0.
fn number(session: &Session) -> u32 {
    read(&session.to_bytes()).err().unwrap_or(0)
}

#[test]
fn lengths() {
    let bytes = small().to_bytes();
    for length in 0..bytes.len() {
        assert_eq!(read(&bytes[..length]), Err(1), "{length} bytes");
    }
    let told = |length: usize, field: usize| {
        let mut long = vec![0; length];
        long[TOTAL_AT..HEADER_LEN].copy_from_slice(&(field as u32).to_le_bytes());
        read(&long).err()
    };
    assert_eq!(told(70000, 70000), Some(2));
    assert_eq!(told(70000, LONGEST), Some(1));
    assert_eq!(
        told(HEADER_LEN, HEADER_LEN),
        Some(2),
        "offsets and colours are zero"
    );
}

#[test]
fn header_fields() {
    let with = |change: fn(&mut Session)| {
        let mut session = small();
        change(&mut session);
        number(&session)
    };
    assert_eq!(with(|s| s.max_colours = 0), 2);
    assert_eq!(with(|s| s.max_colours = 1), 0);
    assert_eq!(with(|s| s.max_colours = SLOTS as u32), 0);
    assert_eq!(with(|s| s.max_colours = SLOTS as u32 + 1), 2);
    assert_eq!(with(|s| s.max_views = MAX_MULTIVIEW), 0);
    assert_eq!(with(|s| s.max_views = MAX_MULTIVIEW + 1), 2);
    assert_eq!(with(|s| s.flags = ALL_FLAGS), 0);
    assert_eq!(with(|s| s.flags = ALL_FLAGS + 1), 2);
    assert_eq!(with(|s| s.colour_bytes = 0), 2);
    assert_eq!(with(|s| s.colour_bytes = 1), 0);
    assert_eq!(with(|s| s.colour_bytes = MAX_COLOUR_BYTES), 0);
    assert_eq!(with(|s| s.colour_bytes = MAX_COLOUR_BYTES + 1), 2);
    const TEXTURES: usize = MAX_TEXTURES as usize;
    assert_eq!(with(|s| s.textures = vec![PLAIN_TEXTURE; TEXTURES]), 0);
    assert_eq!(with(|s| s.textures = vec![PLAIN_TEXTURE; TEXTURES + 1]), 2);
    const VIEWS: usize = MAX_VIEWS as usize;
    assert_eq!(with(|s| s.views = vec![PLAIN_VIEW; VIEWS]), 0);
    assert_eq!(with(|s| s.views = vec![PLAIN_VIEW; VIEWS + 1]), 2);
    const PASSES: usize = MAX_PASSES as usize;
    assert_eq!(with(|s| s.passes = vec![EMPTY_PASS; PASSES]), 0);
    assert_eq!(with(|s| s.passes = vec![EMPTY_PASS; PASSES + 1]), 2);
}

#[test]
fn texture_fields() {
    let field = |field: usize, value: u32| {
        let mut fields = PLAIN_TEXTURE.fields();
        fields[field] = value;
        let mut session = Session::new();
        session.textures.push(Texture::from_fields(&fields));
        number(&session)
    };
    let edges: [(usize, &[u32], &[u32]); 8] = [
        (0, &[1, 14, 20, 25], &[0, 15, 19, 26]),
        (1, &[1, 2, 3], &[0, 4]),
        (2, &[1, MAX_SIZE], &[0, MAX_SIZE + 1]),
        (3, &[1, MAX_SIZE], &[0, MAX_SIZE + 1]),
        (4, &[1, MAX_LAYERS], &[0, MAX_LAYERS + 1]),
        (5, &[1, MAX_MIPS], &[0, MAX_MIPS + 1]),
        (6, &SAMPLES, &[0, 3, 5, 32]),
        (7, &[0, ALL_USAGES], &[ALL_USAGES + 1]),
    ];
    for (at, lawful, unlawful) in edges {
        for value in lawful {
            assert_eq!(field(at, *value), 0, "field {at}, {value}");
        }
        for value in unlawful {
            assert_eq!(field(at, *value), 3, "field {at}, {value}");
        }
    }
}

#[test]
fn depth_formats_need_dimension_2() {
    let with = |format: u32, dimension: u32| {
        let mut session = Session::new();
        session.textures.push(Texture {
            format,
            dimension,
            ..PLAIN_TEXTURE
        });
        number(&session)
    };
    assert_eq!((with(14, 1), with(14, 3)), (0, 0));
    assert_eq!((with(20, 1), with(25, 3), with(20, 2)), (3, 3, 0));
}

/// A session of so many textures of a kind, and some of one surface; its view is unlawful.
fn textures(kind: Texture, count: u32, more: u32) -> Session {
    let mut session = small();
    session.textures = vec![kind; count as usize];
    session.textures.extend(vec![PLAIN_TEXTURE; more as usize]);
    session.views[0].layer_count = 99;
    session
}

#[test]
fn surfaces_are_counted_before_views() {
    let layered = Texture {
        depth_or_layers: MAX_LAYERS,
        mips: MAX_SURFACES / 16 / MAX_LAYERS,
        ..PLAIN_TEXTURE
    };
    let with = |more: u32| number(&textures(layered, 16, more));
    assert_eq!(with(0), 4, "as many as may be");
    assert_eq!(with(1), 3, "one more");
}

#[test]
fn slices_are_counted() {
    let volume = |depth: u32, mips: u32| Texture {
        dimension: 3,
        depth_or_layers: depth,
        mips,
        ..PLAIN_TEXTURE
    };
    let counts = [(5, 3, 8), (1, 15, 15), (4, 1, 4), (31, 5, 57), (32, 15, 72)];
    for (depth, mips, slices) in counts {
        assert_eq!(surfaces_of(&volume(depth, mips)), slices);
    }
    let deepest = volume(MAX_LAYERS, MAX_MIPS);
    let counted = |session: Session| (surfaces(&session), number(&session));
    assert_eq!(counted(textures(deepest, 56, 0)), (4032, 4));
    assert_eq!(counted(textures(deepest, 57, 0)), (4104, 3));
    let with_64_slices = |more: u32| {
        let mut session = textures(deepest, 56, more);
        session.textures.extend([volume(MAX_LAYERS, 1); 2]);
        session
    };
    assert_eq!(counted(with_64_slices(0)), (4096, 4), "as many as may be");
    assert_eq!(counted(with_64_slices(1)), (4097, 3), "one more");
}

#[test]
fn a_3d_texture_has_one_layer() {
    let with = |base_layer: u32, layer_count: u32| {
        let mut session = Session::new();
        session.textures.push(Texture {
            dimension: 3,
            depth_or_layers: 4,
            ..PLAIN_TEXTURE
        });
        session.views.push(View {
            dimension: D3,
            base_layer,
            layer_count,
            ..PLAIN_VIEW
        });
        number(&session)
    };
    assert_eq!([with(0, 1), with(0, 2), with(1, 1)], [0, 4, 4]);
}

#[test]
fn view_fields() {
    let field = |field: usize, value: u32| {
        let texture = Texture {
            depth_or_layers: 4,
            mips: 3,
            usage: 16,
            ..PLAIN_TEXTURE
        };
        let mut fields = PLAIN_VIEW.fields();
        fields[field] = value;
        let mut session = Session::new();
        session.textures.push(texture);
        session.views.push(View::from_fields(&fields));
        number(&session)
    };
    let edges: [(usize, &[u32], &[u32]); 9] = [
        (0, &[0], &[1, NONE]),
        (1, &[2, 3, 4, 5], &[0, 1, 6, 7]),
        (2, &[0, 2], &[3, NONE]),
        (3, &[1, 3], &[0, 4, NONE]),
        (4, &[0, 3], &[4, NONE]),
        (5, &[1, 4], &[0, 5, NONE]),
        (6, &[0, 16], &[1, 48, 64]),
        (7, &[0, 1], &[2]),
        (8, &[3, 4], &[0, 1, 5, 6, 20, NONE]),
    ];
    for (at, lawful, unlawful) in edges {
        for value in lawful {
            assert_eq!(field(at, *value), 0, "field {at}, {value}");
        }
        for value in unlawful {
            assert_eq!(field(at, *value), 4, "field {at}, {value}");
        }
    }
}

#[test]
fn dimensions_go_in_pairs() {
    for texture_dimension in 1..=3 {
        for view_dimension in 0..=7 {
            let mut session = Session::new();
            session.textures.push(Texture {
                dimension: texture_dimension,
                ..PLAIN_TEXTURE
            });
            session.views.push(View {
                dimension: view_dimension,
                ..PLAIN_VIEW
            });
            let pair = match view_dimension {
                D1 => 1,
                2..=5 => 2,
                D3 => 3,
                _ => 0,
            };
            let expected = if pair == texture_dimension { 0 } else { 4 };
            assert_eq!(number(&session), expected);
        }
    }
}

#[test]
fn a_view_has_its_textures_format_or_the_siblings() {
    for of_texture in (1..=14).chain(20..=25) {
        for format in 0..=26 {
            let mut session = Session::new();
            session.textures.push(Texture {
                format: of_texture,
                ..PLAIN_TEXTURE
            });
            session.views.push(View {
                format,
                ..PLAIN_VIEW
            });
            let siblings = [(3, 4), (4, 3), (5, 6), (6, 5)].contains(&(of_texture, format));
            let fits = format == of_texture || siblings;
            let expected = if fits { 0 } else { 4 };
            assert_eq!(number(&session), expected, "{of_texture} as {format}");
        }
    }
}

#[test]
fn pass_fields() {
    let mut session = small();
    session.views = vec![PLAIN_VIEW; 2];
    let slot = Slot {
        view: 1,
        ..EMPTY_SLOT
    };
    let mut pass = EMPTY_PASS;
    pass.colours = 2;
    pass.slots[0] = EMPTY_SLOT;
    pass.slots[1] = slot;
    pass.depth_stencil = 1;
    let fits = |change: &dyn Fn(&mut Pass)| {
        let mut changed = pass;
        change(&mut changed);
        pass_fits(&session, &changed)
    };
    assert!(fits(&|_| ()));
    assert!(fits(&|p| p.mask = NONE));
    assert!(fits(&|p| p.slots[0].load = 9), "an empty slot's rest");
    assert!(fits(&|p| p.slots[2].load = 9), "a slot past the count");
    assert!(fits(&|p| p.depth.clear = NONE));
    assert!(fits(&|p| p.slots[1].slice = NONE));
    assert!(fits(&|p| (p.depth.load, p.stencil.store) = (3, 2)));
    let without = |p: &mut Pass| (p.depth_stencil, p.depth.load) = (NONE, 9);
    assert!(fits(&without), "the rest of an absent depth-stencil part");
    assert!(!fits(&|p| p.colours = 9));
    assert!(!fits(&|p| p.ends = 2));
    assert!(!fits(&|p| p.depth_stencil = 2));
    assert!(!fits(&|p| p.depth.load = 4));
    assert!(!fits(&|p| p.stencil.store = 3));
    assert!(!fits(&|p| p.depth.read_only = 2));
    assert!(!fits(&|p| p.stencil.clear_given = 2));
    assert!(!fits(&|p| p.slots[1].view = 2));
    assert!(!fits(&|p| p.slots[1].slice_given = 2));
    assert!(!fits(&|p| p.slots[1].resolve = 2));
    assert!(!fits(&|p| p.slots[1].load = 3));
    assert!(!fits(&|p| p.slots[1].store = 2));
}
