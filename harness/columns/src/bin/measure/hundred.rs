//! Two sessions of a hundred nearly equal passes, as frames of one chart layer.

use sessions::layout::*;
use sessions::random::Prng;
use sessions::rows::{EMPTY_PASS, EMPTY_SLOT, PLAIN_TEXTURE, PLAIN_VIEW};
use sessions::{Channel, Pass, Session, Slot, Texture, View};

/// The seed of what differs from frame to frame.
const SEED: u64 = 12;

/// The frame's size and its samples before they are resolved.
const WIDTH: u32 = 1920;
const HEIGHT: u32 = 1080;
const MANY: u32 = 4;

/// The formats of the eight colours: rgba8unorm, rg16float, rgba16float, r8unorm, and the same again.
const FORMATS: [u32; SLOTS] = [3, 8, 9, 1, 3, 8, 9, 1];
/// depth24plus-stencil8.
const DEPTH_FORMAT: u32 = 23;

/// Images that are shown in turn; each has a view for the first colour's resolve target.
const SHOWN: u32 = 3;

/// The rows' numbers: the colours, the depth-stencil, the resolve targets, and the further images
/// that are shown. A view has its texture's number.
const COLOURS: u32 = SLOTS as u32;
const DEPTH_STENCIL: u32 = COLOURS;
const TARGETS: u32 = DEPTH_STENCIL + 1;
const FURTHER: u32 = TARGETS + COLOURS;

/// A texture of the frame's size.
fn texture(format: u32, samples: u32) -> Texture {
    Texture {
        format,
        width: WIDTH,
        height: HEIGHT,
        samples,
        ..PLAIN_TEXTURE
    }
}

/// A channel that is cleared and not kept.
fn cleared(clear: u32) -> Channel {
    Channel {
        load: CLEAR,
        store: DISCARD,
        read_only: 0,
        clear_given: 1,
        clear,
    }
}

/// A colour that is cleared, resolved and not kept.
fn slot(k: u32, clear: [f64; COLOR_NUMBERS]) -> Slot {
    Slot {
        view: k,
        resolve: TARGETS + k,
        load: CLEAR,
        store: DISCARD,
        clear: clear.map(f64::to_bits),
        ..EMPTY_SLOT
    }
}

/// The image of a frame that the first colour is resolved to.
fn shown(frame: u32) -> u32 {
    match frame % SHOWN {
        0 => TARGETS,
        k => FURTHER + k - 1,
    }
}

/// A frame: the background grows lighter, the image that is shown is the next one, and now and then
/// a colour is loaded, or kept.
fn frame(number: u32, prng: &mut Prng) -> Pass {
    let light = f64::from(number) / f64::from(MAX_PASSES);
    let mut pass = Pass {
        colours: COLOURS,
        ends: 1,
        depth_stencil: DEPTH_STENCIL,
        depth: cleared(1.0_f32.to_bits()),
        stencil: cleared(0),
        ..EMPTY_PASS
    };
    pass.slots = std::array::from_fn(|k| slot(k as u32, [0.0, 0.0, 0.0, 1.0]));
    pass.slots[0] = Slot {
        resolve: shown(number),
        ..slot(0, [0.02, 0.05, light, 1.0])
    };
    if prng.chance(10) {
        pass.slots[prng.below(COLOURS) as usize].load = LOAD;
    }
    if prng.chance(10) {
        pass.slots[prng.below(COLOURS) as usize].store = STORE;
    }
    pass
}

/// Frames that differ in one clear value, the image that is shown and few operations.
pub fn nearly_equal() -> Session {
    let mut prng = Prng::new(SEED);
    let mut textures: Vec<Texture> = FORMATS.map(|format| texture(format, MANY)).to_vec();
    textures.push(texture(DEPTH_FORMAT, MANY));
    textures.extend(FORMATS.map(|format| texture(format, 1)));
    textures.extend((1..SHOWN).map(|_| texture(FORMATS[0], 1)));
    let view = |texture: u32| View {
        texture,
        format: textures[texture as usize].format,
        ..PLAIN_VIEW
    };
    Session {
        flags: STRICT,
        views: (0..textures.len() as u32).map(view).collect(),
        textures,
        passes: (0..MAX_PASSES).map(|k| frame(k, &mut prng)).collect(),
        ..Session::new()
    }
}

/// A colour of a frame that fades, in steps of 1/255; each slot has its own pace.
fn faded(frame: usize, slot: usize) -> [f64; COLOR_NUMBERS] {
    let part = |k: usize| f64::from((frame * (slot + k + 1) % 256) as u8) / 255.0;
    [part(0), part(1), part(2), 1.0]
}

/// The same frames, and every colour is cleared to another value in each.
pub fn fading() -> Session {
    let mut session = nearly_equal();
    for (frame, pass) in session.passes.iter_mut().enumerate() {
        for (slot, row) in pass.slots.iter_mut().enumerate() {
            row.clear = faded(frame, slot).map(f64::to_bits);
        }
    }
    session
}

#[cfg(test)]
mod tests {
    use super::*;

    /// A hundred passes, each accepted.
    #[test]
    fn every_frame_is_accepted() {
        for session in [nearly_equal(), fading()] {
            let lines = model::deskcheck(&session.to_bytes());
            assert_eq!(lines.lines().count(), MAX_PASSES as usize, "{lines}");
            for (k, line) in lines.lines().enumerate() {
                let start = format!("{k} 0 17 17 {WIDTH} {HEIGHT} {MANY} ");
                assert!(line.starts_with(&start), "{line}");
            }
        }
    }

    /// In frames that fade every colour is another than in the frame before.
    #[test]
    fn every_colour_fades() {
        for pair in fading().passes.windows(2) {
            for (next, slot) in pair[1].slots.iter().zip(&pair[0].slots) {
                assert!(next.clear[..3]
                    .iter()
                    .zip(&slot.clear[..3])
                    .all(|(a, b)| a != b));
            }
        }
    }

    /// Frames differ in one clear value, one resolve target, and in few operations.
    #[test]
    fn frames_are_nearly_equal() {
        let passes = nearly_equal().passes;
        let operations = |pass: &Pass| pass.slots.map(|slot| (slot.load, slot.store));
        let plain = [(CLEAR, DISCARD); SLOTS];
        let others = passes.iter().filter(|pass| operations(pass) != plain);
        assert!((5..40).contains(&others.count()));
        for pair in passes.windows(2) {
            let mut next = pair[1];
            assert_ne!(next.slots[0].clear[2], pair[0].slots[0].clear[2]);
            assert_ne!(next.slots[0].resolve, pair[0].slots[0].resolve);
            next.slots[0].clear = pair[0].slots[0].clear;
            next.slots[0].resolve = pair[0].slots[0].resolve;
            for (to, from) in next.slots.iter_mut().zip(&pair[0].slots) {
                (to.load, to.store) = (from.load, from.store);
            }
            assert_eq!(next, pair[0]);
        }
    }
}
