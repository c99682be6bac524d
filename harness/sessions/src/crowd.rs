//! Sessions of about the most surfaces.

use crate::layout::{MAX_LAYERS, MAX_MIPS, MAX_SURFACES, MAX_TEXTURES};
use crate::random::Prng;
use crate::reader::{surfaces, surfaces_of};
use crate::rows::{Session, Texture, PLAIN_TEXTURE};

/// The session with 3D textures behind its own, as many as make the surfaces nearly the most that may be,
/// the most, or more.
pub fn crowd(mut session: Session, prng: &mut Prng) -> Session {
    let wanted = MAX_SURFACES - 2 + prng.below(5);
    for _ in 0..prng.below(4) {
        session.textures.push(Texture {
            depth_or_layers: MAX_LAYERS,
            mips: MAX_MIPS,
            ..PLAIN_TEXTURE
        });
    }
    while session.textures.len() < MAX_TEXTURES as usize {
        let missing = wanted.saturating_sub(surfaces(&session));
        if missing == 0 {
            break;
        }
        session.textures.push(volume_of(missing, prng));
    }
    session
}

/// A 3D texture of at most so many slices: of several mips where there is room for the most.
fn volume_of(slices: u32, prng: &mut Prng) -> Texture {
    let deepest = Texture {
        dimension: 3,
        depth_or_layers: MAX_LAYERS,
        mips: MAX_MIPS - prng.below(3),
        ..PLAIN_TEXTURE
    };
    if surfaces_of(&deepest) <= slices {
        deepest
    } else {
        Texture {
            depth_or_layers: slices.min(MAX_LAYERS),
            mips: 1,
            ..deepest
        }
    }
}
