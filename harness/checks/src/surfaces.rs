//! The place of a surface's byte among the status bytes: surfaces of a session, and those just
//! outside it, against the model.

use interface::{Desk, Index, Surface};
use sessions::random::Prng;
use sessions::reader::{self, layers, slices};
use sessions::{Session, Texture};

use crate::calls::Seen;
use crate::guard::Guarded;
use crate::reference::Model;

/// Most textures of a session whose surfaces are asked for.
const MOST_TEXTURES: usize = 8;

/// Holds the places of some surfaces of a file, and of some that it does not have.
pub fn hold(desk: &dyn Desk, bytes: &[u8], prng: &mut Prng, seen: &mut Seen) -> Result<(), String> {
    let surfaces = match reader::read(bytes) {
        Ok(session) => asked(&session, prng),
        Err(_) => vec![Surface::default()],
    };
    for surface in surfaces {
        seen.count(one(desk, bytes, &surface)?.number);
    }
    Ok(())
}

/// The place of one surface, which must be the model's.
pub fn one(desk: &dyn Desk, bytes: &[u8], surface: &Surface) -> Result<Index, String> {
    let file = Guarded::new(bytes);
    let got = desk.surface_index(file.content(), surface);
    let expected = Model.surface_index(bytes, surface);
    if !file.intact() || file.content() != bytes {
        Err(format!("surface {surface}: the session was written\n"))
    } else if got != expected {
        Err(format!(
            "surface {surface}: expected {expected:?}, got {got:?}\n"
        ))
    } else {
        Ok(got)
    }
}

/// Surfaces of some textures, and surfaces that are one past a bound or far past it.
fn asked(session: &Session, prng: &mut Prng) -> Vec<Surface> {
    let mut all = Vec::new();
    let mut numbers: Vec<usize> = (0..session.textures.len()).collect();
    while numbers.len() > MOST_TEXTURES {
        numbers.swap_remove(prng.below(numbers.len() as u32) as usize);
    }
    for number in numbers {
        let texture = number as u32;
        let near = around(&session.textures[number], prng);
        all.extend(near.map(|s| Surface { texture, ..s }));
    }
    let past = session.textures.len() as u32;
    all.extend([past, u32::MAX].map(|texture| Surface {
        texture,
        ..Surface::default()
    }));
    all
}

/// Surfaces of one mip: any, the last, and those past each bound; and the last slice of the mip before.
fn around(t: &Texture, prng: &mut Prng) -> [Surface; 8] {
    let mip = prng.below(t.mips);
    let any = Surface {
        texture: 0,
        mip,
        layer: prng.below(layers(t)),
        slice: prng.below(slices(t, mip)),
    };
    let last = Surface {
        layer: layers(t) - 1,
        slice: slices(t, mip) - 1,
        ..any
    };
    let of_the_mip_before = slices(t, mip.saturating_sub(1)) - 1;
    [
        any,
        last,
        Surface {
            slice: of_the_mip_before,
            ..any
        },
        Surface {
            slice: slices(t, mip),
            ..any
        },
        Surface {
            layer: layers(t),
            ..any
        },
        Surface { mip: t.mips, ..any },
        Surface {
            slice: u32::MAX,
            ..any
        },
        Surface {
            layer: u32::MAX,
            mip: u32::MAX,
            ..any
        },
    ]
}
