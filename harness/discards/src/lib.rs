//! The discard list of a command buffer as a slice of records that the caller owns, for Rust callers:
//! the proved library's C functions, without `unsafe`.
//!
//! ```
//! use discards::{discard, retain, TextureInitRange, TextureSurfaceDiscard};
//!
//! let none = TextureSurfaceDiscard { texture: 0, mip: 0, layer: 0, slice: 0 };
//! let mut list = [none; 64];
//! let n = discard(&mut list, 0, TextureSurfaceDiscard { texture: 3, mip: 1, layer: 2, slice: 0 });
//! let n = discard(&mut list, n, TextureSurfaceDiscard { texture: 4, mip: 0, layer: 0, slice: 5 });
//! let range = TextureInitRange { texture: 3, mip: 1, mips: 1, layer: 0, layers: 4, slice: 0 };
//! assert_eq!(retain(&mut list, n, range), 1);
//! assert_eq!(list[0].texture, 4);
//! ```

/// A surface whose content is discarded. The slice is 0 where the texture is not 3D.
#[repr(C)]
#[derive(Clone, Copy, Debug, PartialEq, Eq)]
pub struct TextureSurfaceDiscard {
    pub texture: u32,
    pub mip: u32,
    pub layer: u32,
    pub slice: u32,
}

/// So many mips and layers of a texture, from the first of each on, all of one slice.
#[repr(C)]
#[derive(Clone, Copy, Debug, PartialEq, Eq)]
pub struct TextureInitRange {
    pub texture: u32,
    pub mip: u32,
    pub mips: u32,
    pub layer: u32,
    pub layers: u32,
    pub slice: u32,
}

/// The C functions as `include/texture_surface_discards.h` declares them.
mod foreign {
    use super::{TextureInitRange, TextureSurfaceDiscard};

    unsafe extern "C" {
        pub fn deskcheck_discard(
            discards: *mut TextureSurfaceDiscard,
            discards_len: usize,
            n: usize,
            s: TextureSurfaceDiscard,
        ) -> usize;

        pub fn deskcheck_retain(
            discards: *mut TextureSurfaceDiscard,
            discards_len: usize,
            n: usize,
            range: TextureInitRange,
        ) -> usize;
    }
}

/// Puts a discard after the first `n`: `n + 1`. Without room for it, `n`, and the slice stays.
pub fn discard(
    discards: &mut [TextureSurfaceDiscard],
    n: usize,
    s: TextureSurfaceDiscard,
) -> usize {
    // SAFETY: a pointer and a length of one slice, which lives through the call.
    unsafe { foreign::deskcheck_discard(discards.as_mut_ptr(), discards.len(), n, s) }
}

/// Keeps those of the first `n` that the range does not have, in order: how many they are. The
/// records from there to `n` are free. An `n` past the slice's end is handed back, and the slice
/// stays.
pub fn retain(discards: &mut [TextureSurfaceDiscard], n: usize, range: TextureInitRange) -> usize {
    // SAFETY: a pointer and a length of one slice, which lives through the call.
    unsafe { foreign::deskcheck_retain(discards.as_mut_ptr(), discards.len(), n, range) }
}
