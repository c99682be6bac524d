//! Names that the text form uses for numbers of a row.

/// Numbers of one kind that have names.
pub struct Kind {
    /// What the numbers are.
    pub name: &'static str,
    pub words: &'static [(u32, &'static str)],
}

/// Formats of document 01.
pub const FORMAT: Kind = Kind {
    name: "format",
    words: &[
        (1, "r8unorm"),
        (2, "rg8unorm"),
        (3, "rgba8unorm"),
        (4, "rgba8unorm-srgb"),
        (5, "bgra8unorm"),
        (6, "bgra8unorm-srgb"),
        (7, "r16float"),
        (8, "rg16float"),
        (9, "rgba16float"),
        (10, "r32float"),
        (11, "rg32float"),
        (12, "rgba32float"),
        (13, "rgb10a2unorm"),
        (14, "rg11b10ufloat"),
        (20, "stencil8"),
        (21, "depth16unorm"),
        (22, "depth24plus"),
        (23, "depth24plus-stencil8"),
        (24, "depth32float"),
        (25, "depth32float-stencil8"),
    ],
};

/// Dimensions of a view.
pub const VIEW_DIMENSION: Kind = Kind {
    name: "dimension of a view",
    words: &[
        (1, "D1"),
        (2, "D2"),
        (3, "D2Array"),
        (4, "Cube"),
        (5, "CubeArray"),
        (6, "D3"),
    ],
};

/// Load operations.
pub const LOAD_OP: Kind = Kind {
    name: "load",
    words: &[(0, "load"), (1, "clear"), (2, "dont-care"), (3, "absent")],
};

/// Store operations.
pub const STORE_OP: Kind = Kind {
    name: "store",
    words: &[(0, "store"), (1, "discard"), (2, "absent")],
};

/// The number that stands for no view.
pub const VIEW: Kind = Kind {
    name: "number of a view",
    words: &[(u32::MAX, "none")],
};

/// Usage bits.
pub const USAGE: Kind = Kind {
    name: "usage",
    words: &[
        (1, "copy-src"),
        (2, "copy-dst"),
        (4, "binding"),
        (8, "storage"),
        (16, "render"),
        (32, "transient"),
    ],
};

/// Header flags.
pub const FLAG: Kind = Kind {
    name: "flags",
    words: &[
        (1, "strict"),
        (2, "multiview"),
        (4, "selective"),
        (8, "read-only-depth-stencil"),
    ],
};

/// Every kind.
pub const KINDS: [&Kind; 7] = [
    &FORMAT,
    &VIEW_DIMENSION,
    &LOAD_OP,
    &STORE_OP,
    &VIEW,
    &USAGE,
    &FLAG,
];
