//! `speed` times the library's session reader beside a Rust one that tests the same and keeps nothing,
//! and a submission as surfaces and actions grow. Each figure is the least of several rounds in one run.

use std::hint::black_box;
use std::time::Instant;

use desk::Lists;
use sessions::layout::*;
use sessions::random::{self, Prng};
use sessions::reader::surfaces_of;
use sessions::rows::PLAIN_TEXTURE;
use sessions::{Session, Texture};

/// Rounds of a measurement; the least counts.
const ROUNDS: usize = 15;

/// Nanoseconds that one call takes, the least of the rounds.
fn least(calls: usize, mut call: impl FnMut()) -> f64 {
    let mut best = f64::MAX;
    for _ in 0..ROUNDS {
        let start = Instant::now();
        for _ in 0..calls {
            call();
        }
        best = best.min(start.elapsed().as_nanos() as f64 / calls as f64);
    }
    best
}

/// A little-endian u32; 0 past the end.
fn u32_at(bytes: &[u8], at: usize) -> u32 {
    bytes
        .get(at..at + FIELD_LEN)
        .map_or(0, |b| u32::from_le_bytes([b[0], b[1], b[2], b[3]]))
}

/// Field k of the row at a place.
fn field(s: &[u8], row: usize, k: usize) -> u32 {
    u32_at(s, row + FIELD_LEN * k)
}

/// Document 01's test of a texture row.
fn texture_right(s: &[u8], at: usize) -> bool {
    let format = field(s, at, 0);
    ((1..=14).contains(&format) || (20..=25).contains(&format))
        && (1..=3).contains(&field(s, at, 1))
        && (format < 20 || field(s, at, 1) == 2)
        && (1..=MAX_SIZE).contains(&field(s, at, 2))
        && (1..=MAX_SIZE).contains(&field(s, at, 3))
        && (1..=MAX_LAYERS).contains(&field(s, at, 4))
        && (1..=MAX_MIPS).contains(&field(s, at, 5))
        && SAMPLES.contains(&field(s, at, 6))
        && field(s, at, 7) <= ALL_USAGES
}

/// Layers of a texture row: a 3D texture has one.
fn layers(s: &[u8], at: usize) -> u32 {
    if field(s, at, 1) == 3 {
        1
    } else {
        field(s, at, 4)
    }
}

/// Surfaces of a texture row: its layers, or of a 3D texture its slices, over all mips.
fn surfaces(s: &[u8], at: usize) -> u32 {
    let (depth, mips) = (field(s, at, 4), field(s, at, 5));
    if field(s, at, 1) == 3 {
        (0..mips).map(|mip| (depth >> mip).max(1)).sum()
    } else {
        mips * depth
    }
}

/// A format without its sRGB suffix.
fn without_srgb(format: u32) -> u32 {
    match format {
        4 => 3,
        6 => 5,
        _ => format,
    }
}

/// Document 01's test of a view row, with its format.
fn view_right(s: &[u8], textures: u32, at: usize) -> bool {
    if field(s, at, 0) >= textures {
        return false;
    }
    let texture = HEADER_LEN + TEXTURE_LEN * field(s, at, 0) as usize;
    let fits = match field(s, at, 1) {
        D1 => field(s, texture, 1) == 1,
        D3 => field(s, texture, 1) == 3,
        D2..=CUBE_ARRAY => field(s, texture, 1) == 2,
        _ => false,
    };
    let within = |base: u32, count: u32, end: u32| {
        count >= 1 && u64::from(base) + u64::from(count) <= u64::from(end)
    };
    fits && within(field(s, at, 2), field(s, at, 3), field(s, texture, 5))
        && within(field(s, at, 4), field(s, at, 5), layers(s, texture))
        && field(s, at, 6) & !field(s, texture, 7) == 0
        && field(s, at, 7) <= 1
        && without_srgb(field(s, at, 8)) == without_srgb(field(s, texture, 0))
}

/// The session's refusal, 1 to 4, or 0: a plain Rust reader that keeps nothing.
fn refusal(s: &[u8]) -> u32 {
    if s.len() < HEADER_LEN || u32_at(s, TOTAL_AT) as usize != s.len() {
        return 1;
    }
    let (textures, views) = (u32_at(s, TEXTURE_COUNT_AT), u32_at(s, VIEW_COUNT_AT));
    let passes = u32_at(s, PASS_COUNT_AT);
    if textures > MAX_TEXTURES || views > MAX_VIEWS || passes > MAX_PASSES {
        return 2;
    }
    let view_start = HEADER_LEN + TEXTURE_LEN * textures as usize;
    let pass_start = view_start + VIEW_LEN * views as usize;
    let right = u32_at(s, TEXTURE_OFFSET_AT) as usize == HEADER_LEN
        && u32_at(s, VIEW_OFFSET_AT) as usize == view_start
        && u32_at(s, PASS_OFFSET_AT) as usize == pass_start
        && (1..=SLOTS as u32).contains(&u32_at(s, MAX_COLOURS_AT))
        && u32_at(s, MAX_VIEWS_AT) <= MAX_MULTIVIEW
        && u32_at(s, FLAGS_AT) <= ALL_FLAGS
        && (1..=MAX_COLOUR_BYTES).contains(&u32_at(s, COLOUR_BYTES_AT))
        && pass_start + PASS_LEN * passes as usize == s.len();
    if !right {
        return 2;
    }
    let mut counted = 0;
    for k in 0..textures as usize {
        let at = HEADER_LEN + TEXTURE_LEN * k;
        if !texture_right(s, at) {
            return 3;
        }
        counted += surfaces(s, at);
    }
    if counted > MAX_SURFACES {
        return 3;
    }
    if !(0..views as usize).all(|k| view_right(s, textures, view_start + VIEW_LEN * k)) {
        return 4;
    }
    0
}

/// Times both readers on one file.
fn reader(name: &str, file: &[u8]) {
    assert_eq!(refusal(file), desk::session_refusal(file));
    let ours = least(2000, || {
        black_box(desk::session_refusal(black_box(file)));
    });
    let rust = least(2000, || {
        black_box(refusal(black_box(file)));
    });
    let rate = |ns: f64| file.len() as f64 / ns;
    println!(
        "| {name} | {} | {ours:.0} | {:.1} | {rust:.0} | {:.1} | {:.2} |",
        file.len(),
        rate(ours),
        rate(rust),
        ours / rust
    );
}

/// A session of so many textures of so many mips and layers, with no views and no passes.
fn textures_file(textures: u32, mips: u32, layers: u32) -> Vec<u8> {
    let texture = Texture {
        depth_or_layers: layers,
        mips,
        ..PLAIN_TEXTURE
    };
    file_of(texture, textures)
}

/// A session of so many equal textures.
fn file_of(texture: Texture, count: u32) -> Vec<u8> {
    let session = Session {
        textures: vec![texture; count as usize],
        ..Session::new()
    };
    session.to_bytes()
}

/// As many volumes of the greatest depth and the most mips as a session can have: 56.
fn volumes_file() -> Vec<u8> {
    let volume = Texture {
        dimension: 3,
        depth_or_layers: MAX_LAYERS,
        mips: MAX_MIPS,
        ..PLAIN_TEXTURE
    };
    file_of(volume, MAX_SURFACES / surfaces_of(&volume))
}

/// A list of so many needing actions, each over the first mip of a texture.
fn actions(count: u32, textures: u32, layers: u32) -> Vec<u8> {
    let mut words = vec![count];
    for i in 0..count {
        words.extend([i % textures, 0, 1, 0, layers, 1, 0]);
    }
    words.iter().flat_map(|w| w.to_le_bytes()).collect()
}

/// Times a submission of empty surfaces: status and actions are put back before each call, which the time includes.
fn submission(textures: u32, mips: u32, layers: u32, count: u32) {
    let file = textures_file(textures, mips, layers);
    let list = actions(count, textures, layers);
    let mut lists = Lists::fresh();
    let ns = least(300, || {
        lists.status.fill(0);
        lists.actions[..list.len()].copy_from_slice(&list);
        assert_eq!(desk::submit_buffer(&file, &mut lists), 0);
    });
    println!(
        "| {} | {count} | {} | {ns:.0} |",
        textures * mips * layers,
        count * layers
    );
}

/// Prints both tables.
fn main() {
    println!(
        "| file | bytes | ours, ns | ours, bytes/ns | Rust, ns | Rust, bytes/ns | ours / Rust |"
    );
    println!("|---|---|---|---|---|---|---|");
    let mut prng = Prng::new(6);
    let mut files: Vec<Vec<u8>> = (0..400)
        .map(|_| random::file(&mut prng))
        .filter(|f| refusal(f) == 0)
        .collect();
    files.sort_by_key(Vec::len);
    for k in [0, files.len() / 2, files.len() - 1] {
        reader("random", &files[k]);
    }
    let most = MAX_TEXTURES;
    reader(
        &format!("{most} textures"),
        &textures_file(most, 2, MAX_LAYERS),
    );
    reader("56 volumes", &volumes_file());
    println!();
    println!("| surfaces | actions | surfaces that they cover | ns |");
    println!("|---|---|---|---|");
    for (textures, mips, layers, count) in [
        (1, 1, 1, 0),
        (16, 2, MAX_LAYERS, 0),
        (most, 2, MAX_LAYERS, 0),
        (most, 2, MAX_LAYERS, 64),
        (most, 2, MAX_LAYERS, 256),
        (most, 2, MAX_LAYERS, ACTIONS as u32),
        (most, 2, 1, ACTIONS as u32),
    ] {
        submission(textures, mips, layers, count);
    }
}
