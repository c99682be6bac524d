//! The text form: to bytes, and back to the same bytes.

use sessions::layout::{HEADER_FIELDS, HEADER_LEN, MAX_COLOUR_BYTES};
use sessions::random::{self, Prng};
use sessions::rows::Session;
use sessions::{damage, enumerate, reader, text};

#[test]
fn random_files_come_back() {
    let mut prng = Prng::new(4);
    for _ in 0..400 {
        let bytes = random::file(&mut prng);
        let text = text::from_bytes(&bytes);
        assert_eq!(text::to_bytes(&text).as_ref(), Ok(&bytes), "{text}");
    }
}

#[test]
fn rows_are_told_where_nothing_unexamined_is_set() {
    for session in enumerate::all() {
        let text = text::from_bytes(&session.to_bytes());
        assert!(!text.starts_with("raw"), "{text}");
    }
}

#[test]
fn a_views_format_is_its_textures_unless_said() {
    let formats = |text: &str| {
        let session = Session::decode(&text::to_bytes(text).unwrap()).unwrap();
        let formats = session.views.iter().map(|view| view.format);
        formats.collect::<Vec<u32>>()
    };
    let srgb = "texture format=rgba8unorm-srgb";
    assert_eq!(formats(&format!("{srgb}\nview")), [4]);
    assert_eq!(formats(&format!("{srgb}\nview format=rgba8unorm")), [3]);
    assert_eq!(formats(&format!("{srgb}\nview format=0")), [0]);
    assert_eq!(formats(&format!("view\nagain 2\n{srgb}")), [4, 4, 4]);
    assert_eq!(formats("texture\nview texture=1"), [0]);
}

#[test]
fn a_format_is_told_where_it_is_not_the_textures() {
    let told = |text: &str| text::from_bytes(&text::to_bytes(text).unwrap());
    let sibling = "texture format=bgra8unorm\nview format=bgra8unorm-srgb\n";
    assert!(told(sibling).contains("view format=bgra8unorm-srgb\n"));
    let own = "texture format=bgra8unorm\nview format=bgra8unorm\n";
    assert!(told(own).contains("view\n"));
}

#[test]
fn the_limit_of_colour_bytes_is_the_greatest_unless_said() {
    let limit = |text: &str| {
        let bytes = text::to_bytes(text).unwrap();
        (Session::decode(&bytes).unwrap().colour_bytes, bytes)
    };
    assert_eq!(limit("texture").0, MAX_COLOUR_BYTES);
    assert_eq!(limit("session colour-bytes=0").0, 0);
    let (said, bytes) = limit("session colour-bytes=19");
    assert_eq!(said, 19);
    let told = text::from_bytes(&bytes);
    assert!(told.contains("session colour-bytes=19\n"), "{told}");
}

#[test]
fn a_wrong_line_is_named() {
    let wrong = |text: &str| text::to_bytes(text).unwrap_err();
    assert_eq!(wrong("texture\nvew"), "line 2: no such line: vew");
    assert_eq!(wrong("texture size=4"), "line 1: no such key: size");
    assert_eq!(wrong("texture format=red"), "line 1: not a number: red");
    assert_eq!(wrong("colour view=0"), "line 1: no pass yet");
    assert_eq!(wrong("again 1"), "line 1: nothing to repeat");
    assert!(wrong(&format!("pass\n{}", "colour\n".repeat(9))).starts_with("line 10:"));
}

#[test]
fn random_sessions_are_readable() {
    let mut prng = Prng::new(9);
    for _ in 0..2000 {
        let session = random::session(&mut prng);
        assert_eq!(reader::read(&session.to_bytes()), Ok(session));
    }
}

#[test]
fn a_seed_gives_the_same_files() {
    let files = |seed: u64| {
        let mut prng = Prng::new(seed);
        (0..20).map(|_| random::file(&mut prng)).collect::<Vec<_>>()
    };
    assert_eq!(files(3), files(3));
    assert_ne!(files(3), files(4));
}

#[test]
fn damage_changes_a_file() {
    let bytes = text::to_bytes("texture\nview\npass\n  colour view=0 load=clear").unwrap();
    let copies = damage::systematic(&bytes);
    let same = copies.iter().filter(|copy| **copy == bytes).count();
    assert_eq!(copies.len(), 2 * HEADER_FIELDS + 22 + 8 * HEADER_LEN);
    assert_eq!(same, 2, "only the two copies of the same length are equal");
}
