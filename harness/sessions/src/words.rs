//! The words of the text form: the keys of each line, their values, and what stands where a key is not
//! written. `examples/README.md` has them as a table, which the tests hold to this file.

use std::ops::Range;

use crate::names::*;
use crate::rows::*;

/// How a field's number is written.
pub enum Words {
    /// A number.
    Number,
    /// A number or a name for it.
    Names(&'static Kind),
    /// A number or names of bits joined with `+`.
    Bits(&'static Kind),
}

/// A field of a row: its key and how it is written.
pub struct Key(pub &'static str, pub Words);

/// The header's fields.
pub const HEADER_KEYS: &[Key] = &[
    Key("texture-count", Words::Number),
    Key("texture-offset", Words::Number),
    Key("view-count", Words::Number),
    Key("view-offset", Words::Number),
    Key("pass-count", Words::Number),
    Key("pass-offset", Words::Number),
    Key("max-colours", Words::Number),
    Key("max-views", Words::Number),
    Key("flags", Words::Bits(&FLAG)),
    Key("colour-bytes", Words::Number),
    Key("total", Words::Number),
];

/// The header's fields that a session line sets.
pub const SETTINGS: Range<usize> = 6..10;

/// A texture row's fields.
pub const TEXTURE_KEYS: &[Key] = &[
    Key("format", Words::Names(&FORMAT)),
    Key("dimension", Words::Number),
    Key("width", Words::Number),
    Key("height", Words::Number),
    Key("layers", Words::Number),
    Key("mips", Words::Number),
    Key("samples", Words::Number),
    Key("usage", Words::Bits(&USAGE)),
];

/// A view row's fields.
pub const VIEW_KEYS: &[Key] = &[
    Key("texture", Words::Number),
    Key("dimension", Words::Names(&VIEW_DIMENSION)),
    Key("mip", Words::Number),
    Key("mips", Words::Number),
    Key("layer", Words::Number),
    Key("layers", Words::Number),
    Key("usage", Words::Bits(&USAGE)),
    Key("resolvable", Words::Number),
    Key("format", Words::Names(&FORMAT)),
];

/// A pass row's own fields; its depth-stencil view stands in a line of its own.
pub const PASS_KEYS: &[Key] = &[
    Key("colours", Words::Number),
    Key("mask", Words::Number),
    Key("ends", Words::Number),
];

/// The field of a depth-stencil line.
pub const DEPTH_STENCIL_KEYS: &[Key] = &[Key("view", Words::Names(&VIEW))];

/// A channel's fields before its clear value.
pub const CHANNEL_KEYS: &[Key] = &[
    Key("load", Words::Names(&LOAD_OP)),
    Key("store", Words::Names(&STORE_OP)),
    Key("read-only", Words::Number),
    Key("clear-given", Words::Number),
];

/// A colour slot's fields before its clear value.
pub const SLOT_KEYS: &[Key] = &[
    Key("view", Words::Names(&VIEW)),
    Key("slice-given", Words::Number),
    Key("slice", Words::Number),
    Key("resolve", Words::Names(&VIEW)),
    Key("load", Words::Names(&LOAD_OP)),
    Key("store", Words::Names(&STORE_OP)),
];

/// A value by its name, where it has one.
pub fn write_value(words: &Words, value: u32) -> String {
    let name = match words {
        Words::Number => None,
        Words::Names(kind) => kind
            .words
            .iter()
            .find(|(v, _)| *v == value)
            .map(|(_, name)| name.to_string()),
        Words::Bits(kind) => bit_names(kind.words, value),
    };
    name.unwrap_or(value.to_string())
}

/// The names of the bits, where each has one.
fn bit_names(names: &[(u32, &str)], value: u32) -> Option<String> {
    let known: u32 = names.iter().map(|(bit, _)| bit).sum();
    let set = names.iter().filter(|(bit, _)| value & bit != 0);
    (value != 0 && value & !known == 0)
        .then(|| set.map(|(_, name)| *name).collect::<Vec<_>>().join("+"))
}

/// A key as the table tells it: its line, its name, its values, and what stands where it is not written.
pub struct Told {
    pub line: &'static str,
    pub key: &'static str,
    pub values: &'static str,
    pub default: Default,
}

/// What stands where a key is not written.
pub enum Default {
    /// This value, as if it were written.
    Value(String),
    /// What the words say.
    Words(&'static str),
}

/// Every key of every line.
pub fn told() -> Vec<Told> {
    let header = Session::new().header().fields();
    let channel = NO_OPERATIONS.fields();
    let mut all = Vec::new();
    all.extend(keys("session", &HEADER_KEYS[SETTINGS], &header[SETTINGS]));
    all.extend(keys("texture", TEXTURE_KEYS, &PLAIN_TEXTURE.fields()));
    all.extend(keys("view", VIEW_KEYS, &PLAIN_VIEW.fields()));
    all.extend(keys("pass", PASS_KEYS, &[0; PASS_KEYS.len()]));
    all.extend(keys("depth-stencil", DEPTH_STENCIL_KEYS, &[0]));
    all.extend(keys("depth", CHANNEL_KEYS, &channel));
    all.push(clear("depth", "fraction, or `0x` and the bits"));
    all.extend(keys("stencil", CHANNEL_KEYS, &channel));
    all.push(clear("stencil", "number"));
    all.extend(keys("colour", SLOT_KEYS, &EMPTY_SLOT.fields()));
    all.push(clear(
        "colour",
        "four fractions, or `0x` and the bits, parted by commas",
    ));
    all.extend(keys("header", HEADER_KEYS, &header));
    all
}

/// The keys of a line, with the fields of a row that says nothing.
fn keys<'a>(
    line: &'static str,
    keys: &'static [Key],
    fields: &'a [u32],
) -> impl Iterator<Item = Told> + 'a {
    keys.iter()
        .zip(fields)
        .map(move |(Key(key, words), field)| Told {
            line,
            key,
            values: match words {
                Words::Number => "number",
                Words::Names(kind) | Words::Bits(kind) => kind.name,
            },
            default: match (line, *key) {
                ("header", _) => Default::Words("as the rows ask"),
                ("view", "format") => Default::Words("its texture's"),
                ("pass", "colours") => Default::Words("how many `colour` lines follow"),
                (_, "clear-given") => Default::Words("1 where `clear` is written, else 0"),
                (_, "slice-given") => Default::Words("1 where `slice` is written, else 0"),
                (_, "slice") => Default::Words("not given, 0"),
                _ => Default::Value(write_value(words, *field)),
            },
        })
}

/// The clear value of a line.
fn clear(line: &'static str, values: &'static str) -> Told {
    Told {
        line,
        key: "clear",
        values,
        default: match line {
            "colour" => Default::Value("0,0,0,0".into()),
            _ => Default::Words("not given, 0"),
        },
    }
}
