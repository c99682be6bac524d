//! The text form of a session (`*.layer`), to bytes and back.
//!
//! A line is a word and `key=value` pairs; `#` starts a comment. `examples/README.md` has the whole of
//! it, and `words` the keys.

use crate::layout::*;
use crate::rows::*;
use crate::words::*;

/// The bytes that a text stands for, or what is wrong with it.
pub fn to_bytes(text: &str) -> Result<Vec<u8>, String> {
    let lines = text
        .lines()
        .enumerate()
        .map(|(i, line)| (i + 1, line.split('#').next().unwrap_or("").trim()))
        .filter(|(_, line)| !line.is_empty());
    let mut maker = Maker::new();
    for (number, line) in lines {
        maker
            .line(line)
            .map_err(|wrong| format!("line {number}: {wrong}"))?;
    }
    maker.finish()
}

/// Document 01's example: Clear with Discard, then Load with Store, in one buffer.
const DOCUMENT_01: &str = "texture\nview\npass\n  colour view=0 load=clear store=discard\n\
                           pass\n  colour view=0 load=load store=store";

/// The bytes of document 01's example, without a flag.
pub fn document_01() -> Vec<u8> {
    to_bytes(DOCUMENT_01).expect("a right text")
}

/// The row that `again` repeats.
#[derive(Clone, Copy, PartialEq)]
enum Last {
    Nothing,
    Texture,
    View,
    Pass,
}

/// How a line is taken: its words after the first.
type Line = fn(&mut Maker, &[&str]) -> Result<(), String>;

/// Every line by its first word.
const LINES: &[(&str, Line)] = &[
    ("session", Maker::session_line),
    ("texture", Maker::texture_line),
    ("view", Maker::view_line),
    ("pass", Maker::pass_line),
    ("depth-stencil", Maker::depth_stencil_line),
    ("depth", Maker::depth_line),
    ("stencil", Maker::stencil_line),
    ("colour", Maker::colour_line),
    ("again", Maker::again_line),
    ("header", Maker::header_line),
    ("length", Maker::length_line),
    ("raw", Maker::raw_line),
    ("bytes", Maker::bytes_line),
];

/// The first words of all lines.
pub fn lines() -> impl Iterator<Item = &'static str> {
    LINES.iter().map(|(name, _)| *name)
}

/// What the lines read so far stand for.
struct Maker {
    /// All but the views.
    session: Session,
    /// The views, and whether each says its format.
    views: Vec<(View, bool)>,
    last: Last,
    /// Colour lines of the last pass.
    slots: usize,
    /// Whether these lines count the pass's colours.
    counted: bool,
    /// Header fields that replace the right ones, by number.
    header: Vec<(usize, u32)>,
    length: Option<usize>,
    raw: Option<Vec<u8>>,
}

impl Maker {
    /// An empty session.
    fn new() -> Self {
        Maker {
            session: Session::new(),
            views: Vec::new(),
            last: Last::Nothing,
            slots: 0,
            counted: true,
            header: Vec::new(),
            length: None,
            raw: None,
        }
    }

    /// Takes one line.
    fn line(&mut self, line: &str) -> Result<(), String> {
        let mut words = line.split_whitespace();
        let word = words.next().unwrap_or("");
        let rest: Vec<&str> = words.collect();
        let known = LINES.iter().find(|(name, _)| *name == word);
        let (_, take) = known.ok_or_else(|| format!("no such line: {word}"))?;
        take(self, &rest)
    }

    /// The pass that the line belongs to.
    fn pass(&mut self) -> Result<&mut Pass, String> {
        self.session.passes.last_mut().ok_or("no pass yet".into())
    }

    /// The header's settings.
    fn session_line(&mut self, pairs: &[&str]) -> Result<(), String> {
        let keys = &HEADER_KEYS[SETTINGS];
        let mut fields = self.session.header().fields();
        for pair in pairs {
            let (at, value) = key_value(keys, pair)?;
            fields[SETTINGS.start + at] = value;
        }
        let header = Header::from_fields(&fields);
        self.session.max_colours = header.max_colours;
        self.session.max_views = header.max_views;
        self.session.flags = header.flags;
        self.session.colour_bytes = header.colour_bytes;
        Ok(())
    }

    /// A texture row.
    fn texture_line(&mut self, pairs: &[&str]) -> Result<(), String> {
        let row = set(&PLAIN_TEXTURE, TEXTURE_KEYS, pairs)?;
        self.session.textures.push(row);
        self.last = Last::Texture;
        Ok(())
    }

    /// A view row; its texture may stand further down.
    fn view_line(&mut self, pairs: &[&str]) -> Result<(), String> {
        let row = set(&PLAIN_VIEW, VIEW_KEYS, pairs)?;
        let said = take(pairs, "format").0.is_some();
        self.views.push((row, said));
        self.last = Last::View;
        Ok(())
    }

    /// A pass; parts that no line names are empty, their other fields zero.
    fn pass_line(&mut self, pairs: &[&str]) -> Result<(), String> {
        let mut pass = EMPTY_PASS;
        let fields = set_fields(vec![0, 0, 0], PASS_KEYS, pairs)?;
        (pass.colours, pass.mask, pass.ends) = (fields[0], fields[1], fields[2]);
        self.session.passes.push(pass);
        self.last = Last::Pass;
        self.slots = 0;
        self.counted = take(pairs, "colours").0.is_none();
        Ok(())
    }

    /// The depth-stencil view; channels that no line names have no operations.
    fn depth_stencil_line(&mut self, pairs: &[&str]) -> Result<(), String> {
        let pass = self.pass()?;
        let fields = set_fields(vec![0], DEPTH_STENCIL_KEYS, pairs)?;
        pass.depth_stencil = fields[0];
        pass.depth = NO_OPERATIONS;
        pass.stencil = NO_OPERATIONS;
        Ok(())
    }

    /// The depth channel.
    fn depth_line(&mut self, pairs: &[&str]) -> Result<(), String> {
        channel_line(&mut self.pass()?.depth, pairs, depth_bits)
    }

    /// The stencil channel.
    fn stencil_line(&mut self, pairs: &[&str]) -> Result<(), String> {
        channel_line(&mut self.pass()?.stencil, pairs, number)
    }

    /// The next colour slot; it counts unless the pass line gives the colour count.
    fn colour_line(&mut self, pairs: &[&str]) -> Result<(), String> {
        let (at, counted) = (self.slots, self.counted);
        self.slots += 1;
        let pass = self.pass()?;
        let slot = pass.slots.get_mut(at).ok_or("more than eight slots")?;
        let (clear, pairs) = take(pairs, "clear");
        let mut fields = EMPTY_SLOT.fields();
        if pairs.iter().any(|pair| pair.starts_with("slice=")) {
            fields[1] = 1;
        }
        let fields = set_fields(fields, SLOT_KEYS, &pairs)?;
        *slot = Slot::from_fields(&fields);
        if let Some(clear) = clear {
            slot.clear = colour_bits(clear)?;
        }
        if counted {
            pass.colours += 1;
        }
        Ok(())
    }

    /// Repeats the last texture, view or pass.
    fn again_line(&mut self, words: &[&str]) -> Result<(), String> {
        for _ in 0..number(one(words)?)? {
            match self.last {
                Last::Nothing => return Err("nothing to repeat".into()),
                Last::Texture => repeat_last(&mut self.session.textures),
                Last::View => repeat_last(&mut self.views),
                Last::Pass => repeat_last(&mut self.session.passes),
            }
        }
        Ok(())
    }

    /// Header fields that replace the right ones.
    fn header_line(&mut self, pairs: &[&str]) -> Result<(), String> {
        for pair in pairs {
            let (at, value) = key_value(HEADER_KEYS, pair)?;
            self.header.push((at, value));
        }
        Ok(())
    }

    /// Another length of the file.
    fn length_line(&mut self, words: &[&str]) -> Result<(), String> {
        self.length = Some(number(one(words)?)? as usize);
        Ok(())
    }

    /// The file is told as bytes.
    fn raw_line(&mut self, _: &[&str]) -> Result<(), String> {
        self.raw = Some(Vec::new());
        Ok(())
    }

    /// Bytes of a raw file.
    fn bytes_line(&mut self, words: &[&str]) -> Result<(), String> {
        let raw = self.raw.as_mut().ok_or("bytes without raw")?;
        for word in words {
            raw.extend(hexadecimal(word)?);
        }
        Ok(())
    }

    /// A view's row; where its format is not said, it is its texture's.
    fn row(&self, (row, said): &(View, bool)) -> View {
        let format = if *said {
            row.format
        } else {
            texture_format(&self.session, row)
        };
        View { format, ..*row }
    }

    /// The file.
    fn finish(mut self) -> Result<Vec<u8>, String> {
        if let Some(raw) = self.raw {
            return Ok(raw);
        }
        self.session.views = self.views.iter().map(|view| self.row(view)).collect();
        let mut bytes = self.session.to_bytes();
        for (at, value) in self.header {
            bytes[at * FIELD_LEN..(at + 1) * FIELD_LEN].copy_from_slice(&value.to_le_bytes());
        }
        if let Some(length) = self.length {
            bytes.resize(length, 0);
        }
        Ok(bytes)
    }
}

/// The format of a view's texture; 0 where there is no such texture.
fn texture_format(session: &Session, view: &View) -> u32 {
    let texture = session.textures.get(view.texture as usize);
    texture.map_or(0, |texture| texture.format)
}

/// Appends a copy of the last row.
fn repeat_last<R: Copy>(rows: &mut Vec<R>) {
    rows.extend(rows.last().copied());
}

/// The only word of a line.
fn one<'a>(words: &[&'a str]) -> Result<&'a str, String> {
    match words {
        [word] => Ok(word),
        _ => Err("one number is wanted".into()),
    }
}

/// A channel's line; a clear value that is written counts as given.
fn channel_line(
    channel: &mut Channel,
    pairs: &[&str],
    clear_bits: fn(&str) -> Result<u32, String>,
) -> Result<(), String> {
    let (clear, pairs) = take(pairs, "clear");
    let mut fields = NO_OPERATIONS.fields();
    if let Some(clear) = clear {
        fields[3] = 1;
        fields[4] = clear_bits(clear)?;
    }
    *channel = Channel::from_fields(&set_fields(fields, CHANNEL_KEYS, &pairs)?);
    Ok(())
}

/// The value of `key`, if a pair has it, and the other pairs.
fn take<'a>(pairs: &[&'a str], key: &str) -> (Option<&'a str>, Vec<&'a str>) {
    let value = |pair: &'a str| pair.strip_prefix(key)?.strip_prefix('=');
    let found = pairs.iter().find_map(|pair| value(pair));
    let others = pairs.iter().copied().filter(|p| value(p).is_none());
    (found, others.collect())
}

/// A row with the named fields replaced.
fn set<R: Row>(row: &R, keys: &[Key], pairs: &[&str]) -> Result<R, String> {
    Ok(R::from_fields(&set_fields(row.fields(), keys, pairs)?))
}

/// Fields with the named ones replaced.
fn set_fields(mut fields: Vec<u32>, keys: &[Key], pairs: &[&str]) -> Result<Vec<u32>, String> {
    for pair in pairs {
        let (at, value) = key_value(keys, pair)?;
        fields[at] = value;
    }
    Ok(fields)
}

/// The field that a pair names and its value.
fn key_value(keys: &[Key], pair: &str) -> Result<(usize, u32), String> {
    let (key, value) = pair
        .split_once('=')
        .ok_or_else(|| format!("{pair} has no value"))?;
    let at = keys
        .iter()
        .position(|Key(name, _)| *name == key)
        .ok_or_else(|| format!("no such key: {key}"))?;
    Ok((at, read_value(&keys[at].1, value)?))
}

/// The number that a value stands for.
fn read_value(words: &Words, value: &str) -> Result<u32, String> {
    match words {
        Words::Number => number(value),
        Words::Names(kind) => named(kind.words, value),
        Words::Bits(kind) => value
            .split('+')
            .try_fold(0, |bits, word| Ok(bits | named(kind.words, word)?)),
    }
}

/// A number, or the number of a name.
fn named(names: &[(u32, &str)], word: &str) -> Result<u32, String> {
    match names.iter().find(|(_, name)| *name == word) {
        Some((value, _)) => Ok(*value),
        None => number(word),
    }
}

/// A decimal number.
fn number(word: &str) -> Result<u32, String> {
    word.parse().map_err(|_| format!("not a number: {word}"))
}

/// The bits of a depth clear value: `0x` and the bits, or a decimal fraction.
fn depth_bits(word: &str) -> Result<u32, String> {
    match word.strip_prefix("0x") {
        Some(bits) => u32::from_str_radix(bits, 16).map_err(|e| e.to_string()),
        None => word
            .parse()
            .map(f32::to_bits)
            .map_err(|_| format!("not a value: {word}")),
    }
}

/// The bits of a colour: four values parted by commas.
fn colour_bits(word: &str) -> Result<[u64; 4], String> {
    let values: Result<Vec<u64>, String> = word.split(',').map(wide_bits).collect();
    values?
        .try_into()
        .map_err(|_| "a colour has four values".into())
}

/// The bits of one value of a colour.
fn wide_bits(word: &str) -> Result<u64, String> {
    match word.strip_prefix("0x") {
        Some(bits) => u64::from_str_radix(bits, 16).map_err(|e| e.to_string()),
        None => word
            .parse()
            .map(f64::to_bits)
            .map_err(|_| format!("not a value: {word}")),
    }
}

/// The bytes of an even number of hexadecimal digits.
fn hexadecimal(word: &str) -> Result<Vec<u8>, String> {
    if !word.is_ascii() || !word.len().is_multiple_of(2) {
        return Err(format!("not bytes: {word}"));
    }
    (0..word.len() / 2)
        .map(|i| u8::from_str_radix(&word[2 * i..2 * i + 2], 16).map_err(|e| e.to_string()))
        .collect()
}

/// A text that stands for exactly these bytes: rows where they can be told, else `raw`.
pub fn from_bytes(bytes: &[u8]) -> String {
    match Session::decode(bytes).map(|session| rows_text(&session)) {
        Some(text) if to_bytes(&text).as_deref() == Ok(bytes) => text,
        _ => raw_text(bytes),
    }
}

/// Bytes as hexadecimal digits.
fn raw_text(bytes: &[u8]) -> String {
    let mut text = String::from("raw\n");
    for line in bytes.chunks(32) {
        let digits: String = line.iter().map(|byte| format!("{byte:02x}")).collect();
        text += &format!("bytes {digits}\n");
    }
    text
}

/// A session's rows; equal rows that follow one another are written once.
fn rows_text(session: &Session) -> String {
    let fresh = Session::new().header();
    let header = Header {
        max_colours: session.max_colours,
        max_views: session.max_views,
        flags: session.flags,
        colour_bytes: session.colour_bytes,
        ..fresh
    };
    let mut text = format!("session{}\n", pairs(&header, &fresh, HEADER_KEYS));
    text += &repeated(&session.textures, |row| {
        format!("texture{}\n", pairs(row, &PLAIN_TEXTURE, TEXTURE_KEYS))
    });
    text += &repeated(&session.views, |row| {
        let plain = View {
            format: texture_format(session, row),
            ..PLAIN_VIEW
        };
        format!("view{}\n", pairs(row, &plain, VIEW_KEYS))
    });
    text += &repeated(&session.passes, pass_text);
    text
}

/// Each row's text, with `again` for the rows that are equal to the one before.
fn repeated<R: PartialEq>(rows: &[R], text: impl Fn(&R) -> String) -> String {
    rows.chunk_by(|a, b| a == b)
        .map(|run| match run.len() {
            1 => text(&run[0]),
            more => format!("{}again {}\n", text(&run[0]), more - 1),
        })
        .collect()
}

/// The pairs of the fields that differ from the default row.
fn pairs<R: Row>(row: &R, default: &R, keys: &[Key]) -> String {
    field_pairs(&row.fields(), &default.fields(), keys)
}

/// The pairs of the fields that differ from their defaults.
fn field_pairs(fields: &[u32], defaults: &[u32], keys: &[Key]) -> String {
    keys.iter()
        .enumerate()
        .filter(|(i, _)| fields[*i] != defaults[*i])
        .map(|(i, Key(name, words))| format!(" {name}={}", write_value(words, fields[i])))
        .collect()
}

/// A pass and its parts.
fn pass_text(pass: &Pass) -> String {
    let colours = (pass.colours as usize).min(SLOTS);
    let uncounted = if pass.colours as usize > SLOTS {
        pass.colours
    } else {
        0
    };
    let own = [uncounted, pass.mask, pass.ends];
    let mut text = format!("pass{}\n", field_pairs(&own, &[0, 0, 0], PASS_KEYS));
    if pass.depth_stencil != NONE {
        text += &format!("  depth-stencil view={}\n", pass.depth_stencil);
        text += &channel_text("depth", &pass.depth, |bits| {
            write_float(f32::from_bits(bits), f32::is_nan, format!("0x{bits:08x}"))
        });
        text += &channel_text("stencil", &pass.stencil, |value| value.to_string());
    }
    for slot in &pass.slots[..colours] {
        text += &slot_text(slot);
    }
    text
}

/// A channel that has an operation or another field that is not the default.
fn channel_text(name: &str, channel: &Channel, clear: impl Fn(u32) -> String) -> String {
    if *channel == NO_OPERATIONS {
        return String::new();
    }
    let written = channel.clear_given == 1 || channel.clear != 0;
    let mut defaults = NO_OPERATIONS.fields();
    let mut text = format!("  {name}");
    if written {
        defaults[3] = 1;
    }
    text += &field_pairs(&channel.fields(), &defaults, CHANNEL_KEYS);
    if written {
        text += &format!(" clear={}", clear(channel.clear));
    }
    text + "\n"
}

/// A colour slot.
fn slot_text(slot: &Slot) -> String {
    let mut defaults = EMPTY_SLOT.fields();
    if slot.slice_given == 1 || slot.slice != 0 {
        // The slice is written, which counts as given.
        defaults[1] = 1;
        defaults[2] = !slot.slice;
    }
    let mut text = format!(
        "  colour{}",
        field_pairs(&slot.fields(), &defaults, SLOT_KEYS)
    );
    if slot.clear != [0; 4] {
        let values = slot
            .clear
            .map(|bits| write_float(f64::from_bits(bits), f64::is_nan, format!("0x{bits:016x}")));
        text += &format!(" clear={}", values.join(","));
    }
    text + "\n"
}

/// A value as a fraction that reads back to the same bits, or its bits.
fn write_float<F: Copy + std::fmt::Debug>(
    value: F,
    is_nan: impl Fn(F) -> bool,
    bits: String,
) -> String {
    if is_nan(value) {
        bits
    } else {
        format!("{value:?}")
    }
}
