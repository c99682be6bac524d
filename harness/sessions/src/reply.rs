//! What a session is answered: the record that the oracle and the model both fill,
//! its printed form, and the comparison of two of them.

use std::fmt::{self, Display};

use crate::reader;
use crate::rows::Texture;
use crate::volumes::without_volumes;

/// A surface: texture, mip and layer, or slice of a 3D texture. The other of the two is 0.
#[derive(Clone, Copy, Debug, Default, PartialEq, Eq, Hash, PartialOrd, Ord)]
pub struct Surface {
    pub texture: u32,
    pub mip: u32,
    pub layer: u32,
    pub slice: u32,
}

/// What an action asks of its range.
#[derive(Clone, Copy, Debug, PartialEq, Eq)]
pub enum Kind {
    /// The memory must be initialised before the buffer runs.
    Needing,
    /// The buffer itself initialises the memory.
    Implicit,
}

/// An entry of the action list: a range of surfaces of one texture, all of one slice.
#[derive(Clone, Copy, Debug, PartialEq, Eq)]
pub struct Action {
    pub kind: Kind,
    pub texture: u32,
    pub mips: (u32, u32),
    pub layers: (u32, u32),
    pub slice: u32,
}

/// Operation bits of an attachment; a resolve target has none.
pub mod operations {
    pub const LOAD: u32 = 1;
    pub const CLEAR: u32 = 2;
    pub const DONT_CARE: u32 = 4;
    pub const STORE: u32 = 8;
    pub const DISCARD: u32 = 16;
}

/// Usages of an attachment.
pub mod usages {
    pub const COLOR_TARGET: u32 = 1;
    pub const DEPTH_STENCIL_READ: u32 = 2;
    pub const DEPTH_STENCIL_READ_RESOURCE: u32 = 3;
    pub const DEPTH_STENCIL_WRITE: u32 = 4;
}

/// What an attachment does, with its clear value as bits; zero where nothing is cleared.
#[derive(Clone, Copy, Debug, PartialEq, Eq)]
pub enum Part {
    DepthStencil {
        depth: u32,
        stencil: u32,
        clear_depth: u32,
        clear_stencil: u32,
    },
    Colour {
        operations: u32,
        clear: [u64; 4],
    },
    Resolve,
}

/// An attachment of an accepted pass.
#[derive(Clone, Copy, Debug, PartialEq, Eq)]
pub struct Attachment {
    pub view: u32,
    pub usage: u32,
    pub part: Part,
}

/// The divergent aspect of a pass.
pub mod aspects {
    pub const NONE: u32 = 0;
    pub const DEPTH: u32 = 1;
    pub const STENCIL: u32 = 2;
}

/// The reply to one pass. A place is absent where its source does not tell it.
#[derive(Clone, Debug, PartialEq, Eq)]
pub struct Reply {
    pub refusal: u32,
    pub place: Option<u32>,
    pub earlier: Option<u32>,
    pub width: u32,
    pub height: u32,
    pub samples: u32,
    pub depth_read_only: bool,
    pub stencil_read_only: bool,
    pub divergent: u32,
    pub attachments: Vec<Attachment>,
    pub clears: Vec<Surface>,
}

impl Reply {
    /// The reply to a refused pass.
    pub fn refused(refusal: u32, place: Option<u32>, earlier: Option<u32>) -> Reply {
        Reply {
            refusal,
            place,
            earlier,
            width: 0,
            height: 0,
            samples: 0,
            depth_read_only: false,
            stencil_read_only: false,
            divergent: aspects::NONE,
            attachments: Vec::new(),
            clears: Vec::new(),
        }
    }

    /// Whether document 01 withholds the pass from the comparison with the Rust.
    pub fn withheld(&self) -> bool {
        matches!(self.refusal, 5 | 48 | 49 | 50)
    }
}

/// The discard list and the action list.
#[derive(Clone, Debug, Default, PartialEq, Eq)]
pub struct Lists {
    pub discards: Vec<Surface>,
    pub actions: Vec<Action>,
}

/// A pass, its reply and the lists that it leaves, before any submission.
#[derive(Clone, Debug, PartialEq, Eq)]
pub struct Judged {
    pub pass: usize,
    pub reply: Reply,
    pub lists: Lists,
    /// The status bytes of every surface, where a submission follows the pass.
    pub submitted: Option<Vec<u8>>,
}

/// The answer to a whole session: a row a pass, or the number that refuses it.
pub type Answer = Result<Vec<Judged>, u32>;

/// The lines that `deskcheck` prints.
pub fn deskcheck_lines(answer: &Answer) -> String {
    match answer {
        Err(number) => format!("session {number}\n"),
        Ok(rows) => rows.iter().map(deskcheck_line).collect(),
    }
}

/// One line of `deskcheck`; a place that is not told is printed as `-`.
fn deskcheck_line(row: &Judged) -> String {
    let r = &row.reply;
    format!(
        "{} {} {} {} {} {} {} {} {}\n",
        row.pass,
        r.refusal,
        told(r.place),
        told(r.earlier),
        r.width,
        r.height,
        r.samples,
        r.clears.len(),
        row.lists.discards.len()
    )
}

/// A place as printed.
fn told(place: Option<u32>) -> String {
    place.map_or("-".to_string(), |p| p.to_string())
}

/// Every field of an answer as text.
pub fn full_text(answer: &Answer) -> String {
    match answer {
        Err(number) => format!("session {number}\n"),
        Ok(rows) => rows.iter().map(Judged::to_string).collect(),
    }
}

impl Display for Surface {
    fn fmt(&self, f: &mut fmt::Formatter) -> fmt::Result {
        let Surface {
            texture,
            mip,
            layer,
            slice,
        } = self;
        write!(f, "({texture} {mip} {layer} {slice})")
    }
}

impl Display for Action {
    fn fmt(&self, f: &mut fmt::Formatter) -> fmt::Result {
        let kind = match self.kind {
            Kind::Needing => "needing",
            Kind::Implicit => "implicit",
        };
        let (mips, layers) = (self.mips, self.layers);
        write!(
            f,
            "({kind} {} {}..{} {}..{} {})",
            self.texture, mips.0, mips.1, layers.0, layers.1, self.slice
        )
    }
}

impl Display for Attachment {
    fn fmt(&self, f: &mut fmt::Formatter) -> fmt::Result {
        write!(f, "  attachment view {} usage {} ", self.view, self.usage)?;
        match self.part {
            Part::Resolve => write!(f, "operations 0"),
            Part::Colour {
                operations,
                clear: [r, g, b, a],
            } => write!(
                f,
                "operations {operations} clear {r:016x} {g:016x} {b:016x} {a:016x}"
            ),
            Part::DepthStencil {
                depth,
                stencil,
                clear_depth,
                clear_stencil,
            } => write!(
                f,
                "depth {depth} stencil {stencil} clear {clear_depth:08x} {clear_stencil}"
            ),
        }
    }
}

impl Display for Judged {
    fn fmt(&self, f: &mut fmt::Formatter) -> fmt::Result {
        let r = &self.reply;
        let comparable = if r.withheld() { " (withheld)" } else { "" };
        writeln!(
            f,
            "pass {} refusal {}{comparable} place {} earlier {}",
            self.pass,
            r.refusal,
            told(r.place),
            told(r.earlier)
        )?;
        if r.refusal == 0 {
            writeln!(f, "  extent {} {} samples {}", r.width, r.height, r.samples)?;
            writeln!(
                f,
                "  read-only {} {} divergent {}",
                r.depth_read_only as u32, r.stencil_read_only as u32, r.divergent
            )?;
            for attachment in &r.attachments {
                writeln!(f, "{attachment}")?;
            }
            writeln!(f, "  clears{}", spaced(&r.clears))?;
        }
        writeln!(f, "  discards{}", spaced(&self.lists.discards))?;
        writeln!(f, "  actions{}", spaced(&self.lists.actions))?;
        match &self.submitted {
            None => Ok(()),
            Some(status) => writeln!(f, "submission\n  status{}", spaced(status)),
        }
    }
}

/// Entries, each after a space.
fn spaced<T: Display>(entries: &[T]) -> String {
    entries.iter().map(|entry| format!(" {entry}")).collect()
}

/// The first difference between what the Rust tells of a file and what the model says, if any.
/// A place that the Rust does not tell is not compared, nor what names a 3D texture.
pub fn first_difference(file: &[u8], rust: &Answer, model: &Answer) -> Option<String> {
    match (rust, model) {
        (Ok(rust), Ok(model)) => {
            if rust.len() != model.len() {
                return Some(format!("{} passes, {} passes", rust.len(), model.len()));
            }
            let textures = textures(file);
            let compared = |row: &Judged| without_volumes(row, &textures);
            rust.iter()
                .zip(model)
                .find(|(r, m)| compared(&fill_places(r, m)) != compared(m))
                .map(|(r, m)| format!("the Rust:\n{r}the model:\n{m}"))
        }
        (Err(rust), Err(model)) if rust == model => None,
        _ => Some(format!(
            "the Rust:\n{}the model:\n{}",
            full_text(rust),
            full_text(model)
        )),
    }
}

/// The textures of a file; none of one that is refused.
fn textures(file: &[u8]) -> Vec<Texture> {
    reader::read(file).map_or(Vec::new(), |session| session.textures)
}

/// The Rust's row with the places that it does not tell taken from the model's.
fn fill_places(rust: &Judged, model: &Judged) -> Judged {
    let mut filled = rust.clone();
    filled.reply.place = rust.reply.place.or(model.reply.place);
    filled.reply.earlier = rust.reply.earlier.or(model.reply.earlier);
    filled
}
