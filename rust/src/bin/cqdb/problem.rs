//! Why a line cannot be put, and the lines that were passed over.
use std::collections::BTreeMap;
use std::fmt;

use cqdb::Refusal;

use crate::alike::{ALIKE, BLANK};
use crate::files;
use crate::lines::OfWindows;
use crate::outcome;

/// Why a line cannot be put.
pub enum Problem {
    Form {
        between: &'static str,
        line: String,
    },
    /// What is wrong with a row or an object, and what it should be.
    Row {
        form: &'static str,
        row: String,
    },
    /// What is wrong with an object of JSON.
    Object {
        what: &'static str,
        line: String,
    },
    /// The data of a record is no id.
    Data(String),
    /// What Windows adds, and whether `--zero` would keep it: lines alone may end with a zero byte, not rows or objects.
    OfWindows(OfWindows, bool),
    /// The id was put before, by the line that is named.
    IdAgain {
        id: u32,
        before: String,
    },
    /// The name was put before, by the line that is named.
    NameAgain {
        name: String,
        before: String,
    },
    /// Nothing of the name is seen.
    Blank(String),
    /// Something of the name is not seen.
    Unseen {
        name: String,
        what: String,
    },
    /// The name looks like another, which was put by the line that is named.
    Alike {
        name: String,
        other: String,
        before: String,
    },
    NoRoom(Size),
    NoMemory(Size),
    /// So many bytes of the image would be for ids without a name, since this one is so large.
    Sparse {
        id: u32,
        size: u64,
        empty: u64,
    },
    Refused(Refusal),
}

impl Problem {
    /// Does it stand in the way of every line?
    pub fn is_final(&self) -> bool {
        matches!(self, Problem::NoMemory(_))
    }

    /// One word or two for the summary.
    fn kind(&self) -> String {
        match self {
            Problem::Form { .. } | Problem::Row { .. } | Problem::Object { .. } | Problem::Data(_) => {
                "of another form".to_string()
            }
            Problem::Blank(_) => "with a blank name".to_string(),
            Problem::Unseen { .. } | Problem::Alike { .. } => "with a name that looks like others".to_string(),
            Problem::OfWindows(OfWindows::CarriageReturn, _) => "with a carriage return".to_string(),
            Problem::OfWindows(..) => "with a byte order mark".to_string(),
            Problem::IdAgain { .. } => "with an id again".to_string(),
            Problem::NameAgain { .. } => format!("refused with {}", Refusal::Repeated.number()),
            Problem::NoRoom(_) => format!("refused with {}", Refusal::NoRoom.number()),
            Problem::NoMemory(_) | Problem::Sparse { .. } => "too large".to_string(),
            Problem::Refused(refusal) => format!("refused with {}", refusal.number()),
        }
    }
}

/// How large an image would be, and why. The largest id is none where the image is one-way.
pub struct Size {
    pub bytes: u64,
    pub largest: Option<u32>,
}

impl fmt::Display for Size {
    fn fmt(&self, f: &mut fmt::Formatter<'_>) -> fmt::Result {
        write!(f, "{} bytes", self.bytes)?;
        self.largest.map_or(Ok(()), |largest| write!(f, ", for ids up to {largest}"))
    }
}

impl fmt::Display for Problem {
    fn fmt(&self, f: &mut fmt::Formatter<'_>) -> fmt::Result {
        match self {
            Problem::Form { between, line } => {
                write!(f, "not a decimal id up to 4294967295, a {between} and a name: {line}")
            }
            Problem::Row { form, row } => write!(f, "not {form}: {row}"),
            Problem::Object { what, line } => write!(f, "not an object with an id and a name, but {what}: {line}"),
            Problem::Data(data) => write!(f, "the data {data} is no decimal id up to 4294967295"),
            Problem::OfWindows(what @ OfWindows::CarriageReturn, true) => write!(f, "{what}, --zero keeps it"),
            Problem::OfWindows(what, _) => what.fmt(f),
            Problem::IdAgain { id, before } => {
                write!(f, "id {id} was put by {before}: --renamed takes the later name")
            }
            Problem::NameAgain { name, before } => {
                let refusal = files::refusal_in_words(Refusal::Repeated);
                write!(f, "{refusal}: {name} is in {before}; --repeats takes it")
            }
            Problem::Blank(name) => write!(f, "the name {name} is blank: {} takes it", BLANK.long),
            Problem::Unseen { name, what } => {
                write!(f, "the name {name} has {what}, so it looks like another: {} takes it", ALIKE.long)
            }
            Problem::Alike { name, other, before } => {
                let option = ALIKE.long;
                write!(f, "the name {name} looks like {other} of {before}: {option} takes it")
            }
            Problem::NoRoom(size) => write!(f, "{}: {size}", files::refusal_in_words(Refusal::NoRoom)),
            Problem::NoMemory(size) => write!(f, "not enough memory for an image of {size}"),
            Problem::Sparse { id, size, empty } => {
                write!(
                    f,
                    "id {id} makes an image of {size} bytes, {empty} of them for ids without a name: --sparse takes it"
                )
            }
            Problem::Refused(refusal) => f.write_str(&files::refusal_in_words(*refusal)),
        }
    }
}

/// Messages of this many skipped lines are shown.
const SHOWN: u64 = 10;

/// The lines that were passed over.
#[derive(Default)]
pub struct Skipped {
    pub lines: u64,
    kinds: BTreeMap<String, u64>,
}

impl Skipped {
    pub fn one_more(&mut self, problem: &Problem, what: &str) {
        self.lines += 1;
        *self.kinds.entry(problem.kind()).or_default() += 1;
        if self.lines <= SHOWN {
            outcome::tell(&format!("make: skipped: {what}"));
        }
    }

    pub fn summary(&self) {
        if self.lines == 0 {
            return;
        }
        let kinds: Vec<String> = self.kinds.iter().map(|(kind, lines)| format!("{lines} {kind}")).collect();
        let lines = outcome::count(self.lines, "line", "lines");
        outcome::tell(&format!("make: {lines} skipped: {}", kinds.join(", ")));
    }
}
