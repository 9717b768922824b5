//! The forms in which answers are printed.
use std::os::unix::ffi::OsStrExt;

use crate::args::{Args, Opt, ALL, TAB};
use crate::cdb::CDB;
use crate::csv::{self, CSV};
use crate::json::{self, JSON};
use crate::lines;
use crate::outcome::{Failure, Output};
use crate::tsv::{self, TSV};

pub const QUIET: Opt =
    Opt { short: Some(b'q'), ..Opt::plain("--quiet", "the bare value, and no messages on what is not found") };
pub const MISSING: Opt =
    Opt::with_value("--missing", "TEXT", "stands for a value that is not found, in place of nothing");

/// An id and its name, as an image gives them.
#[derive(Clone, Copy)]
pub struct Row<'a> {
    pub id: Option<u32>,
    pub name: Option<&'a [u8]>,
}

/// Which part of a row is the value that was asked for.
#[derive(Clone, Copy, PartialEq, Eq)]
pub enum Value {
    Id,
    Name,
}

/// The form of all answers of a command.
pub struct Form<'a> {
    layout: Layout,
    value: Value,
    positions: bool,
    missing: &'a [u8],
    between: u8,
    end: u8,
    /// The options that keep a line feed of a name.
    keeping: &'static str,
}

#[derive(Clone, Copy, PartialEq, Eq)]
enum Layout {
    Line,
    Bare,
    Csv,
    Tsv,
    Json,
}

impl<'a> Form<'a> {
    pub fn new(args: &'a Args, value: Value) -> Result<Form<'a>, Failure> {
        args.not_both(&[&CSV, &JSON, &TSV, &TAB])?;
        args.not_both(&[&CSV, &JSON, &TSV, &QUIET])?;
        args.not_both(&[&JSON, &MISSING])?;
        let layouts = [(&CSV, Layout::Csv), (&JSON, Layout::Json), (&TSV, Layout::Tsv), (&QUIET, Layout::Bare)];
        let layout =
            layouts.into_iter().find(|(option, _)| args.has(option)).map_or(Layout::Line, |(_, layout)| layout);
        let (between, end) = match layout {
            Layout::Csv => (b',', b'\n'),
            Layout::Tsv => (b'\t', b'\n'),
            Layout::Json => (b' ', b'\n'),
            _ => (args.between(), args.end()),
        };
        let missing = args.value(&MISSING).map_or(&b""[..], |text| text.as_bytes());
        // The records of cdb have no place for the position of an image.
        let keeping = match args.knows(&CDB) && !args.has(&ALL) {
            true => "--zero, --csv, --tsv, --json or --cdb",
            false => "--zero, --csv, --tsv or --json",
        };
        Ok(Form { layout, value, positions: args.has(&ALL), missing, between, end, keeping })
    }

    /// Prints the line of an answer. The position is that of the image in its bundle; `word` is the question where it
    /// is no id. Names are not copied, since one may be as large as its image.
    pub fn print(&self, out: &mut Output, position: Option<u64>, row: Row, word: Option<&[u8]>) -> Result<(), Failure> {
        if self.layout == Layout::Json {
            return self.json(out, position, row, word);
        }
        let (position, id) = (position.map(|number| number.to_string()), row.id.map(|id| id.to_string()));
        let or_missing =
            |number: &'_ Option<String>| number.as_deref().map(str::as_bytes).unwrap_or(self.missing).to_vec();
        let (position, id) = (or_missing(&position), word.map_or_else(|| or_missing(&id), <[u8]>::to_vec));
        let name = row.name.unwrap_or(self.missing);
        let bare = self.layout == Layout::Bare;
        let fields = [
            (self.positions, &position[..]),
            (!bare || self.value == Value::Id, &id[..]),
            (!bare || self.value == Value::Name, name),
        ];
        let fields = fields.into_iter().filter(|(printed, _)| *printed).map(|(_, field)| field);
        if !matches!(self.layout, Layout::Csv | Layout::Tsv) {
            if let Some(field) = fields.clone().find(|field| field.contains(&self.end)) {
                return Err(self.two_lines(row.id, field));
            }
        }
        for (at, field) in fields.enumerate() {
            if at > 0 {
                out.bytes(&[self.between])?;
            }
            match self.layout {
                Layout::Csv => csv::print(out, field)?,
                Layout::Tsv => tsv::print(out, field)?,
                _ => out.name(field)?,
            }
        }
        out.bytes(&[self.end])
    }

    /// A name that holds the byte that ends a line would be read as two.
    fn two_lines(&self, id: Option<u32>, field: &[u8]) -> Failure {
        let whose = id.map_or(lines::shown(field), |id| format!("the name of id {id}"));
        match self.end {
            0 => Failure::new(format!("{whose} has a zero byte: leave --zero out")),
            _ => Failure::new(format!("{whose} has a line feed: say {}", self.keeping)),
        }
    }

    fn json(&self, out: &mut Output, position: Option<u64>, row: Row, word: Option<&[u8]>) -> Result<(), Failure> {
        let number = |number: Option<u64>| number.map_or("null".to_string(), |number| number.to_string());
        out.bytes(b"{")?;
        if self.positions {
            out.bytes(format!("\"position\":{},", number(position)).as_bytes())?;
        }
        if let Some(word) = word {
            out.bytes(b"\"question\":")?;
            json::quoted(out, word)?;
            out.bytes(b",")?;
        }
        out.bytes(format!("\"id\":{},", number(row.id.map(u64::from))).as_bytes())?;
        json::print(out, "name", "hex", row.name)?;
        out.bytes(b"}\n")
    }
}
