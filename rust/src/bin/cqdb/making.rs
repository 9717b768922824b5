//! The image that grows while `cqdb make` reads its list.
use std::collections::HashMap;

use cqdb::{jhash, Flag, MemoryWriter, Refusal};

use crate::alike::{self, Names, ALIKE, BLANK};
use crate::args::{Args, Opt};
use crate::files;
use crate::lines;
use crate::outcome::Failure;
use crate::problem::{Problem, Size};
use crate::quadratic;

pub const ONE_WAY: Opt = Opt::plain("--one-way", "names to ids alone: the array that names ids is left out");
pub const RENAMED: Opt = Opt::plain("--renamed", "take an id that was put before: its later name is meant");
pub const REPEATS: Opt = Opt::plain("--repeats", "take a name that was put before, as of a renewed prism");
pub const SPARSE: Opt = Opt::plain("--sparse", "an image with more than 64 MB for ids without a name is meant");

/// The bytes of the back array that may be for ids without a name.
const EMPTY: u64 = 64 << 20;
/// The size of the largest image.
const LIMIT: u64 = u32::MAX as u64;

pub struct Making {
    writer: MemoryWriter,
    options: Options,
    unit: &'static str,
    /// The line of each put that was accepted.
    lines: Vec<u64>,
    /// The place of the first put of each id among them.
    places: HashMap<u32, u32>,
    /// How many puts have each hash, where names may repeat.
    hashes: HashMap<u32, u32>,
    /// The names, where none may look like another.
    names: Option<Names>,
    /// The size of the finished image after the puts so far; none before the first.
    size: u64,
    /// The largest id, and the line that put it first.
    largest: Option<(u32, u64)>,
}

struct Options {
    blank: bool,
    one_way: bool,
    renamed: bool,
    repeats: bool,
    sparse: bool,
}

impl Making {
    /// `unit` is what the list consists of, lines or records.
    pub fn new(args: &Args, unit: &'static str) -> Making {
        let options = Options {
            blank: args.has(&BLANK),
            one_way: args.has(&ONE_WAY),
            renamed: args.has(&RENAMED),
            repeats: args.has(&REPEATS),
            sparse: args.has(&SPARSE),
        };
        let flag = if options.one_way { Flag::ONEWAY } else { Flag::NONE };
        let writer = if options.repeats { MemoryWriter::with_repeats(flag) } else { MemoryWriter::with_flag(flag) };
        Making {
            writer,
            options,
            unit,
            lines: Vec::new(),
            places: HashMap::new(),
            hashes: HashMap::new(),
            names: (!args.has(&ALIKE)).then(Names::default),
            size: 0,
            largest: None,
        }
    }

    /// The number of puts that were accepted.
    pub fn entries(&self) -> u64 {
        self.lines.len() as u64
    }

    /// Puts a name under an id.
    pub fn put(&mut self, number: u64, id: u32, name: &[u8]) -> Result<(), Problem> {
        match self.places.get(&id) {
            Some(place) if !self.options.renamed => {
                return Err(Problem::IdAgain { id, before: self.line(*place) });
            }
            _ => {}
        }
        let look = self.can_be_told(name)?;
        let size = self.writer.size_with(name.len(), id);
        let largest = self.largest.filter(|(largest, _)| *largest >= id).unwrap_or((id, number));
        let room = self.lines.try_reserve(1).is_ok()
            && self.places.try_reserve(1).is_ok()
            && self.hashes.try_reserve(1).is_ok()
            && self.names.as_mut().map_or(true, |names| names.reserve(name));
        let put = if room { self.writer.put(name, id) } else { Err(Refusal::NoRoom) };
        let whole = Size { bytes: size, largest: (!self.options.one_way).then_some(largest.0) };
        put.map_err(|refusal| match refusal {
            Refusal::NoRoom if whole.bytes > LIMIT => Problem::NoRoom(whole),
            // The archive would take it.
            Refusal::NoRoom | Refusal::IndexFull => Problem::NoMemory(whole),
            Refusal::Repeated => self.name_again(name),
            refusal => Problem::Refused(refusal),
        })?;
        self.places.entry(id).or_insert(self.lines.len() as u32);
        if self.options.repeats {
            *self.hashes.entry(jhash(name, 0).unwrap_or(0)).or_default() += 1;
        }
        if let (Some(names), Some(look)) = (&mut self.names, look) {
            names.push(look, name);
        }
        self.lines.push(number);
        (self.size, self.largest) = (size, Some(largest));
        Ok(())
    }

    /// Can people tell the name from others? Gives the number of its look, where that is asked. A name with a zero byte is
    /// left to the put, which refuses it.
    fn can_be_told(&self, name: &[u8]) -> Result<Option<u64>, Problem> {
        if name.contains(&0) {
            return Ok(None);
        }
        let blank = alike::is_blank(name);
        if blank && !self.options.blank {
            return Err(Problem::Blank(lines::shown(name)));
        }
        let Some(names) = &self.names else { return Ok(None) };
        if let Some(what) = alike::unseen(name).filter(|_| !blank) {
            return Err(Problem::Unseen { name: lines::shown(name), what });
        }
        let look = names.number(name);
        let Some(place) = names.place_alike(look, name) else { return Ok(Some(look)) };
        let (name, other) = (lines::shown(name), lines::shown(names.name(place)));
        Err(Problem::Alike { name, other, before: self.line(place) })
    }

    fn name_again(&self, name: &[u8]) -> Problem {
        match self.writer.place_of(name) {
            Some(place) => Problem::NameAgain { name: lines::shown(name), before: self.line(place) },
            None => Problem::Refused(Refusal::Repeated),
        }
    }

    /// The line of an accepted put, in words.
    fn line(&self, place: u32) -> String {
        format!("{} {}", self.unit, self.lines[place as usize])
    }

    /// The line whose id leaves too many ids without a name, where that was not asked for. The array that names the ids has four
    /// bytes for each.
    pub fn sparse(&self) -> Option<(u64, Problem)> {
        let (id, line) = self.largest.filter(|_| !self.options.sparse && !self.options.one_way)?;
        let empty = 4 * (u64::from(id) + 1).saturating_sub(self.places.len() as u64);
        (empty > EMPTY).then_some((line, Problem::Sparse { id, size: self.size, empty }))
    }

    /// The finished image.
    pub fn finish(self) -> Result<Vec<u8>, Failure> {
        quadratic::tell("make", self.hashes.values().max().map_or(0, |most| u64::from(*most)));
        self.writer.finish().map_err(files::refused)
    }
}
