//! `cqdb diff`: what two images, or the images of two bundles, say differently.
use std::collections::{BTreeMap, BTreeSet};

use cqdb::{MemoryWriter, CQDB};

use crate::args::{Args, Command, Opt, ALL, ZERO};
use crate::difference::{Counts, IdChange, NameChange, Pair};
use crate::files::{self, Source};
use crate::json::{self, JSON};
use crate::list;
use crate::outcome::{Failure, Outcome, Output};
use crate::quadratic;

const ANY: Opt = Opt::plain("--any", "compare images too that are one-way or not canonical, as far as they go");
const SWAPPED: Opt = Opt::plain("--swapped", "only the ids and names whose old name or id is another's now");

pub const COMMAND: Command = Command {
    name: "diff",
    usage: "[OPTION].. OLD NEW",
    summary: "print what two images say differently",
    text: "
Prints, in rising order, the ids that the image NEW names otherwise than the image
OLD: a line '- ID NAME' with the old name, where there was one, and a line
'+ ID NAME' with the new one, where there is one. A line with '>' says where the
old name is now:

  > NAME is now ID              'cqdb id' gives this ID for it, and gave another
  > NAME is still ID            'cqdb id' gives this ID for it, as before
  > NAME is now the name of ID  'cqdb name' gives it for this ID, and 'cqdb id' does
                                not give the ID for it

The names whose id is another follow, where no line above tells of it, as with
names that were put again: '> NAME was ID and is now ID', '> NAME was ID and is
gone', '> NAME is new for ID'. The last line begins with '=' and says how many ids
and names were compared, changed, new and gone. --swapped leaves out those that
are new, gone or renamed alone: what is left may be two prisms that have each
other's names.

The exit status is 0 where no id and no name differs, so that 'cqdb name' and
'cqdb id' answer alike; 1 where one does; with --swapped, where such a line is
printed. An image that is not canonical may have names that no id has, and a one-way
image names no ids; both are refused, unless --any is said. Then names that cannot
be listed are not compared, and the exit status is 2 where nothing else differs.

With --all OLD and NEW are bundles, whose images are compared by their positions; the
position comes first in each line. An image that only one of them has is told.
",
    options: &[ALL, ANY, JSON, SWAPPED, ZERO],
    operands: (2, 2),
    run,
};

fn run(args: Args) -> Outcome {
    args.not_both(&[&JSON, &ZERO])?;
    let (old, new) = (Source::open(args.path(0))?, Source::open(args.path(1))?);
    let mut printing = Printing { args: &args, out: Output::new(), position: None };
    let alike = if args.has(&ALL) {
        bundles(&mut printing, by_position(&old)?, by_position(&new)?)?
    } else {
        compared(&mut printing, &(old.image()?, old.name()), &(new.image()?, new.name()))?
    };
    printing.out.flush()?;
    [&old, &new].into_iter().try_for_each(Source::has_stayed)?;
    Ok(alike.into())
}

/// Compares images by position. One that is not there is compared as an empty one, and told.
fn bundles(printing: &mut Printing, old: Positions, new: Positions) -> Result<bool, Failure> {
    let empty = MemoryWriter::new().finish().map_err(files::refused)?;
    let empty = CQDB::new(&empty).map_err(|error| Failure::new(files::in_words(&error)))?;
    let absent = (empty, "an image that is not there".to_string());
    let mut images = Counts::default();
    let positions: BTreeSet<u64> = old.keys().chain(new.keys()).copied().collect();
    for position in positions {
        let (before, after) = (old.get(&position), new.get(&position));
        printing.position = Some(position);
        printing.image(before.is_some(), after.is_some())?;
        let alike = compared(printing, before.unwrap_or(&absent), after.unwrap_or(&absent))?;
        images.note(before.is_some(), after.is_some(), alike);
    }
    printing.position = None;
    printing.images(&images)?;
    Ok(!images.differ())
}

/// An image, and what messages call it.
type Named<'a> = (CQDB<'a>, String);
type Positions<'a> = BTreeMap<u64, Named<'a>>;

fn by_position(source: &Source) -> Result<Positions<'_>, Failure> {
    let name = source.name();
    let named = |(position, db)| (position, (db, format!("{name}:{position}")));
    Ok(source.images()?.into_iter().map(named).collect())
}

/// Prints what two images say differently. Do they say the same?
fn compared(printing: &mut Printing, old: &Named, new: &Named) -> Result<bool, Failure> {
    quadratic::tell_of(&old.0, COMMAND.name);
    quadratic::tell_of(&new.0, COMMAND.name);
    let pair = Pair::new(old.0, new.0);
    let [old_canonical, new_canonical] = pair.canonical();
    if !printing.args.has(&ANY) {
        both_ways(old, old_canonical)?;
        both_ways(new, new_canonical)?;
    }
    let alike = print(printing, &pair)?;
    let unknown = [(old_canonical, old), (new_canonical, new)].into_iter().find(|(canonical, _)| !canonical);
    match unknown {
        Some((_, (_, name))) if alike && old.0.bytes() != new.0.bytes() => {
            printing.out.flush()?;
            let what = "is not canonical, so names that no id has were not compared, and no other difference was found";
            Err(Failure::new(format!("{name} {what}")))
        }
        _ => Ok(alike),
    }
}

/// Prints what was found. Was nothing that was asked for?
fn print(printing: &mut Printing, pair: &Pair) -> Result<bool, Failure> {
    let swapped = printing.args.has(&SWAPPED);
    let mut printed = false;
    let ids = pair.ids(|change| match !swapped || change.is_swap() {
        true => {
            printed = true;
            printing.id(&change)
        }
        false => Ok(()),
    })?;
    let names = pair.names(|change| match !swapped || change.is_swap() {
        true => {
            printed = true;
            printing.name(&change)
        }
        false => Ok(()),
    })?;
    printing.counts(&ids, &names)?;
    Ok(!printed)
}

/// Fails where an image cannot be compared both ways.
fn both_ways((db, name): &Named, canonical: bool) -> Result<(), Failure> {
    let what = match (canonical, list::names_none(db)) {
        (false, _) => "is not canonical: it may have names that no id has; --any compares the others",
        (true, true) => "is one-way: it names no ids; --any compares the ids of its names",
        (true, false) => return Ok(()),
    };
    Err(Failure::new(format!("{name} {what}")))
}

/// A part of a line: the tool's own words, or a name.
enum Part<'a> {
    Own(&'a str),
    Name(&'a [u8]),
}

struct Printing<'a> {
    args: &'a Args,
    out: Output,
    /// Of the images in their bundles.
    position: Option<u64>,
}

impl Printing<'_> {
    fn is_json(&self) -> bool {
        self.args.has(&JSON)
    }

    /// A line of parts, behind the position.
    fn line(&mut self, parts: &[Part]) -> Result<(), Failure> {
        if let Some(position) = self.position {
            self.out.bytes(format!("{position} ").as_bytes())?;
        }
        for part in parts {
            match part {
                Part::Own(text) => self.out.bytes(text.as_bytes())?,
                Part::Name(name) => {
                    self.one_line(name)?;
                    self.out.name(name)?;
                }
            }
        }
        self.out.bytes(&[self.args.end()])
    }

    /// A name that holds the byte that ends a line would be read as two.
    fn one_line(&self, name: &[u8]) -> Result<(), Failure> {
        if !name.contains(&self.args.end()) {
            return Ok(());
        }
        let what =
            if self.args.has(&ZERO) { "a zero byte: leave --zero out" } else { "a line feed: say --zero or --json" };
        Err(Failure::new(format!("the name {} has {what}", crate::lines::shown(name))))
    }

    fn id(&mut self, change: &IdChange) -> Result<(), Failure> {
        if self.is_json() {
            return self.id_object(change);
        }
        let id = change.id;
        for (sign, name) in [("-", change.before), ("+", change.after)] {
            if let Some(name) = name {
                self.line(&[Part::Own(&format!("{sign} {id} ")), Part::Name(name)])?;
            }
        }
        let Some(name) = change.before else { return Ok(()) };
        if let Some(now) = change.now {
            let word = if change.was == change.now { "still" } else { "now" };
            self.line(&[Part::Own("> "), Part::Name(name), Part::Own(&format!(" is {word} {now}"))])?;
        }
        match change.now_name_of {
            Some(other) if change.now != Some(other) => {
                self.line(&[Part::Own("> "), Part::Name(name), Part::Own(&format!(" is now the name of {other}"))])
            }
            _ => Ok(()),
        }
    }

    fn id_object(&mut self, change: &IdChange) -> Result<(), Failure> {
        self.begin_object()?;
        self.out.bytes(format!("\"id\":{},", change.id).as_bytes())?;
        json::print(&mut self.out, "old", "old_hex", change.before)?;
        self.out.bytes(b",")?;
        json::print(&mut self.out, "new", "new_hex", change.after)?;
        let [was, now, name_of] = [change.was, change.now, change.now_name_of].map(number);
        self.out.bytes(format!(",\"was\":{was},\"now\":{now},\"now_name_of\":{name_of}}}\n").as_bytes())
    }

    fn name(&mut self, change: &NameChange) -> Result<(), Failure> {
        if self.is_json() {
            self.begin_object()?;
            json::print(&mut self.out, "name", "hex", Some(change.name))?;
            let (old, new) = (number(change.before), number(change.after));
            return self.out.bytes(format!(",\"old\":{old},\"new\":{new}}}\n").as_bytes());
        }
        if change.told {
            return Ok(());
        }
        let what = match (change.before, change.after) {
            (Some(before), Some(after)) => format!(" was {before} and is now {after}"),
            (Some(before), None) => format!(" was {before} and is gone"),
            (None, after) => format!(" is new for {}", after.map_or(String::new(), |id| id.to_string())),
        };
        self.line(&[Part::Own("> "), Part::Name(change.name), Part::Own(&what)])
    }

    /// Tells of an image that only one bundle has.
    fn image(&mut self, before: bool, after: bool) -> Result<(), Failure> {
        let (sign, what) = match (before, after) {
            (true, false) => ("-", "gone"),
            (false, true) => ("+", "new"),
            _ => return Ok(()),
        };
        if self.is_json() {
            self.begin_object()?;
            return self.out.bytes(format!("\"image\":\"{what}\"}}\n").as_bytes());
        }
        self.line(&[Part::Own(&format!("{sign} image"))])
    }

    fn counts(&mut self, ids: &Counts, names: &Counts) -> Result<(), Failure> {
        if self.is_json() {
            self.begin_object()?;
            let line = format!("\"ids\":{},\"names\":{}}}\n", counts_object(ids), counts_object(names));
            return self.out.bytes(line.as_bytes());
        }
        self.line(&[Part::Own(&format!("= ids {}; names {}", counts_words(ids), counts_words(names)))])
    }

    fn images(&mut self, images: &Counts) -> Result<(), Failure> {
        if self.is_json() {
            return self.out.bytes(format!("{{\"images\":{}}}\n", counts_object(images)).as_bytes());
        }
        self.line(&[Part::Own(&format!("= images {}", counts_words(images)))])
    }

    fn begin_object(&mut self) -> Result<(), Failure> {
        self.out.bytes(b"{")?;
        match self.position {
            Some(position) => self.out.bytes(format!("\"position\":{position},").as_bytes()),
            None => Ok(()),
        }
    }
}

fn number(number: Option<u32>) -> String {
    number.map_or("null".to_string(), |number| number.to_string())
}

fn counts_words(counts: &Counts) -> String {
    let Counts { compared, changed, new, gone } = counts;
    format!("{compared} compared, {changed} changed, {new} new, {gone} gone")
}

fn counts_object(counts: &Counts) -> String {
    let Counts { compared, changed, new, gone } = counts;
    format!("{{\"compared\":{compared},\"changed\":{changed},\"new\":{new},\"gone\":{gone}}}")
}
