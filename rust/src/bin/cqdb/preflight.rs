//! `cqdb preflight`: may this report leave? Reads the files, asks the library and prints its answer.
use std::path::Path;

use cqdb::{Date, Pair, PreflightDates, Report, Sheet, CQDB};

use crate::args::{Args, Command, Opt, WINDOWS};
use crate::asked::{Answers, Asked, Said, NONE_SIGHTED};
use crate::dates::{self, Windows};
use crate::json::JSON;
use crate::memory::Kept;
use crate::outcome::{Failure, Outcome, Output};
use crate::{lines, order, positions};

pub const ACCEPT: Opt = Opt::with_value("--accept", "IDS", "ids whose rename is intended, one to a line");
const ALL: Opt = Opt::plain("--all", "ask of every image of two bundles, position by position");
pub const DATE: Opt = Opt::with_value("--date", "DATE", "the date of the report, as 2024-03-31");
pub const FIRST: Opt = Opt::plain("--first", "this is the first report: there is no last one to compare it with");
pub const LAST: Opt = Opt::with_value("--last", "OLD", "the image by which the last report was named");
pub const LAST_DATE: Opt = Opt::with_value("--last-date", "DATE", "the date of the last report");
pub const PAIRS: Opt =
    Opt::with_value("--pairs", "PAIRS", "pairs of a reference and a wall prism, as for 'cqdb order'");
const ROUND: Opt = Opt::with_value("--round", "IDS", "the sighted ids, one to a line in the order of sighting");
pub const SHEET: Opt = Opt::with_value("--sheet", "SHEET", "the round sheet of the report");
pub const VALIDITY: Opt = Opt::with_value("--validity", "WINDOWS", "windows in which prisms stand, as for 'cqdb on'");

pub const COMMAND: Command = Command {
    name: "preflight",
    usage: "--last OLD|--first --sheet SHEET --round IDS [OPTION].. IMAGE",
    summary: "say whether a report may leave",
    text: "
Asks the questions below, of a first report 1 to 6, and prints a line for each: yes
or no, its number, the question, and what breaks it. Behind the first of them that
fails the others are not asked. Where all say yes, a last line says how many sighted
ids were compared. IMAGE names the sighted ids; OLD named those of the last report.

   1  the image is canonical and two-way
   2  the round sheet reads
   3  every sighted id is on the sheet once, as a reference or a wall
   4  an id is sighted
   5  every sighted id has a name
   6  no two sighted ids have one name
   7  the last image is canonical and two-way
   8  the last image names some id as this one does, sighted or not
   9  every sighted id that OLD names keeps its name, or is in --accept
  10  no sighted id has a name that another id has lost

These lines follow:

      every id of the sheet has a name
      the round keeps references before walls
                           with --pairs
  11  every sighted id has a window that holds both dates
                           with --validity, --date and --last-date

The exit status is 0 where every line says yes, 1 where one says no, and 2 where it
cannot be told, so that a script can hold the report back.

IMAGE and OLD may be images of a bundle, as walls.bundle:1. With --all they are whole
bundles of as many images, and sheet and round are those of all walls: each sighted
id is asked of the wall that names it, and must be in that wall alone, then and now,
as must its name.
",
    options: &[ACCEPT, ALL, DATE, FIRST, JSON, LAST, LAST_DATE, PAIRS, ROUND, SHEET, VALIDITY, WINDOWS],
    operands: (1, 1),
    run,
};

fn run(args: Args) -> Outcome {
    let mut files = Files::read(&args)?;
    let path = args.path_of(&ROUND).ok_or_else(|| Failure::new("say --round: the ids that were sighted"))?;
    let round = files.list(path, |path| lines::ids(&args, path))?;
    let answers = if args.has(&ALL) { positions::ask(&files, &round)? } else { files.ask(&round)? };
    files.have_not_changed()?;
    let mut out = Output::new();
    match args.has(&JSON) {
        true => answers.json(&mut out)?,
        false => out.bytes(answers.text().as_bytes())?,
    }
    out.finish(answers.all_yes())
}

/// The files of a report but its round, as they were when they were read.
pub struct Files {
    pub old: Option<Kept>,
    pub new: Kept,
    sheet: Kept,
    pub accepted: Vec<u32>,
    pairs: Option<Vec<Pair>>,
    /// The date of the last report, and the windows with that of this one.
    dates: Option<(Date, Windows)>,
    /// The lists, to see whether they change.
    lists: Vec<Kept>,
}

impl Files {
    pub fn read(args: &Args) -> Result<Files, Failure> {
        fit(args)?;
        let sheet = args.path_of(&SHEET).ok_or_else(|| Failure::new("say --sheet: the round sheet of the report"))?;
        let mut files = Files {
            old: args.path_of(&LAST).map(Kept::image).transpose()?,
            new: Kept::image(args.path(0))?,
            sheet: Kept::file(sheet)?,
            accepted: Vec::new(),
            pairs: None,
            dates: None,
            lists: Vec::new(),
        };
        if let Some(path) = args.path_of(&ACCEPT) {
            files.accepted = files.list(path, |path| lines::ids(args, path))?;
        }
        if let Some(path) = args.path_of(&PAIRS) {
            files.pairs = Some(files.list(path, |path| order::pairs(args, path))?);
        }
        if let (Some(path), Some(date)) = (args.path_of(&VALIDITY), args.value(&DATE)) {
            let (date, last) = (dates::of_word(date)?, dates::of_word(args.value(&LAST_DATE).unwrap_or(date))?);
            files.dates = Some((last, files.list(path, |path| Windows::read(args, path, date))?));
            not_behind(last, date)?;
        }
        Ok(files)
    }

    /// What is read from a list, whose bytes are kept too.
    fn list<T>(&mut self, path: &Path, read: impl FnOnce(&Path) -> Result<T, Failure>) -> Result<T, Failure> {
        self.lists.extend(Kept::read_again(path)?);
        read(path)
    }

    /// Fails where a file has other bytes than those that were asked about.
    pub fn have_not_changed(&self) -> Result<(), Failure> {
        let images = self.old.iter().chain([&self.new, &self.sheet]);
        images.chain(&self.lists).try_for_each(Kept::has_not_changed)
    }

    pub fn sheet(&self) -> &[u8] {
        self.sheet.bytes()
    }

    /// Every question about a round, of one image or of one and the last.
    pub fn ask(&self, round: &[u32]) -> Result<Answers, Failure> {
        let (old, new) = (self.old.as_ref().map(Kept::image_bytes).transpose()?, self.new.image_bytes()?);
        let report = Report { old, new, sheet: self.sheet(), round, accepted: &self.accepted };
        let mut answers = Answers::of_report(&report, None);
        answers.asked.extend(self.ask_besides(&[new], round)?);
        Ok(answers)
    }

    /// The questions besides the ten.
    pub fn ask_besides(&self, images: &[&[u8]], round: &[u32]) -> Result<Vec<Asked>, Failure> {
        let mut asked = Vec::new();
        if let Ok(sheet) = Sheet::read(self.sheet()) {
            asked.push(Asked::own("every id of the sheet has a name", all_named(images, &sheet)));
        }
        if let Some(pairs) = &self.pairs {
            asked.push(Asked::own(order::QUESTION, order::kept(pairs, round)));
        }
        if let Some((last, windows)) = &self.dates {
            asked.push(held(windows.hold_both(*last, round)?, round));
        }
        Ok(asked)
    }
}

/// Fails where it is not said once what is asked for.
fn fit(args: &Args) -> Result<(), Failure> {
    args.none_twice()?;
    args.not_both(&[&LAST, &FIRST])?;
    args.not_both(&[&FIRST, &LAST_DATE])?;
    args.not_both(&[&FIRST, &ACCEPT])?;
    if !args.has(&LAST) && !args.has(&FIRST) {
        return Err(Failure::new("say --last OLD, the image of the last report, or --first"));
    }
    let both = [(&VALIDITY, &DATE), (&DATE, &VALIDITY), (&LAST_DATE, &VALIDITY)];
    for (option, other) in both {
        if args.has(option) && !args.has(other) {
            return Err(Failure::new(format!("{} needs {} too", option.long, other.long)));
        }
    }
    match args.has(&LAST) && args.has(&VALIDITY) && !args.has(&LAST_DATE) {
        true => Err(Failure::new("--validity needs --last-date too, where there is a last report")),
        false => Ok(()),
    }
}

/// Fails where the last report comes behind this one: then the two dates are exchanged.
fn not_behind(last: Date, date: Date) -> Result<(), Failure> {
    let number = |date: Date| (date.year, date.month, date.day);
    match number(last) > number(date) {
        true => Err(Failure::new("the date of the last report is behind that of this one")),
        false => Ok(()),
    }
}

/// Has every id of the sheet a name in some image, or which is the first that has none?
fn all_named(images: &[&[u8]], sheet: &Sheet) -> Said {
    let opened: Vec<CQDB> = images.iter().filter_map(|image| CQDB::new(image).ok()).collect();
    let mut ids = sheet.references().chain(sheet.walls()).chain(sheet.retired()).peekable();
    if ids.peek().is_none() {
        return Said::YesAboutNothing("the sheet has no id, so nothing was compared");
    }
    let without = ids.find(|id| opened.iter().all(|db| db.to_str(*id).is_none()));
    without.map_or(Said::Yes, |id| Err(format!("id {id} has none")).into())
}

fn held(answer: PreflightDates, round: &[u32]) -> Asked {
    let said = match answer {
        PreflightDates::Yes if round.is_empty() => NONE_SIGHTED,
        PreflightDates::Yes => Said::Yes,
        PreflightDates::NoWindow { place, id } => {
            Said::No(format!("id {id} has none"), vec![("id", id.into()), ("place", place as u64)])
        }
    };
    Asked { position: None, number: Some(11), question: "every sighted id has a window that holds both dates", said }
}
