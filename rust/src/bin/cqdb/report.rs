//! `cqdb report`: names the sightings of a report that may leave. What was asked about is what is printed.
use std::io::{self, Write};
use std::path::Path;

use cqdb::CQDB;

use crate::args::{Args, Command, WINDOWS};
use crate::files;
use crate::lines;
use crate::memory::Kept;
use crate::outcome::{self, Answer, Failure, Outcome, Output};
use crate::preflight::{Files, ACCEPT, DATE, FIRST, LAST, LAST_DATE, PAIRS, SHEET, VALIDITY};

pub const COMMAND: Command = Command {
    name: "report",
    usage: "--last OLD|--first --sheet SHEET [OPTION].. IMAGE [SIGHTINGS]",
    summary: "print the sightings with names, where the report may leave",
    text: "
SIGHTINGS, or standard input, has a line for each sighting in order: a decimal id, a
space, and anything. Asks 'cqdb preflight' about exactly these ids. Where every answer
is yes, it prints the lines with the name in place of the id, from the same bytes of
IMAGE that were asked about. Otherwise nothing is printed, the questions with their
answers go to standard error, and the exit status is 1.

Where it cannot be told, nothing is printed and the exit status is 2: a file cannot be
read or changes meanwhile, a line is no sighting, or a name has a line feed.
",
    options: &[ACCEPT, DATE, FIRST, LAST, LAST_DATE, PAIRS, SHEET, VALIDITY, WINDOWS],
    operands: (1, 2),
    run,
};

fn run(args: Args) -> Outcome {
    let lent = Files::read(&args)?;
    let path = args.operand(1).map_or(Path::new("-"), Path::new);
    let file = Kept::file(path)?;
    let sightings = sightings(&args, &files::shown(path), file.bytes())?;
    let answers = lent.ask(&sightings.ids)?;
    let report = if answers.all_yes() { named(lent.new.image_bytes()?, &sightings)? } else { Vec::new() };
    lent.have_not_changed()?;
    file.has_not_changed()?;
    if !answers.all_yes() {
        // Where standard error is closed there is nobody to tell.
        let _ = io::stderr().write_all(answers.text().as_bytes());
        return Ok(Answer::No);
    }
    let mut out = Output::new();
    for line in report.split_inclusive(|byte| *byte == b'\n') {
        out.name(&line[..line.len() - 1])?;
        out.bytes(b"\n")?;
    }
    out.finish(Answer::Yes)
}

/// The ids of the sightings, and the rest of each line from the space on.
#[derive(Default)]
struct Sightings<'a> {
    ids: Vec<u32>,
    rests: Vec<&'a [u8]>,
}

/// The sightings of a file. A last line without a line feed may be cut, so it is none.
fn sightings<'a>(args: &Args, name: &str, file: &'a [u8]) -> Result<Sightings<'a>, Failure> {
    let mut sightings = Sightings::default();
    for (line, number) in file.split_inclusive(|byte| *byte == b'\n').zip(1..) {
        let at = |what: &str| Failure::new(format!("{name}, line {number}: {what}"));
        let cut = || at(&format!("the list ends without a line feed behind {}, so it may be cut", lines::shown(line)));
        let line = line.strip_suffix(b"\n").ok_or_else(cut)?;
        let line = lines::without_windows(args, number, line).map_err(|what| at(&what.to_string()))?;
        let form = "not a decimal id up to 4294967295, a space and anything";
        let (id, rest) = sighting_of(line).ok_or_else(|| at(&format!("{form}: {}", lines::shown(line))))?;
        outcome::reserve(&mut sightings.ids, 1, || name.to_string())?;
        outcome::reserve(&mut sightings.rests, 1, || name.to_string())?;
        sightings.ids.push(id);
        sightings.rests.push(rest);
    }
    Ok(sightings)
}

fn sighting_of(line: &[u8]) -> Option<(u32, &[u8])> {
    let space = line.iter().position(|byte| *byte == b' ')?;
    Some((lines::id_of(&line[..space])?, &line[space..]))
}

/// How many ids the library names in one call.
const ROUND: usize = 512;

/// The lines of the sightings, each with the name in place of its id.
fn named(image: &[u8], sightings: &Sightings) -> Result<Vec<u8>, Failure> {
    let db = CQDB::new(image).map_err(|error| Failure::new(files::in_words(&error)))?;
    let mut report = Vec::new();
    for (ids, rests) in sightings.ids.chunks(ROUND).zip(sightings.rests.chunks(ROUND)) {
        let names = db.name_round(ids).map_err(files::refused)?;
        for ((id, name), rest) in ids.iter().zip(names).zip(rests) {
            let name = name.ok_or_else(|| Failure::new(format!("id {id} has no name")))?;
            if name.contains(&b'\n') {
                return Err(Failure::new(format!("the name of id {id} has a line feed")));
            }
            outcome::reserve(&mut report, name.len() + rest.len() + 1, || "the report".to_string())?;
            report.extend_from_slice(name);
            report.extend_from_slice(rest);
            report.push(b'\n');
        }
    }
    Ok(report)
}
