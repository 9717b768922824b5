//! `cqdb id`: the ids of names.
use cqdb::CQDB;

use crate::answers::{Row, Value, MISSING, QUIET};
use crate::args::{Args, Command, ALL, TAB, WINDOWS, ZERO};
use crate::csv::CSV;
use crate::json::JSON;
use crate::outcome::{Failure, Outcome};
use crate::questions::{self, Question, Said};
use crate::tsv::TSV;
use crate::{files, lines};

pub const COMMAND: Command = Command {
    name: "id",
    usage: "[OPTION].. IMAGE [NAME..]",
    summary: "print the ids of names",
    text: "
Prints a line for each NAME, in order: its id, a space and the name. Without a
NAME, names are read from standard input, one to a line. A name that the image
lacks has an empty id, or the text of --missing; it is told on standard error,
and the exit status is then 1. Up to 512 names are looked up in one call. Where
standard input has no line, nothing was asked, and the exit status is 2.
BUNDLE:1 is the second image of a bundle; --all asks every image.
",
    options: &[ALL, CSV, JSON, MISSING, QUIET, TAB, TSV, WINDOWS, ZERO],
    operands: (1, usize::MAX),
    run,
};

fn run(args: Args) -> Outcome {
    questions::put_to_image(&args, COMMAND.name, (0, 1), &Ids)
}

struct Ids;

impl Question for Ids {
    const VALUE: Value = Value::Id;

    fn ask<'a>(&self, db: &CQDB<'a>, words: &[&'a [u8]]) -> Result<Vec<Said<'a>>, Failure> {
        // A single name is not copied to join it with others.
        let answers = match words {
            [name] => vec![db.lookup(name)],
            _ => db.round(words).map_err(files::refused)?.answers,
        };
        let said = words.iter().zip(answers).map(|(name, (found, _))| match found {
            Some(found) => Said::Found(Row { id: Some(found.id), name: Some(name) }),
            None => {
                let what = format!("no name {}{}", lines::shown(name), questions::hint(name));
                Said::Lacks(Row { id: None, name: Some(name) }, what)
            }
        });
        Ok(said.collect())
    }
}
