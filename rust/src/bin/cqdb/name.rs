//! `cqdb name`: the names of ids.
use cqdb::CQDB;

use crate::answers::{Value, MISSING, QUIET};
use crate::args::{Args, Command, ALL, TAB, WINDOWS, ZERO};
use crate::csv::CSV;
use crate::files;
use crate::json::JSON;
use crate::outcome::{Failure, Outcome};
use crate::questions::{self, Question, Said};
use crate::tsv::TSV;

pub const COMMAND: Command = Command {
    name: "name",
    usage: "[OPTION].. IMAGE [ID..]",
    summary: "print the names of ids",
    text: "
Prints a line for each ID, in order: the id, a space and the name. Without an ID,
ids are read from standard input, one to a line. An id that has no name has an
empty one, or the text of --missing; it is told on standard error, and the exit
status is then 1. A word that is no id is told too; the others are answered, and
the exit status is 2. It is 2 too where standard input has no line: nothing was
asked. BUNDLE:1 is the second image of a bundle; --all asks every image.
",
    options: &[ALL, CSV, JSON, MISSING, QUIET, TAB, TSV, WINDOWS, ZERO],
    operands: (1, usize::MAX),
    run,
};

fn run(args: Args) -> Outcome {
    questions::put_to_image(&args, COMMAND.name, (0, 1), &Names)
}

struct Names;

impl Question for Names {
    const VALUE: Value = Value::Name;

    fn ask<'a>(&self, db: &CQDB<'a>, words: &[&'a [u8]]) -> Result<Vec<Said<'a>>, Failure> {
        questions::names_of_ids(words, |ids| {
            let names = db.name_round(ids).map_err(files::refused)?;
            Ok(names.into_iter().map(|name| name.map(|name| &**name)).collect())
        })
    }
}
