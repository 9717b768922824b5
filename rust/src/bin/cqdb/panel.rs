//! `cqdb panel`: names as a panel reads them.
use cqdb::CQDB;

use crate::answers::{Value, MISSING, QUIET};
use crate::args::{Args, Command, ALL, TAB, WINDOWS, ZERO};
use crate::csv::CSV;
use crate::json::JSON;
use crate::outcome::{Failure, Outcome};
use crate::questions::{self, Question, Said};
use crate::tsv::TSV;

pub const COMMAND: Command = Command {
    name: "panel",
    usage: "[OPTION].. IMAGE [ID..]",
    summary: "print the names of ids as a panel shows them",
    text: "
Prints a line for each ID as 'cqdb name' does, with the name up to its first zero
byte, as a panel that reads C strings shows it. An image of 'cqdb make' has no
name with a zero byte; one that was made elsewhere may.
",
    options: &[ALL, CSV, JSON, MISSING, QUIET, TAB, TSV, WINDOWS, ZERO],
    operands: (1, usize::MAX),
    run,
};

fn run(args: Args) -> Outcome {
    questions::put_to_image(&args, COMMAND.name, (0, 1), &Panels)
}

struct Panels;

impl Question for Panels {
    const VALUE: Value = Value::Name;

    fn ask<'a>(&self, db: &CQDB<'a>, words: &[&'a [u8]]) -> Result<Vec<Said<'a>>, Failure> {
        questions::names_of_ids(words, |ids| Ok(ids.iter().map(|id| db.panel(*id).map(|name| &**name)).collect()))
    }
}
