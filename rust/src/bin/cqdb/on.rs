//! `cqdb on`: the names of ids on a date.
use cqdb::CQDB;

use crate::answers::{Value, MISSING, QUIET};
use crate::args::{Args, Command, ALL, TAB, WINDOWS, ZERO};
use crate::csv::CSV;
use crate::dates::{self, Windows};
use crate::input::INCOMPLETE;
use crate::json::JSON;
use crate::outcome::{Failure, Outcome};
use crate::questions::{self, Question, Said};
use crate::tsv::TSV;

pub const COMMAND: Command = Command {
    name: "on",
    usage: "[OPTION].. DATE IMAGE WINDOWS [ID..]",
    summary: "print the names of ids on a date",
    text: "
Prints a line for each ID, or for each line of standard input, as 'cqdb name'
does, for DATE, such as 2024-03-31: an id has its name where some window of that id
holds the date. WINDOWS has a line for each window: an id, its first date and its
end date, from which on it stands no longer, a space between. Dates are of the
years 1900 to 2199, an end date also 2200-01-01; all windows are checked, also
those of other ids.
",
    options: &[ALL, CSV, INCOMPLETE, JSON, MISSING, QUIET, TAB, TSV, WINDOWS, ZERO],
    operands: (3, usize::MAX),
    run,
};

fn run(args: Args) -> Outcome {
    let date = dates::of_word(args.operand(0).unwrap_or_default())?;
    let windows = Windows::read(&args, args.path(2), date)?;
    questions::put_to_image(&args, COMMAND.name, (1, 3), &windows)
}

impl Question for Windows {
    const VALUE: Value = Value::Name;

    fn ask<'a>(&self, db: &CQDB<'a>, words: &[&'a [u8]]) -> Result<Vec<Said<'a>>, Failure> {
        questions::names_of_ids(words, |ids| ids.iter().map(|id| self.name_on(db, *id)).collect())
    }
}
