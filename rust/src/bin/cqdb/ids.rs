//! `cqdb ids`: every id of a name.
use std::collections::HashMap;

use cqdb::CQDB;

use crate::answers::{Form, Row, Value, MISSING, QUIET};
use crate::args::{Args, Command, TAB, WINDOWS, ZERO};
use crate::csv::CSV;
use crate::json::JSON;
use crate::outcome::{self, Failure, Outcome};
use crate::tsv::TSV;
use crate::{files, lines, list, questions};

pub const COMMAND: Command = Command {
    name: "ids",
    usage: "[OPTION].. IMAGE [NAME..]",
    summary: "print every id of a name, as of a renewed prism",
    text: "
Prints a line for each id that has the NAME, in rising order: the id, a space and
the name. A name that was put again for a renewed prism has several; 'cqdb id'
prints the first. Without a NAME, names are read from standard input. A name that
no id has is told, as by 'cqdb id', and the exit status is then 1. Of a one-way
image, whose ids have no names, the ids of all puts are printed, in put order.
",
    options: &[CSV, JSON, MISSING, QUIET, TAB, TSV, WINDOWS, ZERO],
    operands: (1, usize::MAX),
    run,
};

type Named<'a> = HashMap<&'a [u8], Vec<u32>>;

fn run(args: Args) -> Outcome {
    files::asked(args.path(0), |db, out| {
        let form = Form::new(&args, Value::Id)?;
        let named = named(db)?;
        let mut all = true;
        questions::rounds(&args, 1, |names| {
            for name in names {
                let ids = named.get(name).map_or(&[][..], Vec::as_slice);
                let row = |id| Row { id, name: Some(name) };
                ids.iter().try_for_each(|id| form.print(out, None, row(Some(*id)), None))?;
                if ids.is_empty() {
                    all = false;
                    form.print(out, None, row(None), None)?;
                    if !args.has(&QUIET) {
                        let (image, name) = (args.path(0).display(), lines::shown(name));
                        out.tell(&format!("{}: {image} has no name {name}", COMMAND.name))?;
                    }
                }
            }
            out.flush()
        })?;
        Ok(all.into())
    })
}

/// The ids of each name.
fn named<'a>(db: &CQDB<'a>) -> Result<Named<'a>, Failure> {
    let mut named = Named::new();
    let mut note = |name: &'a [u8], id: u32| {
        named.try_reserve(1).map_err(|_| outcome::out_of_memory("the names of the image", db.bytes().len() as u64))?;
        let ids = named.entry(name).or_default();
        outcome::reserve(ids, 1, || "the ids of a name".to_string())?;
        ids.push(id);
        Ok(())
    };
    if list::names_none(db) {
        let puts =
            db.puts().ok_or_else(|| Failure::new("the image is one-way, and not canonical: it has no list of puts"))?;
        puts.into_iter().try_for_each(|(name, id)| note(name, id))?;
        return Ok(named);
    }
    (0..db.back_size()).filter_map(|id| Some((db.to_str(id)?, id))).try_for_each(|(name, id)| note(name, id))?;
    Ok(named)
}
