//! `cqdb list`: all ids with their names.
use cqdb::CQDB;

use crate::answers::{Form, Row, Value};
use crate::args::{Args, Command, Opt, ALL, TAB, ZERO};
use crate::cdb::{self, CDB};
use crate::csv::CSV;
use crate::files::Source;
use crate::json::JSON;
use crate::outcome::{Answer, Failure, Outcome, Output};
use crate::tsv::TSV;

const PUTS: Opt = Opt::plain("--puts", "every put in put order, of a canonical image");

pub const COMMAND: Command = Command {
    name: "list",
    usage: "[OPTION].. IMAGE",
    summary: "print every id that has a name, in rising order",
    text: "
Prints a line for each id that has a name: the id, a space and the name. That is
the form that 'cqdb make' reads. A one-way image names no ids. With --puts every
put is printed, also of a one-way image; 'cqdb make --repeats --renamed' makes the
same image of these lines, with --blank and --alike where its names need them. An
image that is not canonical has no such list: the exit status is then 1. --csv,
--json, --tsv, --cdb and --zero keep every byte of a name, and 'cqdb make' reads
them. BUNDLE:1 is the second image of a bundle; --all lists every image.
",
    options: &[ALL, CDB, CSV, JSON, PUTS, TAB, TSV, ZERO],
    operands: (1, 1),
    run,
};

fn run(args: Args) -> Outcome {
    args.not_both(&[&CDB, &CSV, &JSON, &TSV, &TAB, &ZERO])?;
    args.not_both(&[&CDB, &ALL])?;
    let source = Source::open(args.path(0))?;
    let images = if args.has(&ALL) { source.images()? } else { vec![(0, source.image()?)] };
    let mut listing =
        Listing { form: Form::new(&args, Value::Name)?, cdb: args.has(&CDB), out: Output::new(), name: source.name() };
    let mut all = true;
    for (position, db) in &images {
        all &= if args.has(&PUTS) { listing.puts(*position, db)? } else { listing.names(*position, db)? };
    }
    if listing.cdb {
        listing.out.bytes(b"\n")?;
    }
    listing.out.flush()?;
    source.has_stayed()?;
    Ok(Answer::from(all))
}

struct Listing<'a> {
    form: Form<'a>,
    cdb: bool,
    out: Output,
    name: String,
}

impl Listing<'_> {
    fn puts(&mut self, position: u64, db: &CQDB) -> Result<bool, Failure> {
        let Some(puts) = db.puts() else {
            self.out.tell(&format!("list: {} is not canonical: it has no list of puts", self.name))?;
            return Ok(false);
        };
        puts.into_iter().try_for_each(|(name, id)| self.entry(position, id, name))?;
        Ok(true)
    }

    fn names(&mut self, position: u64, db: &CQDB) -> Result<bool, Failure> {
        if names_none(db) {
            self.out.tell(&format!("list: {} is one-way: it names no ids; --puts lists its entries", self.name))?;
            return Ok(false);
        }
        for id in 0..db.back_size() {
            if let Some(name) = db.to_str(id) {
                self.entry(position, id, name)?;
            }
        }
        Ok(true)
    }

    fn entry(&mut self, position: u64, id: u32, name: &[u8]) -> Result<(), Failure> {
        if self.cdb {
            return cdb::print(&mut self.out, name, id);
        }
        self.form.print(&mut self.out, Some(position), Row { id: Some(id), name: Some(name) }, None)
    }
}

/// Has the image entries, and no array that names ids?
pub fn names_none(db: &CQDB) -> bool {
    db.back_size() == 0 && db.num() > 0
}
