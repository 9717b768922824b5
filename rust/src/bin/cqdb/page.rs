//! `cqdb page`: the printed catalogue.
use crate::args::{Args, Command};
use crate::outcome::{Answer, Outcome};
use crate::{files, list};

pub const COMMAND: Command = Command {
    name: "page",
    usage: "IMAGE",
    summary: "print the catalogue for paper",
    text: "
Prints a line of 45 bytes for every id up to the largest: the id right-aligned in
10 bytes, a space, 32 bytes of the name, a plus sign where the name is longer,
and a line feed. Bytes outside 32 to 126 are printed as full stops; an id without
a name has 32 hyphens. A one-way image names no ids: the exit status is then 1.
",
    options: &[],
    operands: (1, 1),
    run,
};

fn run(args: Args) -> Outcome {
    files::asked(args.path(0), |db, out| {
        if list::names_none(db) {
            out.tell(&format!("page: {} is one-way: it names no ids", args.path(0).display()))?;
            return Ok(Answer::No);
        }
        db.page().parts(|part| out.bytes(part))?;
        Ok(Answer::Yes)
    })
}
