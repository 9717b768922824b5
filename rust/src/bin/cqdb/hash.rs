//! `cqdb hash`: the hash of names.
use cqdb::jhash;

use crate::args::{Args, Command, WINDOWS, ZERO};
use crate::outcome::{Answer, Outcome, Output};
use crate::{files, questions};

pub const COMMAND: Command = Command {
    name: "hash",
    usage: "[OPTION].. [NAME..]",
    summary: "print the hashes of names",
    text: "
Prints a line for each NAME, or for each line of standard input: the hash that
images use, as eight hexadecimal digits, a space and the name. Its last two
digits are the number of the name's table.
",
    options: &[WINDOWS, ZERO],
    operands: (0, usize::MAX),
    run,
};

fn run(args: Args) -> Outcome {
    let mut out = Output::new();
    questions::rounds(&args, 0, |names| {
        names.iter().try_for_each(|name| {
            let hash = jhash(name, 0).map_err(files::refused)?;
            out.bytes(format!("{hash:08x} ").as_bytes())?;
            out.name(name)?;
            out.bytes(&[args.end()])
        })?;
        out.flush()
    })?;
    out.finish(Answer::Yes)
}
