//! `cqdb home`: is an id home?
use crate::args::{Args, Command, WINDOWS, ZERO};
use crate::outcome::{Failure, Outcome};
use crate::{files, lines, questions};

pub const COMMAND: Command = Command {
    name: "home",
    usage: "[OPTION].. IMAGE [ID..]",
    summary: "say whether ids are home",
    text: "
Prints a line for each ID, or for each line of standard input: the id, a space,
and yes where the id has a name and the search for that name meets this id, or
else no. The exit status is 1 where an answer is no, and 2 where nothing was
asked, since standard input has no line.
",
    options: &[WINDOWS, ZERO],
    operands: (1, usize::MAX),
    run,
};

fn run(args: Args) -> Outcome {
    files::asked(args.path(0), |db, out| {
        let (mut all, mut unfit) = (true, 0);
        questions::rounds(&args, 1, |words| {
            for word in words {
                let Some(id) = lines::id_of(word) else {
                    unfit += 1;
                    let what = format!("{} is no decimal id up to 4294967295", lines::shown(word));
                    out.tell(&format!("{}: {what}{}", COMMAND.name, questions::hint(word)))?;
                    continue;
                };
                let home = db.home(id);
                all &= home;
                out.line(&[format!("{id} {}", if home { "yes" } else { "no" }).as_bytes()], args.end())?;
            }
            out.flush()
        })?;
        match unfit {
            0 => Ok(all.into()),
            unfit => Err(Failure::new(questions::not_answered(unfit))),
        }
    })
}
