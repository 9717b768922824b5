//! `cqdb check`: can an image be relied on?
use cqdb::CQDB;

use crate::args::{Args, Command};
use crate::asked::Said;
use crate::compare;
use crate::files::{self, Source};
use crate::list;
use crate::outcome::{Failure, Outcome, Output};
use crate::progress::Progress;
use crate::quadratic;

pub const COMMAND: Command = Command {
    name: "check",
    usage: "IMAGE",
    summary: "say whether an image can be relied on",
    text: "
Asks the questions below and prints a line for each: yes or no, the question, and
the first thing that breaks it. The exit status is 1 where an answer is no.

  it opens             the head is whole and no table leaves the file
  it is canonical      a list of puts makes exactly these bytes
  readings agree       no name has a zero byte, so a C string shows all of it
  every name is home   the search for each id's name meets that id
  one name for one id  each entry's name has its id, and its id has its name

Where no id has a name, as in an empty or a one-way image, or there is no entry, a
yes says that nothing was compared. Of a one-way image the last line asks only
whether each name has its id, and says so.
",
    options: &[],
    operands: (1, 1),
    run,
};

fn run(args: Args) -> Outcome {
    let source = Source::open(args.path(0))?;
    let mut out = Output::new();
    let all = questions(&source, &mut out)?;
    out.flush()?;
    source.has_stayed()?;
    Ok(all.into())
}

/// Prints a line for each question. Is every answer yes? Each line goes out before the next question is asked: of a
/// forged image those behind the second may take time that grows with the square of its bytes.
fn questions(source: &Source, out: &mut Output) -> Result<bool, Failure> {
    let db = match source.opened()? {
        Ok(db) => db,
        Err(error) => return line(out, Said::from(Err(files::in_words(&error))), "it opens"),
    };
    line(out, Said::Yes, "it opens")?;
    quadratic::tell_of(&db, COMMAND.name);
    let canonical = if db.is_canonical() { Ok(()) } else { Err("no list of puts makes these bytes".to_string()) };
    let mut all = line(out, canonical.into(), "it is canonical")?;
    all &= line(out, readings(&db), "readings agree")?;
    all &= line(out, homes(&db), "every name is home")?;
    all &= line(out, one_to_one(&db), compare::ONE_NAME)?;
    Ok(all)
}

/// Prints a question with its answer, which goes out at once.
fn line(out: &mut Output, said: Said, question: &str) -> Result<bool, Failure> {
    out.text(&said.line(question))?;
    out.flush()?;
    Ok(said.is_yes())
}

/// What is said where no id has a name to ask about.
const NO_NAME: Said = Said::YesAboutNothing("no id has a name, so nothing was compared");

/// Do the readings agree, or why not?
fn readings(db: &CQDB) -> Said {
    let mut ids = 0..db.back_size();
    if db.readings_agree() {
        return if ids.any(|id| db.to_str(id).is_some()) { Said::Yes } else { NO_NAME };
    }
    let id = ids.find(|id| db.panel(*id) != db.to_str(*id));
    let why = id.map_or("no id was found".to_string(), |id| format!("the name of id {id} has a zero byte"));
    Said::from(Err(why))
}

/// Is every id home that has a name, or which is the first that is not?
fn homes(db: &CQDB) -> Said {
    let mut progress = Progress::new();
    let mut said = NO_NAME;
    let ids = (0..db.back_size()).inspect(|id| progress.at(u64::from(*id), "ids"));
    for id in ids.filter(|id| db.to_str(*id).is_some()) {
        said = Said::Yes;
        if !db.home(id) {
            said = Said::from(Err(format!("id {id} is not")));
            break;
        }
    }
    progress.clear();
    said
}

/// Are names and ids one to one, or which entry shows that they are not?
fn one_to_one(db: &CQDB) -> Said {
    match compare::one_name_for_one_id(db) {
        Ok(()) if db.num() == 0 => Said::YesAboutNothing("there is no entry, so nothing was compared"),
        Ok(()) if list::names_none(db) => Said::YesInPart("no id has a name, so only the ids of names were compared"),
        answer => answer.into(),
    }
}
