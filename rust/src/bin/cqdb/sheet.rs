//! `cqdb sheet`: the round sheet.
use std::path::Path;

use cqdb::Sheet;

use crate::args::{Args, Command, WINDOWS};
use crate::files::{self, Bytes, Reading};
use crate::input::INCOMPLETE;
use crate::kind::Kind;
use crate::lines::{self, Lines};
use crate::outcome::{self, Answer, Failure, Outcome, Output};
use crate::replace::{Target, FORCE};

pub const COMMAND: Command = Command {
    name: "sheet",
    usage: "[OPTION].. show FILE | make FILE [LIST]",
    summary: "print or make a round sheet",
    text: "
'cqdb sheet show FILE' prints a line for each id of the round sheet: reference,
wall or retired, a space and the id. 'cqdb sheet make FILE' makes a round sheet
of such lines, from LIST or standard input. They may come in any order; within
each of the three kinds their order is kept. A file that is no round sheet is not
replaced, nor one that has ids by an empty one, unless --force is said.
",
    options: &[FORCE, INCOMPLETE, WINDOWS],
    operands: (2, 3),
    run,
};

const KINDS: [&str; 3] = ["reference", "wall", "retired"];

fn run(args: Args) -> Outcome {
    match (args.operand(0).and_then(|word| word.to_str()), args.operand(2)) {
        (Some("show"), None) => show(args.path(1)),
        (Some("make"), _) => make(&args),
        _ => Err(Failure::new(format!("say: cqdb sheet {}", COMMAND.usage))),
    }
}

/// The round sheet of a file's bytes.
pub fn sheet_of<'a>(path: &Path, bytes: &'a Bytes) -> Result<Sheet<'a>, Failure> {
    Sheet::read(bytes)
        .map_err(|refusal| Failure::new(format!("{}: {}", files::shown(path), files::refusal_in_words(refusal))))
}

fn show(path: &Path) -> Outcome {
    let file = Reading::of(path)?;
    let sheet = sheet_of(path, file.bytes())?;
    let mut out = Output::new();
    for (kind, ids) in KINDS.into_iter().zip([sheet.references(), sheet.walls(), sheet.retired()]) {
        for id in ids {
            out.text(&format!("{kind} {id}"))?;
        }
    }
    file.has_stayed()?;
    out.finish(Answer::Yes)
}

fn make(args: &Args) -> Outcome {
    let target = Target::new(args, 1, Kind::Sheet)?;
    let list = Lines::of_list(args, args.operand(2), b'\n')?;
    let list = list.parsed(args, "reference, wall or retired, a space and an id", kind_and_id)?;
    let mut ids: [Vec<u32>; 3] = Default::default();
    for (kind, id) in &list {
        outcome::reserve(&mut ids[*kind], 1, || "the round sheet".to_string())?;
        ids[*kind].push(*id);
    }
    let mut file = Vec::new();
    outcome::reserve(&mut file, 6 + 4 * list.len(), || "the round sheet".to_string())?;
    file.resize(6 + 4 * list.len(), 0);
    let length = Sheet::write(&mut file, &ids[0], &ids[1], &ids[2]).map_err(files::refused)?;
    let ids = outcome::count(list.len() as u64, "id", "ids");
    target.replace(&file[..length], &format!("{}: {ids}, {length} bytes\n", args.path(1).display()))?;
    Ok(Answer::Yes)
}

/// The place of the line's first word among the kinds, and the id.
fn kind_and_id(line: &[u8]) -> Option<(usize, u32)> {
    let [kind, id] = lines::fields(line)?;
    Some((KINDS.iter().position(|known| known.as_bytes() == kind)?, lines::id_of(id)?))
}
