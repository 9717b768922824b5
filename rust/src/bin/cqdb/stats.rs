//! `cqdb stats`: the numbers of an image.
use cqdb::CQDB;

use crate::args::{Args, Command};
use crate::files;
use crate::outcome::{Answer, Failure, Outcome, Output};
use crate::quadratic;

pub const COMMAND: Command = Command {
    name: "stats",
    usage: "IMAGE",
    summary: "print the numbers of an image",
    text: "
Prints a line for each number, its name first:

  num         entries, as the tables say
  size        bytes, as the size word says
  file        bytes that the file has
  mode        two-way or one-way
  back-size   ids up to the largest that was put
  named       ids that have a name
  gaps        ids below the back size that have none
  average     buckets read when the name of each entry is looked up, over the
              entries, and both numbers; of a canonical image
  length-N    entries whose name is found after N buckets, with a bar
",
    options: &[],
    operands: (1, 1),
    run,
};

fn run(args: Args) -> Outcome {
    files::asked(args.path(0), numbers)
}

fn numbers(db: &CQDB, out: &mut Output) -> Outcome {
    let mode = match db.flag_word() {
        0 => "two-way".to_string(),
        1 => "one-way".to_string(),
        flag => format!("unknown flag word {flag}"),
    };
    let back = db.back_size();
    let named = (0..back).filter(|id| db.to_str(*id).is_some()).count() as u32;
    let lines = [
        ("num", db.num().to_string()),
        ("size", db.size_word().to_string()),
        ("file", db.bytes().len().to_string()),
        ("mode", mode),
        ("back-size", back.to_string()),
        ("named", named.to_string()),
        ("gaps", (back - named).to_string()),
    ];
    lines.iter().try_for_each(|(name, value)| out.text(&format!("{name:<9} {value}")))?;
    search_lengths(out, db)?;
    Ok(Answer::Yes)
}

/// The widest bar.
const WIDE: u64 = 50;

/// The average search length with its three first decimals, and a bar for each length that some entry has.
fn search_lengths(out: &mut Output, db: &CQDB) -> Result<(), Failure> {
    out.flush()?;
    quadratic::tell_of(db, COMMAND.name);
    let (average, lengths) = match db.average().and_then(|average| Ok((average, db.lengths()?))) {
        Ok(both) => both,
        Err(refusal) => return out.text(&format!("average   none: {}", files::refusal_in_words(refusal))),
    };
    let (total, entries) = (average.total(), average.entries);
    let thousandths = average.remainder * 1_000 / u64::from(entries);
    out.text(&format!("average   {}.{thousandths:03} ({total} buckets, {entries} entries)", average.quotient))?;
    let last = lengths.iter().rposition(|entries| *entries > 0).map_or(0, |last| last + 1);
    let most = u64::from(*lengths.iter().max().expect("there are 16")).max(1);
    for (place, entries) in lengths[..last].iter().enumerate() {
        let length = if place == 15 { "16+".to_string() } else { (place + 1).to_string() };
        let bar = "#".repeat((u64::from(*entries) * WIDE).div_ceil(most) as usize);
        out.text(format!("length-{length:<2} {entries} {bar}").trim_end())?;
    }
    Ok(())
}
