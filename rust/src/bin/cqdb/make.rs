//! `cqdb make`: an image from a list.
use std::borrow::Cow;

use crate::alike::{ALIKE, BLANK};
use crate::args::{Args, Command, Opt, TAB, WINDOWS, ZERO};
use crate::cdb::{Record, Records, CDB};
use crate::csv::{self, CSV};
use crate::input::INCOMPLETE;
use crate::json::{self, JSON};
use crate::kind::Kind;
use crate::lines::{self, Lines};
use crate::making::{Making, ONE_WAY, RENAMED, REPEATS, SPARSE};
use crate::outcome::{self, Answer, Failure, Outcome};
use crate::problem::{Problem, Skipped};
use crate::progress::Progress;
use crate::replace::{Target, FORCE};
use crate::tsv::{self, TSV};

const SKIP: Opt = Opt::plain("--skip", "pass over lines that cannot be put, tell them and count them");

pub const COMMAND: Command = Command {
    name: "make",
    usage: "[OPTION].. IMAGE [LIST]",
    summary: "make an image from a list of ids and names",
    text: "
Makes IMAGE from the lines of LIST, or of standard input: a decimal id up to
4294967295, a space, and the name, which is the rest of the line. IMAGE may be -,
standard output. A name that comes again is refused with 16; with --repeats it is
put, and gives the id of its first line. An id that comes again stops it too; with
--renamed it gives the name of its last line. --csv, --json, --tsv and --cdb read
what 'cqdb list' writes with the same option.

A list that ends without its last line end may have been cut, so it is refused, as
is a file that changes while it is read; --incomplete takes the first. A name that
is empty or of spaces alone stops it, unless --blank is said. So does a name that
looks like another, unless --alike is said: with a space at its beginning or end,
two spaces together, a tab, a no-break space or something else that is not seen, or
one that differs from an earlier name only in case or in spaces.

A line of another form, or one whose put is refused, stops it: the message has
the line's number, the reason and the refusal's number. With --skip such lines are
passed over, and the exit status is then 1; where no line is left, no image is
written.

A two-way image has four bytes for each id up to the largest. Where more than 64
MB of them would be for ids without a name, --sparse has to say that it is meant.

The image is written beside its place and moved there: a reader never sees half
of one, and where something fails the old image stays. Owner, group and mode of
the old image are kept. A file that is no single image is not replaced, nor an
image that has entries by an empty one, unless --force is said.
",
    options: &[
        ALIKE, BLANK, CDB, CSV, FORCE, INCOMPLETE, JSON, ONE_WAY, RENAMED, REPEATS, SKIP, SPARSE, TAB, TSV, WINDOWS,
        ZERO,
    ],
    operands: (1, 2),
    run,
};

fn run(args: Args) -> Outcome {
    args.not_both(&[&CDB, &CSV, &JSON, &TSV, &TAB])?;
    args.not_both(&[&CDB, &CSV, &JSON, &TSV, &ZERO])?;
    args.not_both(&[&CDB, &WINDOWS])?;
    let target = Target::new(&args, 0, Kind::Image)?;
    let mut list = List::open(&args)?;
    let mut making = Making::new(&args, list.unit_of_one());
    let mut skipped = Skipped::default();
    let mut progress = Progress::new();
    while let Some((number, put)) = list.read(&args)? {
        let put = put.and_then(|(id, name)| making.put(number, id, &name));
        progress.at(number, list.unit());
        if let Err(problem) = put {
            progress.clear();
            let what = list.at(number, &problem);
            if !args.has(&SKIP) || problem.is_final() {
                return Err(Failure::new(what));
            }
            skipped.one_more(&problem, &what);
        }
    }
    progress.clear();
    skipped.summary();
    if args.has(&SKIP) && making.entries() == 0 {
        return Err(Failure::new(format!("no {} could be put, so no image is written", list.unit_of_one())));
    }
    if let Some((number, problem)) = making.sparse() {
        return Err(Failure::new(list.at(number, &problem)));
    }
    let entries = outcome::count(making.entries(), "entry", "entries");
    let image = making.finish()?;
    target.replace(&image, &format!("{}: {entries}, {} bytes\n", args.path(0).display(), image.len()))?;
    Ok(Answer::from(skipped.lines == 0))
}

/// What an image is made from.
enum List {
    Lines(Lines, Layout),
    Records(Records),
}

/// The layout of a line.
#[derive(Clone, Copy, PartialEq, Eq)]
enum Layout {
    Plain,
    Csv,
    Json,
    Tsv,
}

/// An id and a name, or why there are none.
type Put<'a> = Result<(u32, Cow<'a, [u8]>), Problem>;

impl List {
    fn open(args: &Args) -> Result<List, Failure> {
        if args.has(&CDB) {
            return Records::open(args, args.operand(1)).map(List::Records);
        }
        let layouts = [(&CSV, Layout::Csv), (&JSON, Layout::Json), (&TSV, Layout::Tsv)];
        let layout = layouts.into_iter().find(|(option, _)| args.has(option));
        let lines = Lines::of_list(args, args.operand(1), args.end())?;
        Ok(List::Lines(lines, layout.map_or(Layout::Plain, |(_, layout)| layout)))
    }

    /// What is said of a problem with the put of this number.
    fn at(&self, number: u64, problem: &Problem) -> String {
        let name = match self {
            List::Lines(lines, _) => lines.name(),
            List::Records(records) => records.name(),
        };
        format!("{name}, {} {number}: {problem}", self.unit_of_one())
    }

    fn unit_of_one(&self) -> &'static str {
        match self {
            List::Lines(..) => "line",
            List::Records(_) => "record",
        }
    }

    fn unit(&self) -> &'static str {
        match self {
            List::Lines(..) => "lines",
            List::Records(_) => "records",
        }
    }

    /// The next put with its number, counted from 1.
    fn read(&mut self, args: &Args) -> Result<Option<(u64, Put<'_>)>, Failure> {
        Ok(match self {
            List::Lines(lines, Layout::Csv) => row(lines)?.map(|(number, row)| (number, of_row(args, number, row))),
            List::Lines(lines, layout) => {
                let layout = *layout;
                lines.read()?.map(|(number, line)| (number, of_line(args, layout, number, line)))
            }
            List::Records(records) => records.read()?.map(|record| (record.number, of_record(&record))),
        })
    }
}

/// The next row of a table with commas: a line, and those behind it while a name goes on.
fn row(lines: &mut Lines) -> Result<Option<(u64, &[u8])>, Failure> {
    let Some((number, line)) = lines.read()? else { return Ok(None) };
    let (mut open, mut length) = (csv::leaves_open(false, line), line.len());
    while open {
        match lines.read_on()? {
            Some((_, row)) => (open, length) = (csv::leaves_open(open, &row[length..]), row.len()),
            None => {
                let what = "a quotation mark that no other follows, so the list may be cut";
                return Err(Failure::new(format!("{}, line {number}: {what}", lines.name())));
            }
        }
    }
    Ok(Some((number, lines.last())))
}

fn of_row<'a>(args: &Args, number: u64, row: &'a [u8]) -> Put<'a> {
    let row = lines::without_windows(args, number, row).map_err(|what| Problem::OfWindows(what, false))?;
    let form = "a decimal id up to 4294967295, a comma and a name as RFC 4180 quotes it";
    let other = || Problem::Row { form, row: lines::shown(row) };
    let (id, name) = csv::two_fields(row).ok_or_else(other)?;
    Ok((lines::id_of(&id).ok_or_else(other)?, name.into()))
}

fn of_line<'a>(args: &Args, layout: Layout, number: u64, line: &'a [u8]) -> Put<'a> {
    let is_plain = matches!(layout, Layout::Plain);
    let line = lines::without_windows(args, number, line).map_err(|what| Problem::OfWindows(what, is_plain))?;
    match layout {
        Layout::Json => {
            let (id, name) =
                json::id_and_name(line).map_err(|what| Problem::Object { what, line: lines::shown(line) })?;
            Ok((id, name.into()))
        }
        Layout::Tsv => {
            let form = "a decimal id up to 4294967295, a tab and a name with \\t \\n \\r \\\\ as 'cqdb list --tsv' writes them";
            let other = || Problem::Row { form, row: lines::shown(line) };
            let (id, name) = tsv::two_fields(line).ok_or_else(other)?;
            Ok((lines::id_of(id).ok_or_else(other)?, name.into()))
        }
        _ => plain(args, line),
    }
}

fn plain<'a>(args: &Args, line: &'a [u8]) -> Put<'a> {
    let other = || Problem::Form { between: if args.has(&TAB) { "tab" } else { "space" }, line: lines::shown(line) };
    let at = line.iter().position(|byte| *byte == args.between()).ok_or_else(other)?;
    let id = lines::id_of(&line[..at]).ok_or_else(other)?;
    Ok((id, line[at + 1..].into()))
}

fn of_record<'a>(record: &Record<'a>) -> Put<'a> {
    let id = lines::id_of(record.data).ok_or_else(|| Problem::Data(lines::shown(record.data)))?;
    Ok((id, record.key.into()))
}
