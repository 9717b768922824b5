//! Dates, and the windows in which prisms stand.
use std::ffi::OsStr;
use std::os::unix::ffi::OsStrExt;
use std::path::Path;

use cqdb::{Date, Refusal, Window, CQDB};

use crate::args::Args;
use crate::files;
use crate::lines::{self, Lines};
use crate::outcome::Failure;

/// A date of the form 2024-03-31. Whether it exists is for the archive to say.
fn date_of(bytes: &[u8]) -> Option<Date> {
    let parts: Vec<&[u8]> = bytes.split(|byte| *byte == b'-').collect();
    let lengths: Vec<usize> = parts.iter().map(|part| part.len()).collect();
    let numbers: Vec<u32> = parts.iter().filter_map(|part| lines::id_of(part)).collect();
    match (lengths.as_slice(), numbers.as_slice()) {
        ([4, 2, 2], [year, month, day]) => Some(Date { year: *year as u16, month: *month as u8, day: *day as u8 }),
        _ => None,
    }
}

/// The date that a word says.
pub fn of_word(word: &OsStr) -> Result<Date, Failure> {
    date_of(word.as_bytes())
        .ok_or_else(|| Failure::new(format!("{} is no date as 2024-03-31", lines::shown(word.as_bytes()))))
}

/// The windows of a file and a date, all of them ones that the archive takes.
pub struct Windows {
    date: Date,
    /// In the order of their ids.
    list: Vec<Window>,
}

impl Windows {
    /// Reads the lines of a file: an id, its first date and the date from which on it stands no longer.
    pub fn read(args: &Args, path: &Path, date: Date) -> Result<Windows, Failure> {
        let form = "an id, a first date and an end date as 2024-03-31, a space between";
        let mut list = Lines::of_list(args, Some(path.as_os_str()), b'\n')?.parsed(args, form, window_of)?;
        if let Err(refusal) = refusal_of(date, &list) {
            return Err(refused(path, date, &list, refusal));
        }
        list.sort_unstable_by_key(|window| window.id);
        Ok(Windows { date, list })
    }

    /// The name of an id on the date. The windows of other ids do not matter, now that all are accepted.
    pub fn name_on<'a>(&self, db: &CQDB<'a>, id: u32) -> Result<Option<&'a [u8]>, Failure> {
        let first = self.list.partition_point(|window| window.id < id);
        let behind = self.list.partition_point(|window| window.id <= id);
        let name = db.name_on(id, self.date, &self.list[first..behind]).map_err(files::refused)?;
        Ok(name.map(|name| &**name))
    }

    /// Has every id of a round a window that holds the date and another one, that of the last report?
    pub fn hold_both(&self, last: Date, round: &[u32]) -> Result<cqdb::PreflightDates, Failure> {
        // Windows and date were accepted before, so a refusal is about the other date.
        cqdb::preflight_dates(&self.list, round, last, self.date).map_err(|refusal| {
            Failure::new(format!("the date of the last report, {}, {}", shown(last), no_day("", refusal)))
        })
    }
}

fn window_of(line: &[u8]) -> Option<Window> {
    let [id, first, end] = lines::fields(line)?;
    Some(Window { id: lines::id_of(id)?, first: date_of(first)?, end: date_of(end)? })
}

/// What the archive says of a date and windows: the refusal is the same for every image and id.
fn refusal_of(date: Date, windows: &[Window]) -> Result<(), Refusal> {
    let empty = cqdb::MemoryWriter::new().finish()?;
    let opened = CQDB::new(&empty).map_err(|error| Refusal::of(&error).unwrap_or(Refusal::TooShort))?;
    opened.name_on(0, date, windows).map(|_| ())
}

/// The failure, with the date or the line that the refusal is about.
fn refused(path: &Path, date: Date, windows: &[Window], refusal: Refusal) -> Failure {
    if let Err(refusal) = refusal_of(date, &[]) {
        return Failure::new(format!("the date asked about, {}, {}", shown(date), no_day("", refusal)));
    }
    let line = windows.iter().position(|window| refusal_of(date, &[*window]) == Err(refusal));
    let what = line.map(|line| &windows[line]).map_or_else(
        || files::refusal_in_words(refusal),
        |window| match refusal {
            Refusal::NoSuchDate if refusal_of(window.first, &[]).is_err() => {
                format!("the first date, {}, {}", shown(window.first), no_day("", refusal))
            }
            Refusal::NoSuchDate => {
                format!("the end date, {}, {}", shown(window.end), no_day(", nor 2200-01-01", refusal))
            }
            _ => files::refusal_in_words(refusal),
        },
    );
    let line = line.map_or(String::new(), |line| format!(", line {}", line + 1));
    Failure::new(format!("{}{line}: {what}", files::shown(path)))
}

fn shown(date: Date) -> String {
    format!("{:04}-{:02}-{:02}", date.year, date.month, date.day)
}

/// What is said of a refused date; `nor` names a day behind those years that would be taken too.
fn no_day(nor: &str, refusal: Refusal) -> String {
    format!("is no day of the years 1900 to 2199{nor} (refusal {})", refusal.number())
}
