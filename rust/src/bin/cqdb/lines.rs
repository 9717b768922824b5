//! Lines of a file or of standard input.
use std::ffi::OsStr;
use std::fmt;
use std::io::BufRead;
use std::path::Path;

use crate::args::{Args, WINDOWS, ZERO};
use crate::input::{Input, INCOMPLETE};
use crate::outcome::{self, Failure};

/// The lines of an input, counted from 1.
pub struct Lines {
    input: Input,
    end: u8,
    last: Last,
    number: u64,
    line: Vec<u8>,
}

/// What is done with a last line that no end follows.
enum Last {
    Taken,
    /// The message ends with these words.
    Refused(String),
}

impl Lines {
    /// The lines of a list: a file, or standard input where there is none or it is called `-`. A list may have been cut in
    /// the middle of a name or an id, so one whose last line has no end fails, unless that was asked for.
    pub fn of_list(args: &Args, path: Option<&OsStr>, end: u8) -> Result<Lines, Failure> {
        let option = if args.knows(&INCOMPLETE) { format!(": {} takes it", INCOMPLETE.long) } else { String::new() };
        let last = if args.has(&INCOMPLETE) { Last::Taken } else { Last::Refused(option) };
        Ok(Lines { input: Input::open(path)?, end, last, number: 0, line: Vec::new() })
    }

    /// The lines of standard input, each a question whose answer repeats it; the last one needs no end.
    pub fn of_questions(end: u8) -> Result<Lines, Failure> {
        Ok(Lines { input: Input::open(None)?, end, last: Last::Taken, number: 0, line: Vec::new() })
    }

    /// What messages call the input.
    pub fn name(&self) -> &str {
        &self.input.name
    }

    /// The next line with its number, without the byte that ends it; none at the end of the input.
    pub fn read(&mut self) -> Result<Option<(u64, &[u8])>, Failure> {
        self.line.clear();
        self.number += 1;
        match self.append()? {
            true => Ok(Some((self.number, &self.line))),
            false => Ok(None),
        }
    }

    /// The line that was read last, with the next one behind it and the byte between them; none at the end of the input.
    /// It keeps its number.
    pub fn read_on(&mut self) -> Result<Option<(u64, &[u8])>, Failure> {
        let (number, end) = (self.number, self.end);
        self.extend(&[end])?;
        self.number += 1;
        match self.append()? {
            true => Ok(Some((number, &self.line))),
            false => Ok(None),
        }
    }

    /// The line that was read last.
    pub fn last(&self) -> &[u8] {
        &self.line
    }

    /// Reads a line behind those that are there. False at the end of the input.
    fn append(&mut self) -> Result<bool, Failure> {
        let mut any = false;
        loop {
            let (piece, name) = self.input.fill()?;
            if piece.is_empty() {
                self.input.at_end()?;
                return if any { self.without_end().map(|()| true) } else { Ok(false) };
            }
            any = true;
            let end = piece.iter().position(|byte| *byte == self.end);
            let part = &piece[..end.unwrap_or(piece.len())];
            let (line, number) = (&mut self.line, self.number);
            outcome::reserve(line, part.len(), || format!("line {number} of {name}"))?;
            line.extend_from_slice(part);
            let read = part.len() + usize::from(end.is_some());
            self.input.consume(read);
            if end.is_some() {
                return Ok(true);
            }
        }
    }

    fn extend(&mut self, bytes: &[u8]) -> Result<(), Failure> {
        outcome::reserve(&mut self.line, bytes.len(), || format!("line {} of {}", self.number, self.input.name))?;
        self.line.extend_from_slice(bytes);
        Ok(())
    }

    /// What is said of a last line that no end follows.
    fn without_end(&self) -> Result<(), Failure> {
        let Last::Refused(option) = &self.last else { return Ok(()) };
        let (name, number, line) = (&self.input.name, self.number, shown(&self.line));
        let end = if self.end == 0 { "zero byte" } else { "line feed" };
        let what = format!("the list ends without a {end} behind {line}, so it may be cut");
        Err(Failure::new(format!("{name}, line {number}: {what}{option}")))
    }

    /// What `parse` makes of each line. A line of another form is a failure that says what it is not.
    pub fn parsed<T>(mut self, args: &Args, form: &str, parse: impl Fn(&[u8]) -> Option<T>) -> Result<Vec<T>, Failure> {
        let (name, mut list) = (self.input.name.clone(), Vec::new());
        while let Some((number, line)) = self.read()? {
            let at = |what: String| Failure::new(format!("{name}, line {number}: {what}"));
            let line = without_windows(args, number, line).map_err(|what| at(what.to_string()))?;
            let item = parse(line).ok_or_else(|| at(format!("not {form}: {}", shown(line))))?;
            outcome::reserve(&mut list, 1, || name.clone())?;
            list.push(item);
        }
        Ok(list)
    }
}

/// What Windows adds to a line where that was not asked for.
pub enum OfWindows {
    CarriageReturn,
    ByteOrderMark,
    Utf16,
}

/// The line without what Windows adds; where that was not asked for, it is a problem with a name.
pub fn without_windows<'a>(args: &Args, number: u64, line: &'a [u8]) -> Result<&'a [u8], OfWindows> {
    let mut line = line;
    if number == 1 {
        line = match line {
            [0xff, 0xfe, ..] | [0xfe, 0xff, ..] => return Err(OfWindows::Utf16),
            [0xef, 0xbb, 0xbf, rest @ ..] if args.has(&WINDOWS) => rest,
            [0xef, 0xbb, 0xbf, ..] => return Err(OfWindows::ByteOrderMark),
            _ => line,
        };
    }
    match line {
        // Where lines end with a zero byte, a carriage return is of the name.
        _ if args.has(&ZERO) => Ok(line),
        [rest @ .., b'\r'] if args.has(&WINDOWS) => Ok(rest),
        [.., b'\r'] => Err(OfWindows::CarriageReturn),
        _ => Ok(line),
    }
}

impl fmt::Display for OfWindows {
    fn fmt(&self, f: &mut fmt::Formatter<'_>) -> fmt::Result {
        f.write_str(match self {
            OfWindows::CarriageReturn => "a carriage return before the line feed (CR LF): --windows drops it",
            OfWindows::ByteOrderMark => "a byte order mark (EF BB BF) before the id: --windows passes over it",
            OfWindows::Utf16 => "the byte order mark of UTF-16: convert the list to UTF-8",
        })
    }
}

/// The number that 1 to 10 decimal digits are, if it is at most 4,294,967,295.
pub fn id_of(digits: &[u8]) -> Option<u32> {
    let number = std::str::from_utf8(digits).ok().filter(|digits| digits.bytes().all(|byte| byte.is_ascii_digit()));
    number.filter(|digits| digits.len() <= 10)?.parse().ok()
}

/// The parts of a line that has so many, one space between.
pub fn fields<const N: usize>(line: &[u8]) -> Option<[&[u8]; N]> {
    line.split(|byte| *byte == b' ').collect::<Vec<_>>().try_into().ok()
}

/// The ids of a file, one to a line.
pub fn ids(args: &Args, path: &Path) -> Result<Vec<u32>, Failure> {
    Lines::of_list(args, Some(path.as_os_str()), b'\n')?.parsed(args, "a decimal id up to 4294967295", id_of)
}

/// Bytes as a message shows them: text, at most 40 letters of it.
pub fn shown(bytes: &[u8]) -> String {
    // A letter has at most four bytes.
    let text: String = String::from_utf8_lossy(&bytes[..bytes.len().min(164)]).chars().take(41).collect();
    match text.char_indices().nth(40) {
        Some((end, _)) => format!("{:?}..", &text[..end]),
        None => format!("{text:?}"),
    }
}
