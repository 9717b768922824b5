//! The words of a command: options and operands.
use std::ffi::{OsStr, OsString};
use std::fmt::Write;
use std::os::unix::ffi::OsStrExt;
use std::path::Path;

use crate::outcome::{Failure, Outcome};

/// A command of the tool.
pub struct Command {
    pub name: &'static str,
    /// The words behind the name, as the help shows them.
    pub usage: &'static str,
    /// One line for the overview.
    pub summary: &'static str,
    /// What the help says below the usage.
    pub text: &'static str,
    pub options: &'static [Opt],
    /// The smallest and the largest number of operands.
    pub operands: (usize, usize),
    pub run: fn(Args) -> Outcome,
}

/// An option.
pub struct Opt {
    pub long: &'static str,
    pub short: Option<u8>,
    /// What the help calls its value, where it has one.
    pub value: Option<&'static str>,
    pub text: &'static str,
}

impl Opt {
    /// An option without a value.
    pub const fn plain(long: &'static str, text: &'static str) -> Opt {
        Opt { long, short: None, value: None, text }
    }

    /// An option with a value, and what the help calls that.
    pub const fn with_value(long: &'static str, value: &'static str, text: &'static str) -> Opt {
        Opt { long, short: None, value: Some(value), text }
    }
}

/// Lines that end with a zero byte.
pub const ZERO: Opt =
    Opt { short: Some(b'0'), ..Opt::plain("--zero", "lines end with a zero byte, so a name may hold a line feed") };
/// A tab between id and name.
pub const TAB: Opt = Opt::plain("--tab", "a tab stands between id and name, in place of a space");
/// Lines of Windows.
pub const WINDOWS: Opt = Opt::plain("--windows", "lines end with CR LF, and a byte order mark may come first");
/// Every image of a bundle.
pub const ALL: Opt = Opt::plain("--all", "ask every image of a bundle; the position of the image comes first");

impl Command {
    pub fn help(&self) -> String {
        let mut text = format!("Usage: cqdb {} {}\n\n{}\n", self.name, self.usage, self.text.trim());
        if !self.options.is_empty() {
            text.push_str("\nOptions:\n");
        }
        for option in self.options {
            let short = option.short.map_or(String::new(), |letter| format!("-{}, ", letter as char));
            let value = option.value.map_or(String::new(), |value| format!(" {value}"));
            let _ = writeln!(text, "  {:18} {}", format!("{short}{}{value}", option.long), option.text);
        }
        text
    }
}

/// The options that were given, with their values, and the operands.
pub struct Args {
    /// The options that the command has.
    known: &'static [Opt],
    given: Vec<(&'static str, OsString)>,
    operands: Vec<OsString>,
}

impl Args {
    /// None where the help was asked for.
    pub fn parse(command: &Command, words: Vec<OsString>) -> Result<Option<Args>, Failure> {
        let mut args = Args { known: command.options, given: Vec::new(), operands: Vec::new() };
        let mut words = words.into_iter();
        while let Some(word) = words.next() {
            match word.as_bytes() {
                b"--" => break,
                b"--help" | b"-h" => return Ok(None),
                [b'-', b'-', ..] => args.long(command, &word, &mut words)?,
                [b'-', letters @ ..] if !letters.is_empty() => {
                    for letter in letters {
                        let option = find(command, &word, |option| option.short == Some(*letter))?;
                        args.given.push((option.long, OsString::new()));
                    }
                }
                _ => args.operands.push(word),
            }
        }
        args.operands.extend(words);
        let (least, most) = command.operands;
        if (least..=most).contains(&args.operands.len()) {
            return Ok(Some(args));
        }
        let what = if args.operands.len() < least { "a word is missing" } else { "there are too many words" };
        Err(Failure::new(format!("{what}: cqdb {} {}", command.name, command.usage)))
    }

    /// An option by its long name; its value follows as the next word, or in the same behind `=`.
    fn long(
        &mut self,
        command: &Command,
        word: &OsStr,
        words: &mut impl Iterator<Item = OsString>,
    ) -> Result<(), Failure> {
        let bytes = word.as_bytes();
        let (name, behind) = match bytes.iter().position(|byte| *byte == b'=') {
            Some(at) => (&bytes[..at], Some(OsStr::from_bytes(&bytes[at + 1..]).to_owned())),
            None => (bytes, None),
        };
        let option = find(command, word, |option| option.long.as_bytes() == name)?;
        let value = match (option.value, behind) {
            (None, None) => OsString::new(),
            (None, Some(_)) => return Err(Failure::new(format!("{} has no value", option.long))),
            (Some(_), Some(value)) => value,
            (Some(what), None) => {
                words.next().ok_or_else(|| Failure::new(format!("{} needs its {what}", option.long)))?
            }
        };
        self.given.push((option.long, value));
        Ok(())
    }

    pub fn has(&self, option: &Opt) -> bool {
        self.value(option).is_some()
    }

    /// Does the command have the option?
    pub fn knows(&self, option: &Opt) -> bool {
        self.known.iter().any(|known| known.long == option.long)
    }

    /// The value of an option that was given; of the last where it was given again.
    pub fn value(&self, option: &Opt) -> Option<&OsStr> {
        self.given.iter().rev().find(|(long, _)| *long == option.long).map(|(_, value)| value.as_os_str())
    }

    /// The path that is the value of an option.
    pub fn path_of(&self, option: &Opt) -> Option<&Path> {
        self.value(option).map(Path::new)
    }

    /// Fails where two options were given of which one alone can be meant.
    pub fn not_both(&self, options: &[&Opt]) -> Result<(), Failure> {
        let given: Vec<&str> = options.iter().filter(|option| self.has(option)).map(|option| option.long).collect();
        match given.as_slice() {
            [first, second, ..] => Err(Failure::new(format!("say {first} or {second}, not both"))),
            _ => Ok(()),
        }
    }

    /// Fails where an option was given twice: which of the two is meant cannot be told.
    pub fn none_twice(&self) -> Result<(), Failure> {
        let twice = |at: usize| self.given[..at].iter().any(|(long, _)| *long == self.given[at].0);
        match (0..self.given.len()).find(|at| twice(*at)) {
            Some(at) => Err(Failure::new(format!("{} is given twice", self.given[at].0))),
            None => Ok(()),
        }
    }

    /// The byte that ends a line.
    pub fn end(&self) -> u8 {
        if self.has(&ZERO) {
            0
        } else {
            b'\n'
        }
    }

    /// The byte between id and name.
    pub fn between(&self) -> u8 {
        if self.has(&TAB) {
            b'\t'
        } else {
            b' '
        }
    }

    pub fn path(&self, at: usize) -> &Path {
        Path::new(&self.operands[at])
    }

    pub fn operand(&self, at: usize) -> Option<&OsStr> {
        self.operands.get(at).map(OsString::as_os_str)
    }

    pub fn count(&self) -> usize {
        self.operands.len()
    }

    pub fn bytes(&self, at: usize) -> &[u8] {
        self.operands[at].as_bytes()
    }

    /// The operands from a place on, as bytes.
    pub fn bytes_from(&self, at: usize) -> impl Iterator<Item = &[u8]> {
        self.operands[at..].iter().map(|word| word.as_bytes())
    }
}

fn find<'a>(command: &'a Command, word: &OsStr, is: impl Fn(&Opt) -> bool) -> Result<&'a Opt, Failure> {
    command.options.iter().find(|option| is(option)).ok_or_else(|| {
        let (word, name) = (word.to_string_lossy(), command.name);
        Failure::new(format!("no option {word}: 'cqdb {name} --help' lists them; '--' ends the options"))
    })
}
