//! What is read from the front to the end: a file, or standard input.
use std::ffi::OsStr;
use std::fs::File;
use std::io::{self, BufRead, BufReader, IsTerminal, Read};
use std::os::fd::AsFd;
use std::path::Path;

use crate::args::Opt;
use crate::files::{self, State};
use crate::outcome::{self, Failure};

pub const INCOMPLETE: Opt =
    Opt::plain("--incomplete", "take a list that ends without its last line end: it may be cut");

/// An input that is read in order.
pub struct Input {
    reader: BufReader<File>,
    /// What messages call it.
    pub name: String,
    /// The state of the file when it was opened.
    before: Option<State>,
}

impl Input {
    /// A file, or standard input where there is none or it is called `-`.
    pub fn open(path: Option<&OsStr>) -> Result<Input, Failure> {
        const BUFFER: usize = 1 << 16;
        let (file, name) = match path {
            Some(path) if path != "-" => (File::open(path), path.to_string_lossy().into_owned()),
            _ => (standard_input()?, "standard input".to_string()),
        };
        let opened = file.and_then(|file| Ok((State::of(&file)?, file)));
        let (before, file) = opened.map_err(|error| files::cannot_read(Path::new(&name), error))?;
        Ok(Input { reader: BufReader::with_capacity(BUFFER, file), name, before })
    }

    /// Bytes that are not consumed yet, none at the end; and what messages call the input.
    pub fn fill(&mut self) -> Result<(&[u8], &str), Failure> {
        let bytes = self.reader.fill_buf().map_err(|error| files::cannot_read(Path::new(&self.name), error))?;
        Ok((bytes, &self.name))
    }

    /// Fails where the file is not as it was when it was opened.
    pub fn at_end(&self) -> Result<(), Failure> {
        State::has_stayed(&self.before, self.reader.get_ref(), &self.name)
    }
}

impl Read for Input {
    fn read(&mut self, into: &mut [u8]) -> io::Result<usize> {
        self.reader.read(into)
    }
}

impl BufRead for Input {
    fn fill_buf(&mut self) -> io::Result<&[u8]> {
        self.reader.fill_buf()
    }

    fn consume(&mut self, bytes: usize) {
        self.reader.consume(bytes);
    }
}

/// Standard input as a file, which is not closed by it.
fn standard_input() -> Result<io::Result<File>, Failure> {
    let input = files::standard_input()?;
    if input.is_terminal() {
        outcome::tell("lines are read from the terminal; Ctrl-D ends them");
    }
    Ok(input.as_fd().try_clone_to_owned().map(File::from))
}
