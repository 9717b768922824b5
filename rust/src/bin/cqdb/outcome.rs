//! How a command ends, and what it prints.
use std::io::{self, BufWriter, IsTerminal, Write};
use std::mem::size_of;
use std::process::ExitCode;

use crate::letters;
use crate::system::StandardOutput;

/// The answer of a command that could be carried out.
#[derive(Clone, Copy, PartialEq, Eq)]
pub enum Answer {
    Yes,
    /// Not found, or no.
    No,
}

impl From<bool> for Answer {
    fn from(yes: bool) -> Answer {
        if yes {
            Answer::Yes
        } else {
            Answer::No
        }
    }
}

/// Why a command could not be carried out.
#[derive(Debug)]
pub struct Failure(String);

impl Failure {
    pub fn new(what: impl Into<String>) -> Failure {
        Failure(what.into())
    }

    /// The same, with more behind it.
    pub fn and(self, more: &str) -> Failure {
        Failure(self.0 + more)
    }
}

pub type Outcome = Result<Answer, Failure>;

/// The exit status of an outcome, after its message.
pub fn exit(command: &str, outcome: Outcome) -> ExitCode {
    match outcome {
        Ok(Answer::Yes) => ExitCode::SUCCESS,
        Ok(Answer::No) => ExitCode::from(1),
        Err(Failure(what)) => {
            tell(&format!("{command}: {what}"));
            ExitCode::from(2)
        }
    }
}

/// A line for people, on standard error. Where that is closed there is nobody to tell.
pub fn tell(what: &str) {
    let _ = writeln!(io::stderr(), "cqdb: {what}");
}

/// A number with the word for one or for several.
pub fn count(number: u64, one: &str, several: &str) -> String {
    format!("{number} {}", if number == 1 { one } else { several })
}

/// Room for more elements of a list. A list that does not fit into memory is a failure, not the end of the process.
pub fn reserve<T>(list: &mut Vec<T>, more: usize, what: impl FnOnce() -> String) -> Result<(), Failure> {
    list.try_reserve(more).map_err(|_| out_of_memory(&what(), (list.len() + more) as u64 * size_of::<T>() as u64))
}

/// The failure of something that needs so many bytes.
pub fn out_of_memory(what: &str, bytes: u64) -> Failure {
    Failure::new(format!("not enough memory for {what}: {bytes} bytes"))
}

/// Prints a text and ends well.
pub fn say(text: &str) -> Outcome {
    let mut out = Output::new();
    out.bytes(text.as_bytes())?;
    out.finish(Answer::Yes)
}

/// Standard output, whose errors are failures. A reader who has gone, as `head` has after its last line, is none: the
/// rest is not printed, and the command goes on to its answer, so that its status does not depend on who reads.
pub struct Output {
    to: BufWriter<StandardOutput>,
    gone: bool,
    terminal: bool,
}

impl Output {
    pub fn new() -> Output {
        let to = BufWriter::with_capacity(1 << 16, StandardOutput);
        Output { to, gone: false, terminal: io::stdout().is_terminal() }
    }

    pub fn bytes(&mut self, bytes: &[u8]) -> Result<(), Failure> {
        if self.gone {
            return Ok(());
        }
        let written = self.to.write_all(bytes);
        self.printed(written)
    }

    /// A name, or another text that is not the tool's own. A terminal is shown the bytes that it would obey.
    pub fn name(&mut self, name: &[u8]) -> Result<(), Failure> {
        if self.terminal {
            return letters::for_terminal(name, |part| self.bytes(part));
        }
        self.bytes(name)
    }

    /// The parts, and the byte that ends the line.
    pub fn line(&mut self, parts: &[&[u8]], end: u8) -> Result<(), Failure> {
        parts.iter().try_for_each(|part| self.bytes(part))?;
        self.bytes(&[end])
    }

    pub fn text(&mut self, line: &str) -> Result<(), Failure> {
        self.line(&[line.as_bytes()], b'\n')
    }

    /// Lets what was printed so far go out.
    pub fn flush(&mut self) -> Result<(), Failure> {
        if self.gone {
            return Ok(());
        }
        let written = self.to.flush();
        self.printed(written)
    }

    /// A line for people, behind what was printed so far.
    pub fn tell(&mut self, what: &str) -> Result<(), Failure> {
        self.flush()?;
        tell(what);
        Ok(())
    }

    /// The answer, once all is written.
    pub fn finish(mut self, answer: impl Into<Answer>) -> Outcome {
        self.flush()?;
        Ok(answer.into())
    }

    fn printed(&mut self, written: io::Result<()>) -> Result<(), Failure> {
        match written {
            Err(error) if error.kind() == io::ErrorKind::BrokenPipe => {
                self.gone = true;
                Ok(())
            }
            Err(error) => Err(Failure::new(format!("cannot write to standard output: {error}"))),
            Ok(()) => Ok(()),
        }
    }
}
