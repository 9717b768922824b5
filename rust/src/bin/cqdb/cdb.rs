//! The form of `cdb -d` and `cdb -c`: records `+klen,dlen:key->data`, and an empty line behind the last.
use std::ffi::OsStr;
use std::io::{self, BufRead, Read};

use crate::args::{Args, Opt};
use crate::input::{Input, INCOMPLETE};
use crate::lines;
use crate::outcome::{self, Failure, Output};

pub const CDB: Opt = Opt::plain("--cdb", "records of cdb, +klen,dlen:key->data, of name and id");

/// Prints the record of a name and its id.
pub fn print(out: &mut Output, name: &[u8], id: u32) -> Result<(), Failure> {
    let data = id.to_string();
    out.bytes(format!("+{},{}:", name.len(), data.len()).as_bytes())?;
    out.name(name)?;
    out.line(&[b"->", data.as_bytes()], b'\n')
}

/// A record with its number, counted from 1.
pub struct Record<'a> {
    pub number: u64,
    pub key: &'a [u8],
    pub data: &'a [u8],
}

/// The records of an input.
pub struct Records {
    input: Input,
    /// Are records taken that no empty line follows?
    incomplete: bool,
    number: u64,
    key: Vec<u8>,
    data: Vec<u8>,
}

impl Records {
    /// Of the file, or of standard input where there is none or it is called `-`.
    pub fn open(args: &Args, path: Option<&OsStr>) -> Result<Records, Failure> {
        let (input, incomplete) = (Input::open(path)?, args.has(&INCOMPLETE));
        Ok(Records { input, incomplete, number: 0, key: Vec::new(), data: Vec::new() })
    }

    /// What messages call the input.
    pub fn name(&self) -> &str {
        &self.input.name
    }

    /// The next record. None behind the last. Behind a record of another form nobody knows where the
    /// next begins, so that is a failure.
    pub fn read(&mut self) -> Result<Option<Record<'_>>, Failure> {
        self.number += 1;
        let Some((key, data)) = self.lengths()? else { return Ok(None) };
        self.key = self.bytes(key)?;
        self.fixed(b"->")?;
        self.data = self.bytes(data)?;
        self.fixed(b"\n")?;
        Ok(Some(Record { number: self.number, key: &self.key, data: &self.data }))
    }

    fn failed(&self, error: Option<io::Error>) -> Failure {
        match error {
            Some(error) if error.kind() != io::ErrorKind::UnexpectedEof => {
                Failure::new(format!("cannot read {}: {error}", self.input.name))
            }
            _ => Failure::new(format!("{}, record {}: not +klen,dlen:key->data", self.input.name, self.number)),
        }
    }

    fn bytes(&mut self, length: u32) -> Result<Vec<u8>, Failure> {
        let mut bytes = Vec::new();
        outcome::reserve(&mut bytes, length as usize, || format!("record {} of {}", self.number, self.input.name))?;
        let read = self.input.by_ref().take(length.into()).read_to_end(&mut bytes);
        match read {
            Ok(read) if read == length as usize => Ok(bytes),
            other => Err(self.failed(other.err())),
        }
    }

    fn fixed(&mut self, text: &[u8]) -> Result<(), Failure> {
        match self.bytes(text.len() as u32)? == text {
            true => Ok(()),
            false => Err(self.failed(None)),
        }
    }

    /// The lengths of key and data; none where the empty line stands in their place.
    fn lengths(&mut self) -> Result<Option<(u32, u32)>, Failure> {
        let mut head = Vec::new();
        // Two numbers of ten digits, a plus sign, a comma and a colon.
        let read = self.input.by_ref().take(1).read_to_end(&mut head);
        read.map_err(|error| self.failed(Some(error)))?;
        if head.is_empty() || head == b"\n" {
            return self.end(head.is_empty()).map(|()| None);
        }
        let read = self.input.by_ref().take(22).read_until(b':', &mut head);
        read.map_err(|error| self.failed(Some(error)))?;
        let numbers = head.strip_prefix(b"+").and_then(|head| head.strip_suffix(b":"));
        let pair = numbers.and_then(|numbers| {
            let at = numbers.iter().position(|byte| *byte == b',')?;
            Some((lines::id_of(&numbers[..at])?, lines::id_of(&numbers[at + 1..])?))
        });
        pair.map(Some).ok_or_else(|| self.failed(None))
    }

    /// The end of the records: an empty line, with nothing behind it. Records that were cut behind one of them have none.
    fn end(&mut self, cut: bool) -> Result<(), Failure> {
        let (name, option) = (&self.input.name, INCOMPLETE.long);
        if cut && !self.incomplete {
            return Err(Failure::new(format!(
                "{name} ends behind record {} without an empty line, so it may be cut: {option} takes it",
                self.number - 1
            )));
        }
        if !self.input.fill()?.0.is_empty() {
            return Err(Failure::new(format!("{}: something stands behind the empty line", self.input.name)));
        }
        self.input.at_end()
    }
}
