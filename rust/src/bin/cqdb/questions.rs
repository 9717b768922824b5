//! What is asked: the operands, or else the lines of standard input, in rounds; and the answers, a line for each
//! question.
use std::io::{self, IsTerminal};

use cqdb::CQDB;

use crate::answers::{Form, Row, Value, QUIET};
use crate::args::{Args, ALL};
use crate::files::Source;
use crate::lines::{self, Lines};
use crate::outcome::{self, Answer, Failure, Outcome, Output};

/// What an image says to a question.
pub enum Said<'a> {
    Found(Row<'a>),
    /// The row without its value, and what the image lacks.
    Lacks(Row<'a>, String),
    /// The word is no question.
    Unfit(String),
}

/// A question that can be put to images.
pub trait Question {
    /// The part of a row that is asked for.
    const VALUE: Value;

    /// What an image says to each of up to 512 words, in their order.
    fn ask<'a>(&self, db: &CQDB<'a>, words: &[&'a [u8]]) -> Result<Vec<Said<'a>>, Failure>;
}

/// Puts words to the image of an operand, or to every image of a bundle, and prints a line for each question. What is
/// lacking is told. The places are that of the image and the first of the words.
pub fn put_to_image(args: &Args, command: &str, places: (usize, usize), question: &impl Question) -> Outcome {
    let source = Source::open(args.path(places.0))?;
    let images = if args.has(&ALL) { source.images()? } else { vec![(0, source.image()?)] };
    let mut asking = Asking {
        form: Form::new(args, value_of(question))?,
        out: Output::new(),
        command,
        name: source.name(),
        told: !args.has(&QUIET),
        lacking: 0,
        unfit: 0,
    };
    rounds(args, places.1, |words| {
        let said: Result<Vec<_>, Failure> =
            images.iter().map(|(position, db)| Ok((*position, question.ask(db, words)?))).collect();
        asking.round(words, said?)
    })?;
    let answer = asking.finish()?;
    source.has_stayed()?;
    Ok(answer)
}

fn value_of<Q: Question>(_: &Q) -> Value {
    Q::VALUE
}

struct Asking<'a> {
    form: Form<'a>,
    out: Output,
    command: &'a str,
    name: String,
    told: bool,
    lacking: u64,
    unfit: u64,
}

impl Asking<'_> {
    /// The answers of each image to a round of words.
    fn round(&mut self, words: &[&[u8]], said: Vec<(u64, Vec<Said>)>) -> Result<(), Failure> {
        for (at, word) in words.iter().enumerate() {
            let mut found = false;
            for (position, said) in &said {
                if let Said::Found(row) = said[at] {
                    found = true;
                    self.form.print(&mut self.out, Some(*position), row, None)?;
                }
            }
            match said.first().map(|(_, said)| &said[at]) {
                Some(Said::Lacks(row, what)) if !found => self.lacks(*row, what)?,
                Some(Said::Unfit(what)) => self.not_a_question(word, what)?,
                _ => {}
            }
        }
        self.out.flush()
    }

    fn lacks(&mut self, row: Row, what: &str) -> Result<(), Failure> {
        self.lacking += 1;
        self.form.print(&mut self.out, None, row, None)?;
        if self.told {
            self.out.tell(&format!("{}: {} has {what}", self.command, self.name))?;
        }
        Ok(())
    }

    fn not_a_question(&mut self, word: &[u8], what: &str) -> Result<(), Failure> {
        self.unfit += 1;
        self.form.print(&mut self.out, None, Row { id: None, name: None }, Some(word))?;
        self.out.tell(&format!("{}: {what}", self.command))
    }

    fn finish(mut self) -> Outcome {
        self.out.flush()?;
        match (self.unfit, self.lacking) {
            (0, 0) => Ok(Answer::Yes),
            (0, _) => Ok(Answer::No),
            (unfit, _) => Err(Failure::new(not_answered(unfit))),
        }
    }
}

/// The message where so many words were no questions.
pub fn not_answered(words: u64) -> String {
    format!("{} not answered", outcome::count(words, "word was", "words were"))
}

/// A row for the id of each word, as `name_of` names it. A word that is no id does not stand in the way of the others.
pub fn names_of_ids<'a>(
    words: &[&'a [u8]],
    name_of: impl Fn(&[u32]) -> Result<Vec<Option<&'a [u8]>>, Failure>,
) -> Result<Vec<Said<'a>>, Failure> {
    let ids: Vec<Option<u32>> = words.iter().map(|word| lines::id_of(word)).collect();
    let names = name_of(&ids.iter().map(|id| id.unwrap_or(0)).collect::<Vec<_>>())?;
    let said = words.iter().zip(ids).zip(names).map(|((word, id), name)| match (id, name) {
        (None, _) => Said::Unfit(format!("{} is no decimal id up to 4294967295{}", lines::shown(word), hint(word))),
        (Some(id), Some(name)) => Said::Found(Row { id: Some(id), name: Some(name) }),
        (Some(id), None) => Said::Lacks(Row { id: Some(id), name: None }, format!("no name for id {id}")),
    });
    Ok(said.collect())
}

/// What to do where a word ends with a carriage return.
pub fn hint(word: &[u8]) -> &'static str {
    if word.ends_with(b"\r") {
        ": --windows drops the carriage return"
    } else {
        ""
    }
}

/// The most questions that one call of the library takes.
const ROUND: usize = 512;
/// A round ends behind so many bytes, since its names are joined in memory.
const BYTES: usize = 1 << 20;

/// Calls with the questions in rounds of up to 512: the operands from a place on, or the lines of standard input where
/// there is none. From a terminal each line is a round, so that its answer comes at once. An input without a line is a
/// failure: nothing was asked, as where the command that should have written the questions has failed.
pub fn rounds(args: &Args, from: usize, mut ask: impl FnMut(&[&[u8]]) -> Result<(), Failure>) -> Result<(), Failure> {
    if args.operand(from).is_some() {
        let words: Vec<&[u8]> = args.bytes_from(from).collect();
        return words.chunks(ROUND).try_for_each(ask);
    }
    let most = if io::stdin().is_terminal() { 1 } else { ROUND };
    let mut lines = Lines::of_questions(args.end())?;
    let mut asked = false;
    loop {
        let (mut round, mut bytes) = (Vec::new(), 0);
        while round.len() < most && bytes < BYTES {
            let Some((number, line)) = lines.read()? else { break };
            let line = copy(lines::without_windows(args, number, line).unwrap_or(line))?;
            bytes += line.len();
            round.push(line);
        }
        match round.is_empty() {
            true if asked => return Ok(()),
            true => return Err(Failure::new("nothing was asked: standard input has no line")),
            false => asked = true,
        }
        ask(&round.iter().map(Vec::as_slice).collect::<Vec<_>>())?;
    }
}

fn copy(line: &[u8]) -> Result<Vec<u8>, Failure> {
    let mut bytes = Vec::new();
    outcome::reserve(&mut bytes, line.len(), || "a line of standard input".to_string())?;
    bytes.extend_from_slice(line);
    Ok(bytes)
}
