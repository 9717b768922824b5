//! Questions with their answers, as lines for people or as objects of JSON.
use cqdb::{preflight, Preflight, Report};

use crate::compare::{self, QUESTIONS};
use crate::json;
use crate::outcome::{Failure, Output};

/// A question with its answer.
pub struct Asked {
    /// The position of the image in its bundle, where every image is asked.
    pub position: Option<u64>,
    /// Its number, the same in all languages, where it has one.
    pub number: Option<u32>,
    pub question: &'static str,
    pub said: Said,
}

pub enum Said {
    Yes,
    /// Yes, since nothing was there to compare: why.
    YesAboutNothing(&'static str),
    /// Yes as far as it can be asked: what is left out, and why.
    YesInPart(&'static str),
    /// No: what breaks it, and the numbers that show it with their names.
    No(String, Vec<(&'static str, u64)>),
    /// An earlier question fails, so it is not known.
    NotAsked,
}

/// What is said of a round without an id where its ids are asked about.
pub const NONE_SIGHTED: Said = Said::YesAboutNothing("the round has no id, so nothing was compared");

impl From<Result<(), String>> for Said {
    fn from(answer: Result<(), String>) -> Said {
        answer.map_or_else(|breaks| Said::No(breaks, Vec::new()), |()| Said::Yes)
    }
}

impl Said {
    pub fn is_yes(&self) -> bool {
        matches!(self, Said::Yes | Said::YesAboutNothing(_) | Said::YesInPart(_))
    }

    /// The question with its answer, where it has no number.
    pub fn line(&self, question: &str) -> String {
        format!("{:<3}  {question}{}", self.word(), self.why())
    }

    /// The answer in a word.
    fn word(&self) -> &'static str {
        match self {
            Said::Yes | Said::YesAboutNothing(_) | Said::YesInPart(_) => "yes",
            Said::No(..) => "no",
            Said::NotAsked => "-",
        }
    }

    /// What is said behind the question.
    fn why(&self) -> String {
        match self {
            Said::Yes => String::new(),
            Said::YesAboutNothing(why) | Said::YesInPart(why) => format!(": {why}"),
            Said::No(breaks, _) => format!(": {breaks}"),
            Said::NotAsked => ": not asked".to_string(),
        }
    }
}

impl Asked {
    /// A question of the tool's own.
    pub fn own(question: &'static str, answer: impl Into<Said>) -> Asked {
        Asked { position: None, number: None, question, said: answer.into() }
    }

    pub fn is_yes(&self) -> bool {
        self.said.is_yes()
    }

    fn line(&self) -> String {
        let position = self.position.map_or(String::new(), |position| format!("{position} "));
        let number = self.number.map_or(String::new(), |number| number.to_string());
        format!("{position}{:<3}  {number:>2}  {}{}", self.said.word(), self.question, self.said.why())
    }

    fn json(&self, out: &mut Output) -> Result<(), Failure> {
        let position = self.position.map_or(String::new(), |position| format!("\"position\":{position},"));
        let number = self.number.map_or("null".to_string(), |number| number.to_string());
        let yes = match self.said {
            Said::Yes | Said::YesAboutNothing(_) | Said::YesInPart(_) => "true",
            Said::No(..) => "false",
            Said::NotAsked => "null",
        };
        let text = self.question;
        out.bytes(format!("{{{position}\"question\":{number},\"text\":\"{text}\",\"yes\":{yes}").as_bytes())?;
        match &self.said {
            Said::No(breaks, numbers) => {
                out.bytes(b",\"breaks\":")?;
                json::quoted(out, breaks.as_bytes())?;
                numbers.iter().try_for_each(|(name, number)| out.bytes(format!(",\"{name}\":{number}").as_bytes()))?;
            }
            Said::YesAboutNothing(_) => out.bytes(b",\"compared\":0")?,
            Said::Yes | Said::YesInPart(_) | Said::NotAsked => {}
        }
        out.bytes(b"}\n")
    }
}

/// How much a yes is about.
#[derive(Clone, Copy, Default)]
pub struct Counts {
    pub sighted: usize,
    pub compared: usize,
    pub added: usize,
    pub unsighted: usize,
}

/// The questions of a report with their answers, and how much they are about.
#[derive(Default)]
pub struct Answers {
    pub asked: Vec<Asked>,
    pub counts: Counts,
    pub is_first: bool,
}

impl Answers {
    /// The ten questions of a report, or the six of a first one. Behind the first that fails none is asked.
    pub fn of_report(report: &Report, position: Option<u64>) -> Answers {
        let answer = preflight(report);
        let (fails, all) = (answer.question(), if report.old.is_none() { 6 } else { 10 });
        let said = |number| match answer {
            _ if fails == 0 || number < fails => Said::Yes,
            _ if number > fails => Said::NotAsked,
            _ => Said::No(compare::what_breaks(report, &answer), compare::numbers(&answer)),
        };
        let question = |number| QUESTIONS[number as usize - 1];
        let asked = (1..=all).map(|number| Asked {
            position,
            number: Some(number),
            question: question(number),
            said: said(number),
        });
        let counts = match answer {
            Preflight::Yes { sighted, compared, added, unsighted } => Counts { sighted, compared, added, unsighted },
            _ => Counts::default(),
        };
        Answers { asked: asked.collect(), counts, is_first: report.old.is_none() }
    }

    pub fn all_yes(&self) -> bool {
        self.asked.iter().all(Asked::is_yes)
    }

    /// The lines; where every answer is yes, the last one says how much was compared.
    pub fn text(&self) -> String {
        let lines = self.asked.iter().map(Asked::line).chain(self.all_yes().then(|| self.about()));
        lines.map(|line| line + "\n").collect()
    }

    fn about(&self) -> String {
        let Counts { sighted, compared, added, unsighted } = self.counts;
        let ids = if sighted == 1 { "id" } else { "ids" };
        match self.is_first {
            true => format!("first report of {sighted} sighted {ids}, {unsighted} on the sheet not sighted"),
            false => format!(
                "compared {compared} of {sighted} sighted {ids}, {added} new, {unsighted} on the sheet not sighted"
            ),
        }
    }

    pub fn json(&self, out: &mut Output) -> Result<(), Failure> {
        self.asked.iter().try_for_each(|asked| asked.json(out))?;
        let Counts { sighted, compared, added, unsighted } = self.counts;
        let about = format!(
            ",\"sighted\":{sighted},\"compared\":{compared},\"added\":{added},\"unsighted\":{unsighted},\"first\":{}",
            self.is_first
        );
        out.text(&format!("{{\"may_leave\":{}{}}}", self.all_yes(), if self.all_yes() { &about } else { "" }))
    }
}
