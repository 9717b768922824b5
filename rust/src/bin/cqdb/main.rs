//! `cqdb`: makes, asks and checks constant quark database images from a shell. Each command is a file of its own, over
//! the crate's calls; COMMANDS lists them. The exit status is 0, 1 (not found, or no) or 2 (it could not be done).
mod alike;
mod answers;
mod args;
mod asked;
mod bundle;
mod cdb;
mod check;
mod compare;
mod completions;
mod csv;
mod dates;
mod diff;
mod difference;
mod files;
mod hash;
mod home;
mod id;
mod ids;
mod input;
mod json;
mod kind;
mod letters;
mod lines;
mod list;
mod load;
mod make;
mod making;
mod memory;
mod name;
mod on;
mod order;
mod outcome;
mod page;
mod panel;
mod positions;
mod preflight;
mod problem;
mod progress;
mod quadratic;
mod questions;
mod replace;
mod report;
mod sheet;
mod stats;
mod system;
mod tsv;

use std::ffi::OsString;
use std::io::{self, Write};
use std::process::ExitCode;

use args::{Args, Command};
use outcome::{Failure, Outcome};

const COMMANDS: &[&Command] = &[
    &make::COMMAND,
    &id::COMMAND,
    &ids::COMMAND,
    &name::COMMAND,
    &on::COMMAND,
    &panel::COMMAND,
    &home::COMMAND,
    &list::COMMAND,
    &page::COMMAND,
    &check::COMMAND,
    &preflight::COMMAND,
    &report::COMMAND,
    &diff::COMMAND,
    &stats::COMMAND,
    &bundle::COMMAND,
    &sheet::COMMAND,
    &order::COMMAND,
    &load::COMMAND,
    &hash::COMMAND,
    &completions::COMMAND,
];

fn main() -> ExitCode {
    system::keep_running_at_a_size_limit();
    system::tell_where_a_file_was_cut();
    let mut words = std::env::args_os().skip(1);
    let Some(first) = words.next() else {
        let _ = io::stderr().write_all(overview().as_bytes());
        return ExitCode::from(2);
    };
    outcome::exit(&first.to_string_lossy(), run(&first, words.collect()))
}

fn run(first: &OsString, words: Vec<OsString>) -> Outcome {
    // Every command prints something, so nothing is done where that cannot be.
    if !system::standard_output_is_open() {
        return Err(Failure::new("cannot write to standard output: it is closed"));
    }
    match first.to_str() {
        Some("--help" | "-h" | "help") => match words.first() {
            Some(command) => outcome::say(&command_of(command)?.help()),
            None => outcome::say(&overview()),
        },
        Some("--version" | "-V") => outcome::say(&version()),
        _ => {
            let command = command_of(first)?;
            match Args::parse(command, words)? {
                Some(args) => (command.run)(args),
                None => outcome::say(&command.help()),
            }
        }
    }
}

fn command_of(word: &OsString) -> Result<&'static Command, Failure> {
    COMMANDS.iter().copied().find(|command| word == command.name).ok_or_else(|| {
        let word = word.to_string_lossy();
        Failure::new(format!("there is no command {word:?}: 'cqdb --help' lists them"))
    })
}

fn overview() -> String {
    let mut text = Vec::new();
    let _ = writeln!(text, "Constant quark database images: names to ids and ids to names.\n");
    for command in COMMANDS {
        let _ = writeln!(text, "  cqdb {:11} {}", command.name, command.summary);
    }
    let _ = writeln!(text, "\n'cqdb COMMAND --help' says more. 'cqdb --version' names the versions.");
    let _ = writeln!(text, "Exit status: 0; 1 for not found, or no; 2 where it could not be done, with a message.");
    String::from_utf8(text).expect("it was written as text")
}

fn version() -> String {
    format!("cqdb {0}\nlibrary lithwennog {0}\nproved with {1}\n", env!("CARGO_PKG_VERSION"), env!("CQDB_KIT"))
}
