//! `cqdb completions`: what bash completes, from the list of commands.
use std::fmt::Write;

use crate::args::{Args, Command};
use crate::outcome::{self, Failure, Outcome};
use crate::COMMANDS;

pub const COMMAND: Command = Command {
    name: "completions",
    usage: "bash",
    summary: "print the shell completions",
    text: "
Prints a script for bash that completes the commands, their options and files:
  source <(cqdb completions bash)
'./install' puts it where bash-completion finds it.
",
    options: &[],
    operands: (1, 1),
    run,
};

fn run(args: Args) -> Outcome {
    match args.bytes(0) {
        b"bash" => outcome::say(&bash()),
        _ => Err(Failure::new("there are completions for bash alone")),
    }
}

const BEFORE: &str = r#"# Completions of cqdb for bash, printed by 'cqdb completions bash'.
_cqdb() {
    local word=${COMP_WORDS[COMP_CWORD]} options= parts=
    COMPREPLY=()
    if [ "$COMP_CWORD" -eq 1 ]; then
        mapfile -t COMPREPLY < <(compgen -W "$_cqdb_commands help --help --version" -- "$word")
        return
    fi
    case ${COMP_WORDS[1]} in
"#;

const BEHIND: &str = r#"        help) parts=$_cqdb_commands ;;
    esac
    [ "$COMP_CWORD" -eq 2 ] || parts=
    case $word in
        -*) mapfile -t COMPREPLY < <(compgen -W "$options --help" -- "$word") ;;
        *) mapfile -t COMPREPLY < <(compgen -W "$parts" -- "$word"; [ -n "$parts" ] || compgen -f -- "$word") ;;
    esac
}
complete -o filenames -F _cqdb cqdb
"#;

fn bash() -> String {
    let names: Vec<&str> = COMMANDS.iter().map(|command| command.name).collect();
    let mut text = String::from(BEFORE);
    for command in COMMANDS {
        let options: Vec<&str> = command.options.iter().map(|option| option.long).collect();
        let (name, options, parts) = (command.name, options.join(" "), parts(command));
        let _ = writeln!(text, "        {name}) options='{options}' parts='{parts}' ;;");
    }
    text.push_str(BEHIND);
    let _ = writeln!(text, "_cqdb_commands='{}'", names.join(" "));
    text
}

/// The words with which the parts of a command begin, as append, list and extract.
fn parts(command: &Command) -> String {
    let lower = |word: &&str| !word.is_empty() && word.bytes().all(|byte| byte.is_ascii_lowercase());
    let firsts = command.usage.split('|').filter_map(|part| part.split_whitespace().find(lower));
    firsts.collect::<Vec<_>>().join(" ")
}
