//! A status is an answer, whoever reads the output.
mod tool;

use tool::Folder;

fn folder() -> Folder {
    let folder = Folder::new();
    folder.image("walls", "0 north wall\n1 crane\n4 mole\n");
    folder.image("other", "0 crane\n1 north wall\n4 mole\n");
    folder.with("0 crane\n0 mole\n", &["make", "--renamed", "double"]).gives(0);
    folder.with("1 crane\n", &["make", "--one-way", "one-way"]).gives(0);
    folder.cqdb(&["bundle", "append", "bundle", "walls", "other"]).gives(0);
    folder.with("wall 1\nwall 7\n", &["sheet", "make", "round"]).gives(0);
    folder.with("reference 0\nwall 1\n", &["sheet", "make", "both"]).gives(0);
    folder.write("sightings", "0 17.25\n1 18.50\n");
    folder.write("pairs", "0 1\n");
    folder.write("kept", "0\n1\n");
    folder.write("windows", "1 2024-01-01 2025-01-01\n");
    let list: String = (0..5_000).map(|id| format!("{id} prism {id} of the long quay\n")).collect();
    folder.image("many", &list);
    // The last of many names has a line feed, so a list of lines ends with 2.
    let zero = list.replace('\n', "\0") + "6000 two\nlines\0";
    folder.with(zero, &["make", "-0", "--alike", "lines"]).gives(0);
    folder
}

/// What each command gives: its status, its words and its input.
const COMMANDS: &[(i32, &[&str], &str)] = &[
    (0, &["check", "walls"], ""),
    (1, &["check", "double"], ""),
    (1, &["check", "pairs"], ""),
    (0, &["order", "pairs", "kept"], ""),
    (1, &["order", "pairs", "-"], "1\n0\n"),
    (0, &["home", "walls", "0", "4"], ""),
    (1, &["home", "walls"], "0\n2\n"),
    (2, &["home", "walls", "x"], ""),
    (0, &["preflight", "--last", "walls", "--sheet", "both", "--round", "kept", "walls"], ""),
    (0, &["preflight", "--json", "--first", "--sheet", "both", "--round", "kept", "walls"], ""),
    (1, &["preflight", "--last", "other", "--sheet", "both", "--round", "kept", "walls"], ""),
    (1, &["preflight", "--first", "--sheet", "round", "--round", "kept", "walls"], ""),
    (2, &["preflight", "--first", "--sheet", "both", "--round", "absent", "walls"], ""),
    (0, &["report", "--last", "walls", "--sheet", "both", "walls", "sightings"], ""),
    (0, &["diff", "walls", "walls"], ""),
    (1, &["diff", "walls", "other"], ""),
    (1, &["diff", "--json", "many", "walls"], ""),
    (2, &["diff", "many", "lines"], ""),
    (1, &["diff", "--all", "bundle", "walls"], ""),
    (0, &["id", "walls", "crane"], ""),
    (1, &["id", "walls"], "crane\nnobody\nmole\n"),
    (0, &["ids", "walls", "crane"], ""),
    (1, &["ids", "walls", "nobody"], ""),
    (0, &["name", "walls", "0"], ""),
    (1, &["name", "-q", "walls", "0", "2"], ""),
    (2, &["name", "walls", "x"], ""),
    (0, &["on", "2024-03-31", "walls", "windows", "1"], ""),
    (1, &["on", "2025-03-31", "walls", "windows", "1"], ""),
    (0, &["panel", "walls", "1"], ""),
    (1, &["panel", "walls", "2"], ""),
    (0, &["list", "many"], ""),
    (2, &["list", "lines"], ""),
    (0, &["page", "many"], ""),
    (0, &["stats", "walls"], ""),
    (0, &["bundle", "list", "bundle"], ""),
    (0, &["bundle", "append", "bundle", "walls"], ""),
    (0, &["bundle", "extract", "bundle", "1", "out"], ""),
    (0, &["bundle", "extract", "bundle", "1", "-"], ""),
    (0, &["sheet", "show", "round"], ""),
    (0, &["sheet", "make", "sheet"], "wall 7\n"),
    (0, &["make", "new"], "1 new\n"),
    (0, &["make", "-"], "1 new\n"),
    (1, &["make", "--skip", "new"], "1 new\nx\n"),
    (2, &["make", "new"], "1 new\nx\n"),
    (0, &["load", "7", "load"], ""),
    (0, &["load", "7", "-"], ""),
    (0, &["hash", "crane"], ""),
    (0, &["completions", "bash"], ""),
    (0, &["--help"], ""),
    (0, &["help", "diff"], ""),
    (0, &["make", "--help"], ""),
    (0, &["--version"], ""),
];

#[test]
fn a_reader_who_has_gone() {
    let folder = folder();
    // A report that may not leave is told on standard error alone.
    let words = ["report", "--last", "other", "--sheet", "both", "walls", "sightings"];
    let told = folder.cqdb(&words).gives(1).prints("").err;
    folder.unread("", &words).gives(1).tells(&told);
    for (status, words, input) in COMMANDS {
        let told = folder.with(input, words).gives(*status).err;
        for _ in 0..5 {
            folder.unread(input, words).gives(*status).tells(&told);
        }
    }
    let commands = folder.commands();
    let tried = |command: &String| COMMANDS.iter().any(|(_, words, _)| words[0] == command);
    assert!(commands.iter().all(tried), "{commands:?}");
    // What is written is written also where nobody reads that.
    folder.cqdb(&["list", "new"]).prints("1 new\n");
    // Through a shell, whose reader goes at some time.
    let line =
        "set -o pipefail; for i in $(seq 40); do \"$CQDB\" diff walls other | head -n 1 >/dev/null; echo $?; done";
    folder.shell(line).gives(0).prints("1\n".repeat(40));
}

#[test]
fn an_output_that_is_closed_or_full() {
    let folder = folder();
    for (status, words, input) in COMMANDS {
        let ran = folder.redirected(">&-", input, words).gives(2);
        let told = "cannot write to standard output: it is closed";
        assert_eq!(ran.err, format!("cqdb: {}: {told}\n", words[0]));
        let ran = folder.redirected("1</dev/null", input, words).gives(2);
        assert!(
            *status == 2 || ran.err.contains(": cannot write to standard output: Bad file"),
            "{words:?}: {}",
            ran.err
        );
        let ran = folder.redirected(">/dev/full", input, words).gives(2);
        assert!(
            *status == 2 || ran.err.contains(": cannot write to standard output: No space"),
            "{words:?}: {}",
            ran.err
        );
    }
    assert!(folder.files().iter().all(|name| !["new", "out", "sheet", "load"].contains(&name.as_str())));
}

/// An input that is closed is no empty list.
#[test]
fn an_input_that_is_closed() {
    let folder = folder();
    for words in [&["make", "new"][..], &["sheet", "make", "new"], &["id", "walls"], &["check", "-"]] {
        let told = format!("cqdb: {}: cannot read standard input: it is closed\n", words[0]);
        folder.redirected("<&-", "", words).gives(2).prints("").tells(&told);
    }
    assert!(!folder.0.join("new").exists());
}
