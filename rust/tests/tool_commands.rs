//! The commands for dates, rounds, homes and panels, and the completions.
mod tool;

use tool::Folder;

fn folder() -> Folder {
    let folder = Folder::new();
    folder.image("walls", "0 north wall\n1 crane\n4 mole\n");
    folder
}

#[test]
fn names_on_a_date() {
    let folder = folder();
    folder.write(
        "windows",
        "1 2024-03-01 2024-06-01\n4 2023-01-01 2200-01-01\n1 2024-09-01 2024-10-01\n7 2024-01-01 2025-01-01\n",
    );
    let on = |date: &str, ids: &[&str]| folder.cqdb(&[&["on", date, "walls", "windows"], ids].concat());
    on("2024-05-31", &["1", "4"]).gives(0).prints("1 crane\n4 mole\n").tells("");
    on("2024-06-01", &["1", "4"]).gives(1).prints("1 \n4 mole\n").tells("cqdb: on: walls has no name for id 1\n");
    on("2024-09-30", &["1", "0", "7"]).gives(1).prints("1 crane\n0 \n7 \n");
    folder.with("4\n1\n", &["on", "-q", "2024-09-30", "walls", "windows"]).gives(0).prints("mole\ncrane\n");
    for date in ["2024-02-30", "1899-12-31", "2200-01-01"] {
        let told = format!("the date asked about, {date}, is no day of the years 1900 to 2199 (refusal 22)\n");
        on(date, &["1"]).gives(2).prints("").tells(&format!("cqdb: on: {told}"));
    }
    for date in ["today", "2024-5-31", "24-05-31", "2024-05-31x", ""] {
        on(date, &["1"]).gives(2).tells(&format!("cqdb: on: {date:?} is no date as 2024-03-31\n"));
    }
    for (line, told) in [
        (
            "1 2023-02-29 2024-01-01",
            "line 2: the first date, 2023-02-29, is no day of the years 1900 to 2199 (refusal 22)",
        ),
        (
            "1 2200-01-01 2200-01-01",
            "line 2: the first date, 2200-01-01, is no day of the years 1900 to 2199 (refusal 22)",
        ),
        (
            "1 2023-01-01 2024-13-01",
            "line 2: the end date, 2024-13-01, is no day of the years 1900 to 2199, nor 2200-01-01 (refusal 22)",
        ),
        (
            "1 2023-01-01 2200-01-02",
            "line 2: the end date, 2200-01-02, is no day of the years 1900 to 2199, nor 2200-01-01 (refusal 22)",
        ),
        ("1 2024-06-01 2024-06-01", "line 2: a window does not start before its end (refusal 23)"),
        (
            "1 2024-06-01",
            "line 2: not an id, a first date and an end date as 2024-03-31, a space between: \"1 2024-06-01\"",
        ),
    ] {
        folder.write("windows", format!("4 2023-01-01 2200-01-01\n{line}\n"));
        on("2024-05-31", &["4"]).gives(2).prints("").tells(&format!("cqdb: on: windows, {told}\n"));
    }
}

#[test]
fn references_before_walls() {
    let folder = folder();
    folder.write("pairs", "1 7\n2 8\n");
    let order = |round: &str| folder.with(round, &["order", "pairs", "-"]);
    order("1\n7\n2\n8\n").gives(0).prints("yes  the round keeps references before walls\n");
    let why = "pair 2: wall 8 is sighted, and reference 2 is not sighted before\n";
    order("1\n7\n8\n2\n").gives(1).prints(format!("no   the round keeps references before walls: {why}"));
    order("7\n8\n").gives(1).prints("no   the round keeps references before walls: pair 1: wall 7 is sighted, and reference 1 is not sighted before\n");
    let nothing = "no wall of a pair is sighted, so nothing was compared";
    for round in ["1\n2\n", "9\n"] {
        order(round).gives(0).prints(format!("yes  the round keeps references before walls: {nothing}\n")).tells("");
    }
    let nothing = "the round has no id, so nothing was compared";
    order("").gives(0).prints(format!("yes  the round keeps references before walls: {nothing}\n")).tells("");
    order("1 7\n").gives(2).tells("cqdb: order: standard input, line 1: not a decimal id up to 4294967295: \"1 7\"\n");
    folder.write("pairs", "1 7\n2\n");
    let told = "cqdb: order: pairs, line 2: not the id of a reference, a space and the id of a wall prism: \"2\"\n";
    order("").gives(2).tells(told);
    folder.write("pairs", "");
    let none = "yes  the round keeps references before walls: there is no pair, so nothing was compared\n";
    order("1\n7\n").gives(0).prints(none).tells("");
    order("").gives(0).prints(none).tells("");
}

#[test]
fn homes_and_panels() {
    let folder = folder();
    folder.cqdb(&["home", "walls", "0", "1", "4"]).gives(0).prints("0 yes\n1 yes\n4 yes\n");
    folder.with("1\n2\n", &["home", "walls"]).gives(1).prints("1 yes\n2 no\n");
    let ran = folder.cqdb(&["home", "walls", "x", "1"]).gives(2).prints("1 yes\n");
    ran.tells("cqdb: home: \"x\" is no decimal id up to 4294967295\ncqdb: home: 1 word was not answered\n");
    // A zero byte in the name of id 0, whose entry is the first.
    let mut bytes = folder.read("walls");
    bytes[2_072 + 8 + 5] = 0;
    folder.write("damaged", &bytes);
    folder.cqdb(&["panel", "damaged", "0", "1", "3"]).gives(1).prints("0 north\n1 crane\n3 \n");
    folder.cqdb(&["name", "damaged", "0"]).gives(0).prints("0 north\0wall\n");
    folder.cqdb(&["home", "damaged", "0"]).gives(1).prints("0 no\n");
}

#[test]
fn every_id_of_a_name() {
    let folder = folder();
    let list = "5 crane\n9 crane\n7 mole\n2 crane\n";
    folder.with(list, &["make", "--repeats", "renewed"]).gives(0);
    folder.cqdb(&["id", "renewed", "crane"]).prints("5 crane\n");
    folder.cqdb(&["ids", "renewed", "crane", "mole"]).gives(0).prints("2 crane\n5 crane\n9 crane\n7 mole\n").tells("");
    let ran = folder.with("pier\ncrane\n", &["ids", "-q", "--missing", "none", "renewed"]).gives(1);
    ran.prints("none\n2\n5\n9\n").tells("");
    folder
        .cqdb(&["ids", "renewed", "pier"])
        .gives(1)
        .prints(" pier\n")
        .tells("cqdb: ids: renewed has no name \"pier\"\n");
    // An id that has got another name is no longer one of the first.
    folder.with("5 crane\n9 crane\n5 mole\n", &["make", "--repeats", "--renamed", "other"]).gives(0);
    folder.cqdb(&["ids", "other", "crane", "mole"]).gives(0).prints("9 crane\n5 mole\n");
    folder.with(list, &["make", "--repeats", "--one-way", "one-way"]).gives(0);
    folder.cqdb(&["ids", "one-way", "crane"]).gives(0).prints("5 crane\n9 crane\n2 crane\n");
}

/// What bash offers for a line, as if the tab key was pressed behind it.
fn completed(folder: &Folder, words: &[&str]) -> Vec<String> {
    let line = format!(
        "source <(\"$CQDB\" completions bash); COMP_WORDS=(cqdb {}); COMP_CWORD={}; _cqdb; printf '%s\\n' \"${{COMPREPLY[@]}}\"",
        words.join(" "),
        words.len()
    );
    let ran = folder.shell(&line).gives(0).tells("");
    String::from_utf8(ran.out).unwrap().lines().map(str::to_string).collect()
}

#[test]
fn completions() {
    let folder = folder();
    let commands = folder.commands();
    let offered = completed(&folder, &["''"]);
    assert!(commands.iter().all(|command| offered.iter().any(|word| word == command)), "{offered:?}");
    for command in &commands {
        let help = String::from_utf8(folder.cqdb(&[command, "--help"]).gives(0).out).unwrap();
        let options = help.split("\nOptions:\n").nth(1).unwrap_or("");
        let longs = options.lines().filter_map(|line| line.split_whitespace().find(|word| word.starts_with("--")));
        let offered = completed(&folder, &[command, "walls", "--"]);
        for long in longs.chain(["--help"]) {
            assert!(offered.iter().any(|word| word == long), "{command}: {long} in {offered:?}");
        }
    }
    assert_eq!(completed(&folder, &["bundle", "ap"]), ["append"]);
    assert_eq!(completed(&folder, &["sheet", "''"]), ["show", "make"]);
    assert_eq!(completed(&folder, &["id", "wa"]), ["walls"]);
    assert_eq!(completed(&folder, &["pre"]), ["preflight"]);
    folder.cqdb(&["completions", "fish"]).gives(2).tells("cqdb: completions: there are completions for bash alone\n");
}
