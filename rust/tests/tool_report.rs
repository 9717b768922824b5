//! `cqdb report`: what was asked about is what is printed.
mod tool;

use tool::{Folder, Ran};

const LIST: &str = "0 east pier\n14 north wall 1\n15 north wall 2\n47 retired: quay 06\n";
const SIGHTINGS: &str = "0 1.25 -3\n14 face 1: 4 5\n15 \n14 face 2:  4 6\n";

fn folder() -> Folder {
    let folder = Folder::new();
    folder.image("image", LIST);
    folder.image("old", LIST);
    folder.with("reference 0\nwall 14\nwall 15\nretired 47\n", &["sheet", "make", "sheet"]).gives(0);
    folder.write("sightings", SIGHTINGS);
    folder
}

const WORDS: [&str; 6] = ["report", "--last", "old", "--sheet", "sheet", "image"];

fn report(folder: &Folder, sightings: &str) -> Ran {
    folder.with(sightings, &WORDS)
}

#[test]
fn names_in_place_of_ids() {
    let folder = folder();
    let named = "east pier 1.25 -3\nnorth wall 1 face 1: 4 5\nnorth wall 2 \nnorth wall 1 face 2:  4 6\n";
    report(&folder, SIGHTINGS).gives(0).prints(named).tells("");
    folder.cqdb(&[&WORDS[..], &["sightings"]].concat()).gives(0).prints(named).tells("");
    folder.with(SIGHTINGS, &["report", "--first", "--sheet", "sheet", "image"]).gives(0).prints(named).tells("");
    // Lines of Windows are taken where that is said. What follows the id may be any bytes.
    folder.with("0 a\r\n", &[&WORDS[..], &["--windows"]].concat()).gives(0).prints("east pier a\n");
    let ran = folder.with(b"0 \0\xff\t\n", &WORDS).gives(0);
    assert_eq!(ran.out, b"east pier \0\xff\t\n");
}

/// More than the 512 of one call, each line in its place.
#[test]
fn many_sightings() {
    let folder = folder();
    let ids = || (0..1_600).map(|turn: usize| [0, 14, 15, 14, 0][turn % 5]);
    let name = |id| ["east pier", "north wall 1", "north wall 2"][[0, 14, 15].iter().position(|of| *of == id).unwrap()];
    let sightings: String = ids().enumerate().map(|(turn, id)| format!("{id} {turn}\n")).collect();
    let named: String = ids().enumerate().map(|(turn, id)| format!("{} {turn}\n", name(id))).collect();
    report(&folder, &sightings).gives(0).prints(named).tells("");
}

/// A no: nothing is printed, and the questions are told.
#[test]
fn a_report_that_may_not_leave() {
    let folder = folder();
    let no = |ran: Ran, line: &str| {
        let ran = ran.gives(1).prints("");
        assert!(ran.err.contains(&format!("\nno   {line}\n")), "{}", ran.err);
    };
    no(report(&folder, ""), " 4  an id is sighted: the round is empty");
    no(
        report(&folder, "0 a\n47 b\n"),
        " 3  every sighted id is on the sheet once, as a reference or a wall: id 47 is retired on the sheet",
    );
    no(
        report(&folder, "0 a\n16 b\n"),
        " 3  every sighted id is on the sheet once, as a reference or a wall: id 16 is not on the sheet",
    );
    folder.write("pairs", "0 14\n");
    let ran = folder.with("14 a\n0 b\n", &[&WORDS[..], &["--pairs", "pairs"]].concat());
    no(ran, "    the round keeps references before walls: pair 1: wall 14 is sighted, and reference 0 is not sighted before");
    folder.with(LIST.replace("14 north wall 1\n15", "15 north wall 1\n14"), &["make", "--force", "image"]).gives(0);
    no(report(&folder, SIGHTINGS), " 9  every sighted id keeps its name, or its rename is accepted: id 14 was \"north wall 1\" and is \"north wall 2\"");
    let ran = folder.with("0 a\n", &WORDS).gives(0);
    assert_eq!(ran.out, b"east pier a\n", "the two are not sighted");
    folder.write("old", "");
    no(report(&folder, "0 a\n"), " 7  the last image is canonical and two-way: invalid file format (refusal 1)");
}

#[test]
fn what_is_no_sighting() {
    let folder = folder();
    for (line, number) in
        [("14\n", 1), ("0 a\n\n14 b\n", 2), ("0 a\nx b\n", 2), (" 14 a\n", 1), ("14\ta\n", 1), ("4294967296 a\n", 1)]
    {
        let ran = report(&folder, line).gives(2).prints("");
        let told = format!(
            "cqdb: report: standard input, line {number}: not a decimal id up to 4294967295, a space and anything: "
        );
        assert!(ran.err.starts_with(&told), "{line:?}: {}", ran.err);
    }
    report(&folder, "0 a\r\n").gives(2).prints("");
    // The last sighting may be cut, in its number too.
    let cut = report(&folder, "0 a\n14 1.2").gives(2).prints("");
    let told = "line 2: the list ends without a line feed behind \"14 1.2\", so it may be cut";
    cut.tells(&format!("cqdb: report: standard input, {told}\n"));
    folder.cqdb(&["report", "--last", "old", "--sheet", "sheet"]).gives(2).prints("");
    folder.cqdb(&["report", "--sheet", "sheet", "image", "sightings"]).gives(2).prints("");
    folder.cqdb(&["report", "--last", "old", "--first", "--sheet", "sheet", "image", "sightings"]).gives(2).prints("");
    folder.cqdb(&["report", "--last", "old", "--sheet", "sheet", "image", "missing"]).gives(2).prints("");
    folder
        .cqdb(&["report", "--last", "old", "--last", "old", "--sheet", "sheet", "image", "sightings"])
        .gives(2)
        .prints("");
}

/// A name with a line feed would be two lines.
#[test]
fn a_name_with_a_line_feed() {
    let folder = folder();
    folder.with(b"0 east\npier\x0014 north wall 1\0", &["make", "--alike", "--force", "--zero", "image"]).gives(0);
    folder.with("reference 0\nwall 14\n", &["sheet", "make", "--force", "sheet"]).gives(0);
    let first = ["report", "--first", "--sheet", "sheet", "image"];
    folder.with("14 a\n", &first).gives(0).prints("north wall 1 a\n");
    let ran = folder.with("14 a\n0 b\n", &first).gives(2).prints("");
    ran.tells("cqdb: report: the name of id 0 has a line feed\n");
}

/// The sightings come through a pipe that the tool opens last, and a file changes before they do.
#[test]
fn a_file_that_changes_meanwhile() {
    let folder = folder();
    folder.with(LIST.replace("north wall 1", "south wall 1"), &["make", "other"]).gives(0);
    let line = |change: &str| {
        format!(
            "mkfifo pipe; \"$CQDB\" report --last old --sheet sheet image pipe & exec 3>pipe; {change}; \
             printf '0 a\\n' >&3; exec 3>&-; wait $!"
        )
    };
    for (change, name) in [
        ("mv other image", "image"),
        ("printf x >>sheet", "sheet"),
        ("printf '\\001' | dd of=old bs=1 seek=2080 conv=notrunc status=none", "old"),
        (": >sheet", "sheet"),
    ] {
        let folder = self::folder();
        folder.with(LIST.replace("north wall 1", "south wall 1"), &["make", "other"]).gives(0);
        let ran = folder.shell(&line(change)).gives(2).prints("");
        ran.tells(&format!("cqdb: report: {name} has changed meanwhile\n"));
    }
    folder.shell(&line("true")).gives(0).prints("east pier a\n").tells("");
    let gone = self::folder();
    let ran = gone.shell(&line("rm old")).gives(2).prints("");
    assert!(ran.err.starts_with("cqdb: report: cannot read old: "), "{}", ran.err);
}

/// The status is the answer also where nobody reads; what cannot be written is trouble.
#[test]
fn the_status_without_a_reader() {
    let folder = folder();
    folder.with(LIST.replace("14 north wall 1", "14 south wall"), &["make", "renamed"]).gives(0);
    let run = |image: &str, end: &str| {
        let words = format!("report --last old --sheet sheet {image} sightings");
        folder.shell(&format!("set -o pipefail; (sleep 0.2; exec \"$CQDB\" {words}) {end}"))
    };
    run("image", ">/dev/full").gives(2);
    run("image", ">&-").gives(2);
    assert_eq!(run("image", "| true").status, Some(0));
    assert_eq!(run("renamed", "2>/dev/null | true").status, Some(1));
    assert_eq!(run("renamed", "2>&-").status, Some(1));
}
