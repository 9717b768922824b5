//! Lists that may be cut, and names that people could take for one another.
mod tool;

use std::fs::OpenOptions;
use std::io::Write;
use std::sync::atomic::{AtomicBool, Ordering};
use std::thread;

use tool::Folder;

#[test]
fn a_list_that_is_cut() {
    let folder = Folder::new();
    folder.image("image", "1 old\n");
    let old = folder.read("image");
    folder.write("list", "66769 prism 1\n66770 pr");
    let told = "cqdb: make: list, line 2: the list ends without a line feed behind \"66770 pr\", so it may be cut: \
                --incomplete takes it\n";
    for options in [&["make"][..], &["make", "--skip"], &["make", "--windows"]] {
        folder.cqdb(&[options, &["image", "list"]].concat()).gives(2).prints("").tells(told);
    }
    let told =
        "cqdb: make: standard input, line 2: the list ends without a zero byte behind \"2 mo\", so it may be cut: \
                --incomplete takes it\n";
    folder.with("1 crane\x002 mo", &["make", "-0", "image"]).gives(2).tells(told);
    assert_eq!(folder.read("image"), old);
    folder.cqdb(&["make", "--incomplete", "image", "list"]).gives(0).tells("");
    folder.cqdb(&["list", "image"]).prints("66769 prism 1\n66770 pr\n");
    folder.with("1 crane\x002 mo", &["make", "-0", "--incomplete", "image"]).gives(0);
    for (layout, list) in [("--csv", "1,crane\n2,mo"), ("--tsv", "1\tcrane\n2\tmo")] {
        let ran = folder.with(list, &["make", layout, "image"]).gives(2);
        assert!(ran.err.ends_with(", so it may be cut: --incomplete takes it\n"), "{}", ran.err);
        folder.with(list, &["make", layout, "--incomplete", "image"]).gives(0);
    }
    let told = "cqdb: make: standard input, line 2: a quotation mark that no other follows, so the list may be cut\n";
    for options in [&["make", "--csv"][..], &["make", "--csv", "--incomplete"]] {
        folder.with("1,a\n2,\"mo\nle\n", &[options, &["image"]].concat()).gives(2).tells(told);
    }
}

/// An id may be cut as a name may.
#[test]
fn other_lists_that_are_cut() {
    let folder = Folder::new();
    folder.image("image", "1 crane\n14 mole\n");
    folder.write("pairs", "1 14\n");
    folder.write("cut-pairs", "1 14\n1 4");
    folder.write("round", "1\n14\n");
    folder.write("cut-round", "1\n14\n1");
    folder.write("windows", "1 2024-01-01 2025-01-01\n");
    folder.write("cut-windows", "1 2024-01-01 2025-01-01");
    for (words, list, line) in [
        (&["order", "cut-pairs", "round"][..], "cut-pairs, line 2", "1 4"),
        (&["order", "pairs", "cut-round"], "cut-round, line 3", "1"),
        (&["on", "2024-03-31", "image", "cut-windows", "1"], "cut-windows, line 1", "1 2024-01-01 2025-01-01"),
        (&["sheet", "make", "sheet", "cut-round"], "cut-round, line 1", "1"),
    ] {
        if words[0] == "sheet" {
            folder.write("cut-round", "wall 1");
        }
        let ran = folder.cqdb(words).gives(2).prints("");
        let shown = if words[0] == "sheet" { "wall 1" } else { line };
        let told = format!(
            "{list}: the list ends without a line feed behind {shown:?}, so it may be cut: --incomplete takes it"
        );
        ran.tells(&format!("cqdb: {}: {told}\n", words[0]));
        folder.cqdb(&[&[words[0], "--incomplete"], &words[1..]].concat()).gives(0);
    }
}

/// The option is offered where the command has it.
#[test]
fn a_cut_round_of_a_report() {
    let folder = Folder::new();
    folder.image("image", "1 crane\n");
    folder.with("wall 1\n", &["sheet", "make", "sheet"]).gives(0);
    folder.write("pairs", "2 1\n");
    folder.write("round", "1\n2");
    let help = String::from_utf8(folder.cqdb(&["preflight", "--help"]).gives(0).out).unwrap();
    let first = if help.contains("--first") { &["--first"][..] } else { &[] };
    let words = ["--sheet", "sheet", "--pairs", "pairs", "--round", "round", "image"];
    let ran = folder.cqdb(&[&["preflight"], first, &words].concat()).gives(2).prints("");
    let option = if help.contains("--incomplete") { ": --incomplete takes it" } else { "" };
    ran.tells(&format!(
        "cqdb: preflight: round, line 2: the list ends without a line feed behind \"2\", so it may be cut{option}\n"
    ));
}

/// A list that another program writes to while it is read is of two states.
#[test]
fn a_list_that_changes() {
    let folder = Folder::new();
    folder.image("image", "1 old\n");
    let old = folder.read("image");
    let list: String = (0..200_000).map(|id| format!("{id} prism {id}\n")).collect();
    for words in [&["make", "image", "list"][..], &["make", "image"]] {
        folder.write("list", &list);
        let done = AtomicBool::new(false);
        thread::scope(|scope| {
            let mut file = OpenOptions::new().append(true).open(folder.0.join("list")).unwrap();
            let done = &done;
            scope.spawn(move || {
                for id in 300_000.. {
                    if done.load(Ordering::Relaxed) {
                        break;
                    }
                    file.write_all(format!("{id} prism {id}\n").as_bytes()).unwrap();
                    thread::sleep(std::time::Duration::from_millis(1));
                }
            });
            let (ran, name) = match words.len() {
                3 => (folder.cqdb(words), "list"),
                _ => (folder.redirected("<list", "", words), "standard input"),
            };
            done.store(true, Ordering::Relaxed);
            ran.gives(2)
                .prints("")
                .tells(&format!("cqdb: make: {name} changed while it was read: its size or time is another\n"));
        });
    }
    assert_eq!(folder.read("image"), old);
    folder.cqdb(&["make", "image", "list"]).gives(0);
}

#[test]
fn blank_names() {
    let folder = Folder::new();
    for name in ["", " ", "   ", "\t", "\u{a0}", "\u{2003}\u{200b}"] {
        let list = format!("7 crane\n14 {name}\n");
        let told = format!("standard input, line 2: the name {name:?} is blank: --blank takes it\n");
        folder.with(&list, &["make", "image"]).gives(2).prints("").tells(&format!("cqdb: make: {told}"));
        folder.with(&list, &["make", "--alike", "image"]).gives(2);
        folder.with(&list, &["make", "--blank", "image"]).gives(0);
        folder.cqdb(&["list", "image"]).prints(&list);
    }
    let ran = folder.with("7 crane\n14 \n", &["make", "--skip", "image"]).gives(1);
    assert!(ran.err.ends_with("cqdb: make: 1 line skipped: 1 with a blank name\n"), "{}", ran.err);
    folder.cqdb(&["list", "image"]).prints("7 crane\n");
    // Two blank names look alike.
    let ran = folder.with("7 \n14  \n", &["make", "--blank", "image"]).gives(2);
    ran.tells("cqdb: make: standard input, line 2: the name \" \" looks like \"\" of line 1: --alike takes it\n");
}

#[test]
fn names_with_spaces_that_are_not_seen() {
    let folder = Folder::new();
    for (name, what) in [
        ("north wall ", "a space at its end"),
        (" north wall", "a space at its beginning"),
        ("north  wall", "two spaces together"),
        ("north\u{a0}wall", "a no-break space"),
        ("north\twall", "a tab"),
        ("north\u{2009}wall", "a letter that is not seen, U+2009"),
        ("north\u{200b}wall", "a letter that is not seen, U+200B"),
        ("north wall\u{feff}", "a letter that is not seen, U+FEFF"),
        ("north \u{1b}wall", "a letter that is not seen, U+001B"),
        ("north \u{202e}wall", "a letter that is not seen, U+202E"),
        ("north\u{2800}wall", "a letter that is not seen, U+2800"),
        ("north wall\u{3164}", "a letter that is not seen, U+3164"),
    ] {
        let list = format!("14 {name}\n");
        let told = format!(
            "standard input, line 1: the name {name:?} has {what}, so it looks like another: --alike takes it\n"
        );
        folder.with(&list, &["make", "image"]).gives(2).prints("").tells(&format!("cqdb: make: {told}"));
        folder.with(&list, &["make", "--alike", "image"]).gives(0);
        folder.cqdb(&["list", "image"]).prints(&list);
    }
    // The no-break space of Latin-1.
    let ran = folder.with(b"14 north\xa0wall\n".as_slice(), &["make", "image"]).gives(2);
    assert!(ran.err.contains("has a no-break space"), "{}", ran.err);
    folder.with(b"14 Schleuse S\xfcd\n15 Kai \x8a\n".as_slice(), &["make", "image"]).gives(0);
}

#[test]
fn names_that_look_like_another() {
    let folder = Folder::new();
    for (one, other) in [
        ("north wall", "North wall"),
        ("north wall 12", "north wall 1 2"),
        ("NORTHWALL", "north wall"),
        ("Schleuse Süd", "SCHLEUSE SÜD"),
        ("Straße", "straße"),
        ("Straße", "STRASSE"),
        ("STRAẞE", "strasse"),
        ("ΟΔΟΣ", "οδος"),
        ("crane ⚓", "crane ⚓\u{fe0f}"),
        ("quay", "qu\u{34f}ay"),
        (
            "a name of more than sixty-four letters, so that its letters are hashed in parts, end",
            "A name of more than sixty-four letters, so that its letters are hashed in parts, END",
        ),
    ] {
        let list = format!("1 {one}\n2 crane\n7 {other}\n");
        // A message shows 40 letters of a name.
        let shown = |name: &str| match name.char_indices().nth(40) {
            Some((end, _)) => format!("{:?}..", &name[..end]),
            None => format!("{name:?}"),
        };
        let (looks, like) = (shown(other), shown(one));
        let told = format!("standard input, line 3: the name {looks} looks like {like} of line 1: --alike takes it\n");
        folder.with(&list, &["make", "image"]).gives(2).prints("").tells(&format!("cqdb: make: {told}"));
        folder.with(&list, &["make", "--blank", "image"]).gives(2);
        folder.with(&list, &["make", "--alike", "image"]).gives(0);
        folder.cqdb(&["list", "image"]).prints(&list);
        let ran = folder.with(&list, &["make", "--skip", "image"]).gives(1);
        assert!(ran.err.ends_with("1 line skipped: 1 with a name that looks like others\n"), "{}", ran.err);
    }
    // One in UTF-8 and one in Latin-1.
    let ran = folder.with(b"1 S\xc3\xbcd\n2 S\xfcd\n".as_slice(), &["make", "image"]).gives(2);
    assert!(ran.err.contains(" looks like \"Süd\" of line 1"), "{}", ran.err);
    // A record says so too; a name that comes again is no other name.
    let ran = folder.with("+5,1:crane->1\n+5,1:Crane->2\n\n", &["make", "--cdb", "image"]).gives(2);
    ran.tells(
        "cqdb: make: standard input, record 2: the name \"Crane\" looks like \"crane\" of record 1: --alike takes it\n",
    );
    folder.with("1 crane\n2 crane\n3 mole\n", &["make", "--repeats", "image"]).gives(0);
    let ran = folder.with("1 crane\n2 crane\n3 Crane\n", &["make", "--repeats", "image"]).gives(2);
    assert!(ran.err.contains("looks like \"crane\" of line 1"), "{}", ran.err);
    // A mark that chooses a form is taken where no other name looks like it, and a name of marks alone is blank.
    folder.image("image", "1 crane \u{2693}\u{fe0f}\n2 mole \u{2693}\n");
    let ran = folder.with("1 \u{fe0f}\n", &["make", "image"]).gives(2);
    assert!(ran.err.contains(" is blank: --blank takes it"), "{}", ran.err);
    // Other letters are other names.
    folder.image("image", "1 wall 1\n2 wall 2\n3 wall l\n4 Wal 1\n5 Strase\n6 Straße\n");
}
