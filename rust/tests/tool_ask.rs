//! The commands that ask an image, as they are run.
mod tool;

use tool::Folder;

const LIST: &str = "0 north wall\n1 crane\n4 mole\n4 pier\n";

fn folder() -> Folder {
    let folder = Folder::new();
    folder.with(LIST, &["make", "--renamed", "walls"]).gives(0);
    folder.with(LIST, &["make", "--renamed", "--one-way", "one-way"]).gives(0);
    folder
}

#[test]
fn ids_of_names() {
    let folder = folder();
    folder.cqdb(&["id", "walls", "crane", "pier", "mole"]).gives(0).prints("1 crane\n4 pier\n4 mole\n").tells("");
    folder.cqdb(&["id", "one-way", "north wall"]).gives(0).prints("0 north wall\n");
    let ran = folder.cqdb(&["id", "walls", "Crane", "crane", ""]).gives(1).prints(" Crane\n1 crane\n \n");
    ran.tells("cqdb: id: walls has no name \"Crane\"\ncqdb: id: walls has no name \"\"\n");
    folder.cqdb(&["id", "--tab", "walls", "crane"]).prints("1\tcrane\n");
    folder.with("7 two\nlines\0", &["make", "-0", "--alike", "lines"]).gives(0);
    let told = "cqdb: id: the name of id 7 has a line feed: say --zero, --csv, --tsv or --json\n";
    folder.cqdb(&["id", "lines", "two\nlines"]).gives(2).prints("").tells(told);
    folder.cqdb(&["id", "-0", "lines", "two\nlines"]).gives(0).prints("7 two\nlines\0");
    let long = "x".repeat(99);
    let ran = folder.cqdb(&["id", "walls", &long]).gives(1);
    ran.tells(&format!("cqdb: id: walls has no name \"{}\"..\n", &long[..40]));
}

#[test]
fn names_of_ids() {
    let folder = folder();
    folder.cqdb(&["name", "walls", "4", "000", "1"]).gives(0).prints("4 pier\n0 north wall\n1 crane\n").tells("");
    let ran = folder.cqdb(&["name", "walls", "2", "1", "4294967295"]).gives(1).prints("2 \n1 crane\n4294967295 \n");
    ran.tells("cqdb: name: walls has no name for id 2\ncqdb: name: walls has no name for id 4294967295\n");
    folder.cqdb(&["name", "one-way", "0"]).gives(1).prints("0 \n");
    // A word that is no id does not stand in the way of the others.
    for word in ["x", "", "4294967296", "1 "] {
        let told =
            format!("cqdb: name: {word:?} is no decimal id up to 4294967295\ncqdb: name: 1 word was not answered\n");
        let ran = folder.cqdb(&["name", "walls", "0", word, "1"]).gives(2);
        ran.prints(format!("0 north wall\n{word} \n1 crane\n")).tells(&told);
    }
}

#[test]
fn questions_from_standard_input() {
    let folder = folder();
    folder.with("pier\nnobody\nnorth wall", &["id", "walls"]).gives(1).prints("4 pier\n nobody\n0 north wall\n");
    folder.with("4\n0\n", &["name", "walls"]).gives(0).prints("4 pier\n0 north wall\n");
    folder.with("pier\0crane\0", &["id", "-0", "walls"]).gives(0).prints("4 pier\x001 crane\0");
    // More than one round of 512 names.
    let list: String = (0..2_000).map(|id| format!("{id} prism {id}\n")).collect();
    let names: String = (0..2_000).map(|id| format!("prism {id}\n")).collect();
    let ids: String = (0..2_000).map(|id| format!("{id}\n")).collect();
    folder.image("many", &list);
    folder.with(names, &["id", "many"]).gives(0).prints(&list);
    folder.with(ids, &["name", "many"]).gives(0).prints(&list);
}

/// An input without a line asks nothing, so there is no answer. A blank line is a question.
#[test]
fn nothing_asked() {
    let folder = folder();
    folder.write("windows", "0 2024-01-01 2025-01-01\n");
    for words in [
        &["id", "walls"][..],
        &["id", "-q", "walls"],
        &["ids", "walls"],
        &["name", "walls"],
        &["name", "--json", "walls"],
        &["on", "2024-03-31", "walls", "windows"],
        &["panel", "walls"],
        &["home", "walls"],
        &["hash"],
    ] {
        let told = format!("cqdb: {}: nothing was asked: standard input has no line\n", words[0]);
        folder.with("", words).gives(2).prints("").tells(&told);
        folder.unread("", words).gives(2).tells(&told);
    }
    folder.with("\n", &["id", "walls"]).gives(1).prints(" \n").tells("cqdb: id: walls has no name \"\"\n");
    folder.with("0\n", &["home", "walls"]).gives(0).prints("0 yes\n").tells("");
    folder.with("\n", &["hash"]).gives(0).prints("8ba9414b \n").tells("");
}

#[test]
fn lists() {
    let folder = folder();
    folder.cqdb(&["list", "walls"]).gives(0).prints("0 north wall\n1 crane\n4 pier\n").tells("");
    folder.cqdb(&["make", "empty"]).gives(0);
    folder.cqdb(&["list", "empty"]).gives(0).prints("").tells("");
    let ran = folder.cqdb(&["list", "one-way"]).gives(1).prints("");
    assert!(ran.err.starts_with("cqdb: list: one-way is one-way: it names no ids"), "{}", ran.err);
}

#[test]
fn lists_of_puts() {
    let folder = folder();
    for image in ["walls", "one-way"] {
        folder.cqdb(&["list", "--puts", image]).gives(0).prints(LIST).tells("");
    }
    // The list of an image makes the image again.
    let list = "5 crane\n9 crane\n5 mole\n0 \n";
    folder.with(list, &["make", "--repeats", "--renamed", "--blank", "image"]).gives(0);
    folder.cqdb(&["list", "--puts", "image"]).prints(list);
    let mut bytes = folder.read("image");
    bytes.push(0);
    folder.write("longer", bytes);
    let ran = folder.cqdb(&["list", "--puts", "longer"]).gives(1).prints("");
    ran.tells("cqdb: list: longer is not canonical: it has no list of puts\n");
    folder.cqdb(&["check", "longer"]).gives(1).prints(
        "yes  it opens\n\
         no   it is canonical: no list of puts makes these bytes\n\
         yes  readings agree\n\
         yes  every name is home\n\
         no   one name for one id: the image is not canonical: no list of puts makes it (refusal 17)\n",
    );
}

#[test]
fn pages() {
    let folder = folder();
    let page = folder.cqdb(&["page", "walls"]).gives(0);
    assert_eq!(page.out.len(), 5 * 45);
    let text = String::from_utf8(page.out).unwrap();
    let lines: Vec<&str> = text.lines().collect();
    assert_eq!(lines[0], format!("{:>10} {:32} ", 0, "north wall"));
    assert_eq!(lines[2], format!("{:>10} {} ", 2, "-".repeat(32)));
    // A one-way image with entries has neither page nor list; one without has both, and they are empty.
    let told = |command: &str| format!("cqdb: {command}: one-way is one-way: it names no ids");
    folder.cqdb(&["page", "one-way"]).gives(1).prints("").tells(&(told("page") + "\n"));
    folder.cqdb(&["list", "one-way"]).gives(1).prints("").tells(&(told("list") + "; --puts lists its entries\n"));
    folder.cqdb(&["make", "--one-way", "none"]).gives(0);
    folder.cqdb(&["page", "none"]).gives(0).prints("").tells("");
    folder.cqdb(&["list", "none"]).gives(0).prints("").tells("");
}

#[test]
fn stats() {
    let folder = folder();
    let ran = folder.cqdb(&["stats", "walls"]).gives(0);
    let text = String::from_utf8(ran.out).unwrap();
    let value = |name: &str| {
        let words = text.lines().map(|line| line.split_whitespace().collect::<Vec<_>>());
        words.filter(|words| words[0] == name).map(|words| words[1].to_string()).collect::<Vec<_>>()
    };
    assert_eq!(
        (value("num"), value("size"), value("file")),
        (vec!["4".into()], vec!["2215".into()], vec!["2215".into()])
    );
    assert_eq!((value("mode"), value("back-size")), (vec!["two-way".into()], vec!["5".into()]));
    assert_eq!((value("named"), value("gaps")), (vec!["3".into()], vec!["2".into()]));
    let one_way = String::from_utf8(folder.cqdb(&["stats", "one-way"]).gives(0).out).unwrap();
    assert!(one_way.contains("mode      one-way\n") && one_way.contains("back-size 0\n"), "{one_way}");
}

#[test]
fn search_lengths() {
    let folder = folder();
    folder.cqdb(&["load", "0", "load"]).gives(0);
    let text = String::from_utf8(folder.cqdb(&["stats", "load"]).gives(0).out).unwrap();
    assert!(text.contains("average   1.385 (5673 buckets, 4096 entries)\n"), "{text}");
    let lines = text.lines().filter(|line| line.starts_with("length-"));
    let words: Vec<Vec<&str>> = lines.map(|line| line.split_whitespace().collect()).collect();
    let entries: Vec<u64> = words.iter().map(|words| words[1].parse().unwrap()).collect();
    assert_eq!(entries.iter().sum::<u64>(), 4_096);
    assert_eq!(entries.iter().zip(1..).map(|(entries, length)| entries * length).sum::<u64>(), 5_673);
    assert_eq!((words[0][0], words[0][2].len()), ("length-1", 50));
    assert!(words.iter().skip(1).all(|words| words.get(2).map_or(0, |bar| bar.len()) <= 25), "{text}");
    // Twenty names that begin their search at one bucket, of the 40 that their table has: their searches meet 1 to 20 buckets.
    let first =
        |name: &String| cqdb::jhash(name.as_bytes(), 0).is_ok_and(|hash| hash % 256 == 7 && (hash >> 8) % 40 == 11);
    let names = (0..).map(|number| format!("prism {number}")).filter(first).take(20);
    let list: String = names.zip(0..).map(|(name, id)| format!("{id} {name}\n")).collect();
    folder.image("crowded", list);
    let text = String::from_utf8(folder.cqdb(&["stats", "crowded"]).gives(0).out).unwrap();
    assert!(text.contains("\nlength-1  1 ") && text.contains("\nlength-15 1 "), "{text}");
    assert!(text.ends_with(&format!("\nlength-16+ 5 {}\n", "#".repeat(50))), "{text}");
    // Without entries, and not canonical.
    folder.cqdb(&["make", "empty"]).gives(0);
    let text = String::from_utf8(folder.cqdb(&["stats", "empty"]).gives(0).out).unwrap();
    assert!(text.ends_with("(refusal 18)\n") && text.contains("average   none: "), "{text}");
    folder.write("longer", [&folder.read("load")[..], b"\0"].concat());
    let text = String::from_utf8(folder.cqdb(&["stats", "longer"]).gives(0).out).unwrap();
    assert!(text.ends_with("(refusal 17)\n") && text.contains("average   none: "), "{text}");
}

#[test]
fn checks() {
    let folder = folder();
    let yes = "yes  it opens\nyes  it is canonical\nyes  readings agree\nyes  every name is home\n";
    let fifth = |line: &str| format!("{yes}{line}\n");
    folder.image("distinct", "0 north wall\n1 crane\n4 mole\n");
    folder.cqdb(&["check", "distinct"]).gives(0).prints(fifth("yes  one name for one id")).tells("");
    // Two names for id 4; then two ids for crane, the first of which is put last.
    let no = "no   one name for one id: id 4 was put with the name \"mole\", and has the name \"pier\"";
    folder.cqdb(&["check", "walls"]).gives(1).prints(fifth(no)).tells("");
    let no = "no   one name for one id: \"crane\" was put with id 2, and has id 9";
    folder.with("9 crane\n2 crane\n", &["make", "--repeats", "renewed"]).gives(0);
    folder.cqdb(&["check", "renewed"]).gives(1).prints(fifth(no)).tells("");
    // A zero byte in the name of id 0, whose entry is the first: it is no longer found under its hash either.
    let mut bytes = folder.read("walls");
    bytes[2_072 + 8 + 3] = 0;
    folder.write("damaged", &bytes);
    let text = String::from_utf8(folder.cqdb(&["check", "damaged"]).gives(1).out).unwrap();
    assert!(text.contains("yes  it opens\n"), "{text}");
    assert!(text.contains("no   readings agree: the name of id 0 has a zero byte\n"), "{text}");
    assert!(text.contains("no   every name is home: id 0 is not\n"), "{text}");
}

/// A yes about no name, or about names in one direction alone, says so.
#[test]
fn checks_of_no_name() {
    let folder = folder();
    let nothing = "no id has a name, so nothing was compared";
    let names = format!("yes  readings agree: {nothing}\nyes  every name is home: {nothing}\n");
    let fifth = |line: &str| format!("yes  it opens\nyes  it is canonical\n{names}{line}\n");
    folder.cqdb(&["make", "empty"]).gives(0);
    folder.cqdb(&["make", "--one-way", "empty one-way"]).gives(0);
    for image in ["empty", "empty one-way"] {
        let yes = "yes  one name for one id: there is no entry, so nothing was compared";
        folder.cqdb(&["check", image]).gives(0).prints(fifth(yes)).tells("");
    }
    let yes = "yes  one name for one id: no id has a name, so only the ids of names were compared";
    folder.cqdb(&["check", "one-way"]).gives(0).prints(fifth(yes)).tells("");
    folder.with("9 crane\n2 crane\n", &["make", "--repeats", "--one-way", "renewed"]).gives(0);
    let no = "no   one name for one id: \"crane\" was put with id 2, and has id 9";
    folder.cqdb(&["check", "renewed"]).gives(1).prints(fifth(no)).tells("");
    // An array of three words for ids, none of which has a name.
    let mut bytes = folder.read("empty");
    let size = bytes.len() as u32;
    for (place, word) in [(4, size + 12), (16, 3), (20, size)] {
        bytes[place..place + 4].copy_from_slice(&word.to_le_bytes());
    }
    bytes.extend([0; 12]);
    folder.write("gaps", bytes);
    let text = String::from_utf8(folder.cqdb(&["check", "gaps"]).gives(1).out).unwrap();
    assert!(text.contains(&names), "{text}");
}

#[test]
fn sheets() {
    let folder = folder();
    let ran =
        folder.with("wall 7\nreference 1\nretired 9\nwall 5\nreference 2\n", &["sheet", "make", "round"]).gives(0);
    ran.prints("round: 5 ids, 26 bytes\n");
    folder.cqdb(&["sheet", "show", "round"]).gives(0).prints("reference 1\nreference 2\nwall 7\nwall 5\nretired 9\n");
    folder.write("list", "wall x\n");
    let ran = folder.cqdb(&["sheet", "make", "round", "list"]).gives(2);
    assert!(ran.err.starts_with("cqdb: sheet: list, line 1: not reference, wall or retired"), "{}", ran.err);
    let bytes = folder.read("round");
    folder.write("short", &bytes[..25]);
    folder.write("long", [&bytes[..], b"\0"].concat());
    folder
        .cqdb(&["sheet", "show", "short"])
        .gives(2)
        .tells("cqdb: sheet: short: invalid round sheet, too few bytes (refusal 19)\n");
    folder
        .cqdb(&["sheet", "show", "long"])
        .gives(2)
        .tells("cqdb: sheet: long: invalid round sheet, left-over bytes (refusal 20)\n");
    let ran = folder.with("wall 1\n".repeat(65_536), &["sheet", "make", "round"]).gives(2);
    assert!(ran.err.ends_with("(refusal 21)\n") && folder.read("round") == bytes, "{}", ran.err);
    folder.cqdb(&["sheet", "print", "round"]).gives(2);
}

#[test]
fn hashes() {
    let folder = folder();
    folder.cqdb(&["hash", "A", ""]).gives(0).prints("89284101 A\n8ba9414b \n");
    folder.with("A\n", &["hash"]).gives(0).prints("89284101 A\n");
}

#[test]
fn loads() {
    let folder = Folder::new();
    folder.cqdb(&["load", "0", "image"]).gives(0).prints("image: 4096 entries, 157720 bytes\n");
    assert_eq!(folder.read("image"), cqdb::load(0));
    folder.cqdb(&["name", "image", "0"]).prints("0 P3C6EF35F\n");
    folder.cqdb(&["load", "4294967295", "other"]).gives(0);
    assert_eq!(folder.read("other"), cqdb::load(u32::MAX));
    for seed in ["x", "", "4294967296"] {
        let told = format!("cqdb: load: the seed {seed:?} is no decimal number up to 4294967295\n");
        folder.cqdb(&["load", seed, "image"]).gives(2).tells(&told);
    }
}

#[test]
fn helps_and_versions() {
    let folder = folder();
    let commands = folder.commands();
    assert!(commands.len() >= 18, "{commands:?}");
    for command in &commands {
        let help = folder.cqdb(&[command, "--help"]).gives(0);
        assert!(help.out.starts_with(format!("Usage: cqdb {command} ").as_bytes()), "{help:?}");
        folder.cqdb(&["help", command]).gives(0).prints(&help.out);
        folder.cqdb(&[command, "--no-such"]).gives(2);
    }
    let version = String::from_utf8(folder.cqdb(&["--version"]).gives(0).out).unwrap();
    assert!(version.starts_with(concat!("cqdb ", env!("CARGO_PKG_VERSION"), "\n")), "{version}");
    // The sum of the kit's logic, as the archive itself has it: that of the file KIT, in full.
    let sum = include_str!("../../KIT").split_whitespace().last().unwrap();
    let said = version.lines().find_map(|line| line.strip_prefix("proved with rattle logic=")).unwrap();
    assert!(
        said.starts_with(sum) && said.len() == 64 && said.bytes().all(|byte| byte.is_ascii_hexdigit()),
        "{version}"
    );
}

#[test]
fn words_that_do_not_fit() {
    let folder = folder();
    assert_eq!(folder.cqdb(&[]).status, Some(2));
    folder.cqdb(&["lst", "walls"]).gives(2).tells("cqdb: lst: there is no command \"lst\": 'cqdb --help' lists them\n");
    folder.cqdb(&["help", "lst"]).gives(2).tells("cqdb: help: there is no command \"lst\": 'cqdb --help' lists them\n");
    folder.cqdb(&["list"]).gives(2).tells("cqdb: list: a word is missing: cqdb list [OPTION].. IMAGE\n");
    folder
        .cqdb(&["list", "walls", "more"])
        .gives(2)
        .tells("cqdb: list: there are too many words: cqdb list [OPTION].. IMAGE\n");
    let ran = folder.cqdb(&["id", "walls", "-crane"]).gives(2);
    assert!(ran.err.contains("no option -crane") && ran.err.contains("'--' ends the options"), "{}", ran.err);
    folder.cqdb(&["id", "walls", "--", "-crane"]).gives(1);
}
