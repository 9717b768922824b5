//! The forms of answers, and standard input and output in the place of files.
mod tool;

use std::fs;

use cqdb::MemoryWriter;
use tool::Folder;

fn folder() -> Folder {
    let folder = Folder::new();
    folder
        .with(
            b"0 north wall\x001 crane\x004 two\nlines\t\"x\\\x005 caf\xe9\x00".as_slice(),
            &["make", "-0", "--alike", "walls"],
        )
        .gives(0);
    folder
}

/// One line for each question, in order, also for what is not found.
#[test]
fn what_is_not_found_has_a_line() {
    let folder = folder();
    let asks = ["crane", "nobody", "north wall"];
    let words = |options: &[&'static str]| [&["id"], options, &["walls"], &asks[..]].concat();
    let told = "cqdb: id: walls has no name \"nobody\"\n";
    folder.cqdb(&words(&[])).gives(1).prints("1 crane\n nobody\n0 north wall\n").tells(told);
    folder.cqdb(&words(&["--missing", "?"])).gives(1).prints("1 crane\n? nobody\n0 north wall\n").tells(told);
    folder.cqdb(&words(&["--missing=none", "--tab"])).gives(1).prints("1\tcrane\nnone\tnobody\n0\tnorth wall\n");
    folder.cqdb(&words(&["-q"])).gives(1).prints("1\n\n0\n").tells("");
    folder.cqdb(&words(&["--quiet", "--missing", "-"])).gives(1).prints("1\n-\n0\n").tells("");
    folder.cqdb(&["name", "-q", "walls", "1", "2", "0"]).gives(1).prints("crane\n\nnorth wall\n").tells("");
    folder.cqdb(&["name", "--missing", "(gap)", "walls", "2"]).gives(1).prints("2 (gap)\n");
    folder.with("crane\nnobody\nnorth wall\n", &["id", "-q", "walls"]).gives(1).prints("1\n\n0\n");
    folder.cqdb(&["id", "walls", "--missing"]).gives(2).tells("cqdb: id: --missing needs its TEXT\n");
    folder.cqdb(&["id", "--tab=x", "walls"]).gives(2).tells("cqdb: id: --tab has no value\n");
}

#[test]
fn one_bad_id_does_not_drop_the_others() {
    let folder = folder();
    let ran = folder.with("1\nx\n0\n7\n", &["name", "walls"]).gives(2).prints("1 crane\nx \n0 north wall\n7 \n");
    ran.tells(
        "cqdb: name: \"x\" is no decimal id up to 4294967295\n\
         cqdb: name: walls has no name for id 7\n\
         cqdb: name: 1 word was not answered\n",
    );
    folder.cqdb(&["name", "-q", "--missing", "?", "walls", "x", "1"]).gives(2).prints("?\ncrane\n");
    let json = "{\"question\":\"x\",\"id\":null,\"name\":null}\n{\"id\":1,\"name\":\"crane\"}\n";
    folder.cqdb(&["name", "--json", "walls", "x", "1"]).gives(2).prints(json);
}

#[test]
fn json_and_tables() {
    let folder = folder();
    let list = "{\"id\":0,\"name\":\"north wall\"}\n\
                {\"id\":1,\"name\":\"crane\"}\n\
                {\"id\":4,\"name\":\"two\\nlines\\t\\\"x\\\\\"}\n\
                {\"id\":5,\"name\":\"caf\u{fffd}\",\"hex\":\"636166e9\"}\n";
    folder.cqdb(&["list", "--json", "walls"]).gives(0).prints(list);
    folder
        .cqdb(&["name", "--json", "walls", "0", "2"])
        .gives(1)
        .prints("{\"id\":0,\"name\":\"north wall\"}\n{\"id\":2,\"name\":null}\n");
    folder.cqdb(&["id", "--json", "walls", "x\u{1}"]).gives(1).prints("{\"id\":null,\"name\":\"x\\u0001\"}\n");
    let table = [&b"0\tnorth wall\n1\tcrane\n4\ttwo\\nlines\\t\"x\\\\\n5\tcaf\xe9\n"[..]].concat();
    folder.cqdb(&["list", "--tsv", "walls"]).gives(0).prints(table);
    folder.cqdb(&["name", "--tsv", "walls", "2", "4"]).gives(1).prints("2\t\n4\ttwo\\nlines\\t\"x\\\\\n");
    folder.with("crane\0", &["id", "--json", "-0", "walls"]).gives(0).prints("{\"id\":1,\"name\":\"crane\"}\n");
    for (one, other) in [("--json", "--tsv"), ("--json", "--tab"), ("--json", "--quiet"), ("--tsv", "--quiet")] {
        let ran = folder.cqdb(&["id", one, other, "walls", "crane"]).gives(2).prints("");
        ran.tells(&format!("cqdb: id: say {one} or {other}, not both\n"));
    }
}

#[test]
fn a_hyphen_is_standard_input_or_output() {
    let folder = folder();
    let image = folder.read("walls");
    folder.with(&image, &["name", "-", "1"]).gives(0).prints("1 crane\n");
    folder.with(&image, &["id", "-", "crane"]).gives(0).prints("1 crane\n");
    folder.with(&image, &["check", "-"]).gives(0);
    folder.with("0 A\n", &["make", "-"]).gives(0).tells("").prints(folder_image("0 A\n"));
    assert_eq!(folder.cqdb(&["load", "7", "-"]).gives(0).out, cqdb::load(7));
    folder.cqdb(&["bundle", "append", "bundle", "walls"]).gives(0);
    folder.cqdb(&["bundle", "extract", "bundle", "0", "-"]).gives(0).prints(&image);
    folder
        .with(&image, &["bundle", "append", "bundle", "-"])
        .gives(0)
        .prints(format!("bundle: 2 images, {} bytes\n", 2 * image.len()));
    folder.with([&image[..], &image].concat(), &["bundle", "list", "-"]).gives(0);
    let sheet = folder.with("wall 7\n", &["sheet", "make", "-"]).gives(0).out;
    folder.with(&sheet, &["sheet", "show", "-"]).gives(0).prints("wall 7\n");
    folder
        .shell("\"$CQDB\" list walls --json | wc -l; cat walls | \"$CQDB\" list --tsv - | \"$CQDB\" hash | wc -l")
        .prints("4\n4\n");
    assert!(!folder.0.join("-").exists());
    let told = "standard input is meant twice, and can be read once\n";
    folder.with(&image, &["name", "-"]).gives(2).tells(&format!("cqdb: name: {told}"));
    // An image on a terminal helps nobody.
    if folder.shell("command -v script").status == Some(0) {
        let ran = folder.shell("script -qec '\"$CQDB\" load 7 -' /dev/null </dev/null");
        let text = String::from_utf8_lossy(&ran.out).into_owned();
        assert_eq!(ran.status, Some(2));
        assert_eq!(text, "cqdb: load: standard output is a terminal, no place for an image: say --force\r\n");
    }
}

/// The image of a list, made in a file.
fn folder_image(list: &str) -> Vec<u8> {
    let folder = Folder::new();
    folder.image("image", list);
    folder.read("image")
}

#[test]
fn lines_of_windows() {
    let folder = folder();
    folder
        .with("\u{feff}crane\r\nnorth wall\r\n", &["id", "--windows", "walls"])
        .gives(0)
        .prints("1 crane\n0 north wall\n");
    folder.with("1\r\n0\r\n", &["name", "--windows", "walls"]).gives(0).prints("1 crane\n0 north wall\n");
    let ran = folder.with("wall 1\r\nreference 2\r\n", &["sheet", "make", "--windows", "round"]).gives(0);
    ran.prints("round: 2 ids, 14 bytes\n");
    folder.cqdb(&["sheet", "show", "round"]).prints("reference 2\nwall 1\n");
    // Without the option the carriage return is named.
    let ran = folder.with("crane\r\n", &["id", "walls"]).gives(1).prints(" crane\r\n");
    ran.tells("cqdb: id: walls has no name \"crane\\r\": --windows drops the carriage return\n");
    let ran = folder.with("1\r\n", &["name", "walls"]).gives(2);
    assert!(
        ran.err.starts_with("cqdb: name: \"1\\r\" is no decimal id up to 4294967295: --windows drops"),
        "{}",
        ran.err
    );
    let ran = folder.with("wall 1\r\n", &["sheet", "make", "other"]).gives(2);
    assert!(
        ran.err.starts_with("cqdb: sheet: standard input, line 1: a carriage return before the line feed (CR LF)"),
        "{}",
        ran.err
    );
    // The hint names no option that the command does not have.
    assert!(ran.err.ends_with(": --windows drops it\n"), "{}", ran.err);
    assert!(fs::metadata(folder.0.join("other")).is_err());
}

/// A bundle that is made on standard output.
#[test]
fn a_bundle_on_standard_output() {
    let folder = folder();
    let image = folder.read("walls");
    folder.cqdb(&["bundle", "append", "-", "walls", "walls"]).gives(0).prints([&image[..], &image].concat()).tells("");
    assert_eq!(folder.files(), ["walls"]);
}

/// Names of any bytes but zero: each byte alone and in the middle, all of them, and what the forms write in another way.
fn names() -> Vec<Vec<u8>> {
    let mut names: Vec<Vec<u8>> = (1..=255).map(|byte| vec![byte]).collect();
    names.extend((1..=255).map(|byte| [b"x", &[byte][..], b"y"].concat()));
    names.push((1..=255).collect());
    names.push((1..=255).rev().collect());
    let others = [
        "",
        "\\",
        "\\n",
        "\\\\t",
        "\"\"",
        "a,b",
        "a\r\nb",
        "\n",
        "\r\n\"",
        " a ",
        "{}",
        "\u{fffd}",
        "\u{10ffff}",
        "\u{d7ff}x",
    ];
    names.extend(others.map(|name| name.as_bytes().to_vec()));
    names.extend([&b"\xe2\x82"[..], b"\xf0\x9f\x98", b"\xed\xa0\x80", b"caf\xe9", b"\xef\xbf"].map(<[u8]>::to_vec));
    names.sort();
    names.dedup();
    names
}

/// `list` and `make` have the same forms: the image that is listed is made again, whatever its names are.
#[test]
fn what_list_writes_make_reads() {
    let folder = Folder::new();
    let mut writer = MemoryWriter::new();
    for (name, id) in names().iter().zip((0..).step_by(3)) {
        writer.put(name, id).unwrap();
    }
    let image = writer.finish().unwrap();
    folder.write("image", &image);
    for form in ["--csv", "--tsv", "--json", "--cdb", "--zero"] {
        let list = folder.cqdb(&["list", form, "image"]).gives(0).tells("").out;
        folder.with(&list, &["make", form, "--alike", "--blank", "again"]).gives(0);
        assert!(folder.read("again") == image, "{form}");
        let ran = folder.shell(&format!(
            "\"$CQDB\" list {form} --puts image | \"$CQDB\" make {form} --alike --blank - | cmp - image"
        ));
        ran.gives(0).prints("").tells("");
    }
    // Repeated names and ids, by their puts.
    let list = "5 crane\n9 crane\n5 mole, \"old\"\n";
    folder.with(list, &["make", "--repeats", "--renamed", "image"]).gives(0);
    for form in ["--csv", "--tsv", "--json", "--cdb"] {
        let list = folder.cqdb(&["list", "--puts", form, "image"]).gives(0).out;
        folder.with(&list, &["make", form, "--repeats", "--renamed", "--force", "again"]).gives(0);
        assert_eq!(folder.read("again"), folder.read("image"), "{form}");
    }
}

#[test]
fn tables_with_commas() {
    let folder = folder();
    folder.cqdb(&["list", "--csv", "walls"]).prints(b"0,north wall\n1,crane\n4,\"two\nlines\t\"\"x\\\"\n5,caf\xe9\n");
    folder.cqdb(&["id", "--csv", "--missing", "a,b", "walls", "crane", "x"]).gives(1).prints("1,crane\n\"a,b\",x\n");
    folder.cqdb(&["list", "--all", "--csv", "walls:0"]).gives(0);
    let list = "7,\"Kai, \"\"Nord\"\"\"\n\"8\",crane\n9,\"mole\"\n";
    folder.with(list, &["make", "--csv", "image"]).gives(0);
    folder.cqdb(&["list", "image"]).prints("7 Kai, \"Nord\"\n8 crane\n9 mole\n");
    let list = "\u{feff}7,crane\r\n8,\"a\r\nb\"\r\n";
    folder.with(list, &["make", "--csv", "--windows", "--alike", "image"]).gives(0);
    folder.cqdb(&["list", "--tsv", "image"]).prints("7\tcrane\n8\ta\\r\\nb\n");
    for row in ["id,name", "7", "7,a,b", "7,a\"b\"", "7,\"a\"b", "x,a", ",a", "7;a"] {
        let ran = folder.with(format!("1,one\n{row}\n"), &["make", "--csv", "image"]).gives(2);
        let form = "a decimal id up to 4294967295, a comma and a name as RFC 4180 quotes it";
        ran.tells(&format!("cqdb: make: standard input, line 2: not {form}: {row:?}\n"));
    }
    // The number of a line counts those of the names before it.
    let ran = folder.with("1,\"a\nb\nc\"\nx\n", &["make", "--csv", "--alike", "image"]).gives(2);
    assert!(ran.err.contains("line 4: not "), "{}", ran.err);
}

#[test]
fn tables_with_tabs_and_objects() {
    let folder = folder();
    for row in ["7 a", "7", "7\ta\tb", "7\ta\\x", "7\ta\\", "x\ta"] {
        let ran = folder.with(format!("1\tone\n{row}\n"), &["make", "--tsv", "image"]).gives(2);
        assert!(ran.err.contains("line 2: not a decimal id up to 4294967295, a tab and a name with "), "{}", ran.err);
    }
    let list =
        " { \"name\" : \"a\\u00fc\\ud83d\\ude00\\/\\b\" , \"id\" : 7 } \n{\"id\":8,\"name\":\"x\",\"hex\":\"78\"}\n";
    folder.with(list, &["make", "--json", "--alike", "image"]).gives(0);
    folder.cqdb(&["list", "image"]).prints("7 aü\u{1f600}/\u{8}\n8 x\n");
    for (object, what) in [
        ("7 a", "no object of JSON with an id and a name"),
        ("[]", "no object of JSON with an id and a name"),
        ("{}", "a text that is not between quotation marks"),
        ("{\"id\":7", "an object that is cut"),
        ("{\"id\":7}", "no name"),
        ("{\"name\":\"a\"}", "no id"),
        ("{\"id\":7,\"name\":null}", "a text that is not between quotation marks"),
        ("{\"id\":7,\"name\":\"a", "a text that is not between quotation marks"),
        ("{\"id\":\"7\",\"name\":\"a\"}", "an id that is no number from 0 to 4294967295"),
        ("{\"id\":7.0,\"name\":\"a\"}", "an id that is no number from 0 to 4294967295"),
        ("{\"id\":07,\"name\":\"a\"}", "an id that is no number from 0 to 4294967295"),
        ("{\"id\":-7,\"name\":\"a\"}", "an id that is no number from 0 to 4294967295"),
        ("{\"id\":4294967296,\"name\":\"a\"}", "an id that is no number from 0 to 4294967295"),
        ("{\"id\":7,\"name\":\"a\",\"id\":8}", "a key that comes again"),
        ("{\"position\":0,\"id\":7,\"name\":\"a\"}", "a key that is not id, name or hex"),
        ("{\"id\":7,\"name\":\"a\"} x", "something behind the object"),
        ("{\"id\":7 \"name\":\"a\"}", "no comma and no brace behind a value"),
        ("{\"id\":7,\"name\":\"\\x\"}", "a backslash before another letter"),
        ("{\"id\":7,\"name\":\"\\ud83d\"}", "a number behind \\u that is no letter"),
        ("{\"id\":7,\"name\":\"\\u00g0\"}", "no four digits behind \\u"),
        ("{\"id\":7,\"name\":\"a\tb\"}", "a control in a text"),
        ("{\"id\":7,\"name\":\"a\",\"hex\":\"62\"}", "a name and a hex of two different names"),
        ("{\"id\":7,\"name\":\"a\",\"hex\":\"6\"}", "hex that is not pairs of hexadecimal digits"),
    ] {
        let ran = folder.with(format!("{object}\n"), &["make", "--json", "image"]).gives(2);
        let told = format!("cqdb: make: standard input, line 1: not an object with an id and a name, but {what}: ");
        assert!(ran.err.starts_with(&told), "{object}: {}", ran.err);
    }
    let ran = folder.with("{\"id\":7,\"name\":\"a\\u0000\"}\n", &["make", "--json", "image"]).gives(2);
    ran.tells("cqdb: make: standard input, line 1: the name has a zero byte (refusal 13)\n");
    folder
        .with("", &["make", "--csv", "--json", "image"])
        .gives(2)
        .tells("cqdb: make: say --csv or --json, not both\n");
}

/// A terminal is not given what it would obey.
#[test]
fn names_on_a_terminal() {
    let folder = Folder::new();
    if folder.shell("command -v script").status != Some(0) {
        tool::skipped("there is no program 'script' to give a terminal");
        return;
    }
    let name = "a\u{1b}[2Jb\rc\u{9b}d\u{202e}e\u{7f}\u{7}Süd";
    let list = [format!("1 {name}\0").as_bytes(), b"2 caf\xe9\x9b\x00"].concat();
    folder.with(&list, &["make", "-0", "--alike", "image"]).gives(0);
    folder.with("1 crane\n", &["make", "other"]).gives(0);
    let shown = r"a\x1b[2Jb\x0dc\xc2\x9bd\xe2\x80\xaee\x7f\x07Süd";
    let on_terminal = |words: &str| {
        let ran = folder.shell(&format!("script -qec '\"$CQDB\" {words}' /dev/null </dev/null"));
        String::from_utf8_lossy(&ran.out).replace("\r\n", "\n")
    };
    assert_eq!(on_terminal("list image"), format!("1 {shown}\n2 caf\\xe9\\x9b\n"));
    assert_eq!(on_terminal("name -q image 1"), format!("{shown}\n"));
    assert_eq!(on_terminal("list --tsv image"), format!("1\t{}\n2\tcaf\\xe9\\x9b\n", shown.replace("\\x0d", "\\r")));
    for words in
        ["list --csv image", "list --cdb image", "list --json image", "diff image other", "diff --json image other"]
    {
        let text = on_terminal(words);
        assert!(text.contains("[2Jb") && text.chars().all(|letter| letter == '\n' || !letter.is_control()), "{text:?}");
    }
    // What is no terminal gets the bytes of the name.
    folder.cqdb(&["list", "-0", "image"]).prints(&list);
    let json = format!("{{\"id\":1,\"name\":\"{}\"}}\n", r"a\u001b[2Jb\rc\u009bd\u202ee\u007f\u0007Süd");
    folder.cqdb(&["name", "--json", "image", "1"]).gives(0).prints(json);
}
