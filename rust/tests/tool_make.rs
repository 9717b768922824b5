//! `cqdb make`, as it is run.
mod tool;

use std::fs;

use cqdb::{MemoryWriter, CQDB};
use tool::Folder;

#[test]
fn a_list_from_a_file_or_standard_input() {
    let folder = Folder::new();
    let list = "0 north wall\n3 crane\n0 quay corner\n7 \n";
    folder.write("list", list);
    let ran = folder.cqdb(&["make", "--renamed", "--blank", "image", "list"]).gives(0);
    ran.prints("image: 4 entries, 2230 bytes\n").tells("");
    folder.with(list, &["make", "--renamed", "--blank", "other"]).gives(0);
    folder.with(list, &["make", "--renamed", "--blank", "third", "-"]).gives(0);
    let mut writer = MemoryWriter::new();
    for (name, id) in [("north wall", 0), ("crane", 3), ("quay corner", 0), ("", 7)] {
        writer.put(name, id).unwrap();
    }
    let image = writer.finish().unwrap();
    assert!(["image", "other", "third"].iter().all(|name| folder.read(name) == image));
    folder.cqdb(&["list", "image"]).gives(0).prints("0 quay corner\n3 crane\n7 \n");
    assert_eq!(folder.files(), ["image", "list", "other", "third"]);
}

#[test]
fn empty_and_one_way() {
    let folder = Folder::new();
    folder.cqdb(&["make", "image"]).gives(0).prints("image: 0 entries, 2072 bytes\n");
    folder.with("4294967295 far\n", &["make", "--one-way", "image"]).gives(0).prints("image: 1 entry, 2100 bytes\n");
    folder.cqdb(&["id", "image", "far"]).gives(0).prints("4294967295 far\n");
}

#[test]
fn ids_have_1_to_10_digits() {
    let folder = Folder::new();
    folder.with("0000000005 five\n007 seven\n", &["make", "image"]).gives(0);
    folder.cqdb(&["list", "image"]).prints("5 five\n7 seven\n");
    for line in [
        "",
        "five",
        "5",
        " 5 x",
        "+5 x",
        "-1 x",
        "4294967296 x",
        "99999999999 x",
        "00000000005 x",
        "5\tx",
        "0x5 x",
        "5. x",
    ] {
        let ran = folder.with(format!("1 one\n{line}\n2 two\n"), &["make", "image"]).gives(2);
        let shown = format!("{line:?}");
        ran.tells(&format!(
            "cqdb: make: standard input, line 2: not a decimal id up to 4294967295, a space and a name: {shown}\n"
        ));
    }
}

#[test]
fn a_tab_between() {
    let folder = Folder::new();
    folder.with("1\ta b\n2\t\tc\n", &["make", "--tab", "--alike", "image"]).gives(0);
    folder.cqdb(&["list", "image"]).prints("1 a b\n2 \tc\n");
    folder.cqdb(&["list", "--tab", "image"]).prints("1\ta b\n2\t\tc\n");
    let ran = folder.with("1 a b\n", &["make", "--tab", "image"]).gives(2);
    assert!(ran.err.contains("line 1: not a decimal id up to 4294967295, a tab and a name"), "{}", ran.err);
}

#[test]
fn each_refusal_of_a_put_stops_it_with_its_number() {
    let folder = Folder::new();
    folder.image("image", "1 old\n");
    let old = folder.read("image");
    folder.write("list", "1 one\n2 a\0b\n");
    let told = "cqdb: make: list, line 2: the name has a zero byte (refusal 13)\n";
    folder.cqdb(&["make", "image", "list"]).gives(2).prints("").tells(told);
    folder.write("list", "1 one\n2 two\n4294967295 far\n");
    let told = "cqdb: make: list, line 3: no room: the image would be too large (refusal 3): \
                17179871340 bytes, for ids up to 4294967295\n";
    folder.cqdb(&["make", "image", "list"]).gives(2).prints("").tells(told);
    folder.write("list", "1 one\n2 two\n3 one\n");
    let told = "cqdb: make: list, line 3: the writer already holds this name, and repeats are off (refusal 16): \
                \"one\" is in line 1; --repeats takes it\n";
    folder.cqdb(&["make", "image", "list"]).gives(2).prints("").tells(told);
    assert!(folder.read("image") == old && folder.files() == ["image", "list"]);
}

#[test]
fn repeats_where_they_are_asked_for() {
    let folder = Folder::new();
    let list = "5 crane\n9 crane\n5 mole\n";
    let ran = folder.with(list, &["make", "--repeats", "--renamed", "image"]).gives(0);
    ran.prints("image: 3 entries, 2201 bytes\n").tells("");
    folder.cqdb(&["id", "image", "crane"]).prints("5 crane\n");
    folder.cqdb(&["list", "image"]).prints("5 mole\n9 crane\n");
    let ran = folder.with(list, &["make", "--skip", "--renamed", "image"]).gives(1);
    let ran = ran.prints("image: 2 entries, 2155 bytes\n");
    assert!(ran.err.ends_with("cqdb: make: 1 line skipped: 1 refused with 16\n"), "{}", ran.err);
}

#[test]
fn skipped_lines_are_told_and_counted() {
    let folder = Folder::new();
    let ran = folder.with("1 one\nx\n2 a\0b\n3 three\n", &["make", "--skip", "image"]).gives(1);
    ran.prints("image: 2 entries, 2146 bytes\n").tells(
        "cqdb: make: skipped: standard input, line 2: not a decimal id up to 4294967295, a space and a name: \"x\"\n\
         cqdb: make: skipped: standard input, line 3: the name has a zero byte (refusal 13)\n\
         cqdb: make: 2 lines skipped: 1 of another form, 1 refused with 13\n",
    );
    folder.cqdb(&["list", "image"]).prints("1 one\n3 three\n");
    let ran = folder.with("bad\n".repeat(500) + "1 one\n", &["make", "--skip", "image"]).gives(1);
    assert_eq!(ran.err.lines().count(), 11);
    assert!(ran.err.ends_with("cqdb: make: 500 lines skipped: 500 of another form\n"), "{}", ran.err);
}

#[test]
fn lists_of_windows_are_noticed_and_named() {
    let folder = Folder::new();
    let ran = folder.with("1 one\n2 two\r\n", &["make", "image"]).gives(2);
    let hint = "line 2: a carriage return before the line feed (CR LF): --windows drops it, --zero keeps it\n";
    assert!(ran.err.ends_with(hint), "{}", ran.err);
    let ran = folder.with("1,one\n2,two\r\n", &["make", "--csv", "image"]).gives(2);
    assert!(ran.err.ends_with(": --windows drops it\n"), "{}", ran.err);
    let ran = folder.with("\u{feff}1 one\n", &["make", "image"]).gives(2);
    assert!(ran.err.contains("line 1: a byte order mark (EF BB BF) before the id"), "{}", ran.err);
    let ran = folder.with(b"\xff\xfe1\0 \0a\0\n\0", &["make", "--windows", "image"]).gives(2);
    assert!(ran.err.contains("line 1: the byte order mark of UTF-16"), "{}", ran.err);
    let ran = folder.with("\u{feff}1 one\r\n2 two\r\n3 three\r\n", &["make", "--windows", "image"]).gives(0);
    ran.prints("image: 3 entries, 2174 bytes\n").tells("");
    folder.cqdb(&["list", "image"]).prints("1 one\n2 two\n3 three\n");
}

#[test]
fn names_of_any_bytes_survive() {
    let folder = Folder::new();
    let all: Vec<u8> = (1..=255).collect();
    let names: Vec<Vec<u8>> = (1..=255).map(|byte| vec![byte]).chain([all, b"ends \r".to_vec(), Vec::new()]).collect();
    let lines: Vec<Vec<u8>> =
        names.iter().enumerate().map(|(id, name)| [format!("{id} ").as_bytes(), name, b"\0"].concat()).collect();
    folder.with(lines.concat(), &["make", "-0", "--alike", "--blank", "image"]).gives(0);
    folder.cqdb(&["list", "-0", "image"]).gives(0).prints(lines.concat());
    let image = folder.read("image");
    let db = CQDB::new(&image).unwrap();
    assert!(names.iter().enumerate().all(|(id, name)| db.to_str(id as u32).unwrap() == *name));
    // Without -0, a name with a line feed is told and not printed as two lines.
    let ran = folder.cqdb(&["list", "image"]).gives(2);
    ran.tells("cqdb: list: the name of id 9 has a line feed: say --zero, --csv, --tsv, --json or --cdb\n");
    // Records of cdb have no place for positions.
    let ran = folder.cqdb(&["list", "--all", "image"]).gives(2);
    ran.tells("cqdb: list: the name of id 9 has a line feed: say --zero, --csv, --tsv or --json\n");
    let records = folder.cqdb(&["list", "--cdb", "image"]).gives(0).tells("").out;
    folder.with(records, &["make", "--cdb", "--alike", "--blank", "again"]).gives(0);
    assert_eq!(folder.read("again"), image);
    // Of the other names, those that end with a carriage return need -0 as well.
    let plain: Vec<Vec<u8>> = (names.iter().enumerate())
        .filter(|(_, name)| !name.contains(&b'\n') && name.last() != Some(&b'\r'))
        .map(|(id, name)| [format!("{id} ").as_bytes(), name, b"\n"].concat())
        .collect();
    folder.with(plain.concat(), &["make", "--alike", "--blank", "image"]).gives(0);
    folder.cqdb(&["list", "image"]).gives(0).prints(plain.concat());
}

#[test]
fn the_old_image_stays_where_something_fails() {
    let folder = Folder::new();
    folder.image("image", "1 old\n");
    let old = folder.read("image");
    let ran = folder.cqdb(&["make", "image", "no list"]).gives(2);
    assert!(ran.err.starts_with("cqdb: make: cannot read no list: "), "{}", ran.err);
    let ran = folder.cqdb(&["make", "image", "."]).gives(2);
    assert!(ran.err.starts_with("cqdb: make: cannot read .: "), "{}", ran.err);
    assert!(folder.read("image") == old && folder.files() == ["image"]);
}

#[test]
fn where_an_image_cannot_be_written() {
    let folder = Folder::new();
    fs::create_dir(folder.0.join("place")).unwrap();
    folder.shell("mkfifo pipe").gives(0);
    for place in ["place", "pipe"] {
        folder
            .cqdb(&["make", place])
            .gives(2)
            .tells(&format!("cqdb: make: cannot write {place}: it is no regular file\n"));
    }
    let ran = folder.cqdb(&["make", "no folder/image"]).gives(2);
    assert!(ran.err.starts_with("cqdb: make: cannot write no folder/image: "), "{}", ran.err);
    assert_eq!(folder.files(), ["pipe", "place"]);
}

/// Without --skip nothing changes; with it at least one line has to be left.
#[test]
fn a_list_without_a_line_that_can_be_put() {
    let folder = Folder::new();
    folder.image("image", "1 old\n");
    folder.image("other", "2 crane\n");
    let old = folder.read("image");
    for list in ["0 crane\r\n1 mole\r\n", "x\n", ""] {
        let ran = folder.with(list, &["make", "--skip", "image"]).gives(2).prints("");
        assert!(ran.err.ends_with("cqdb: make: no line could be put, so no image is written\n"), "{}", ran.err);
    }
    folder.cqdb(&["make", "--skip", "image", "other"]).gives(2);
    folder.with("x\n", &["make", "--skip", "new"]).gives(2);
    assert!(folder.read("image") == old && folder.files() == ["image", "other"]);
}

#[test]
fn an_id_that_comes_again() {
    let folder = Folder::new();
    let list = "5 crane\n6 mole\n5 pier\n7 pier\n";
    let told = "standard input, line 3: id 5 was put by line 1: --renamed takes the later name\n";
    folder.with(list, &["make", "image"]).gives(2).prints("").tells(&format!("cqdb: make: {told}"));
    folder.with(list, &["make", "--repeats", "image"]).gives(2).prints("");
    assert!(folder.files().is_empty());
    folder.with("5 crane\n6 mole\n5 pier\n", &["make", "--renamed", "image"]).gives(0).tells("");
    folder.cqdb(&["name", "image", "5"]).prints("5 pier\n");
    // A line that is passed over holds neither its id nor its name.
    let ran = folder.with(list, &["make", "--skip", "image"]).gives(1).prints("image: 3 entries, 2192 bytes\n");
    ran.tells(&format!("cqdb: make: skipped: {told}cqdb: make: 1 line skipped: 1 with an id again\n"));
    folder.cqdb(&["list", "image"]).prints("5 crane\n6 mole\n7 pier\n");
    // The number of the earlier line counts the lines that were passed over.
    let ran = folder.with("x\n1 one\nx\n2 two\n3 two\n4 four\n2 five\n", &["make", "--skip", "image"]).gives(1);
    assert!(ran.err.contains(
        "line 5: the writer already holds this name, and repeats are off (refusal 16): \"two\" is in line 4"
    ));
    assert!(ran.err.contains("line 7: id 2 was put by line 4"), "{}", ran.err);
}

#[test]
fn records_of_cdb() {
    let folder = Folder::new();
    let records = "+5,1:crane->7\n+10,2:two\nlines:->12\n+0,1:->0\n\n";
    let ran = folder.with(records, &["make", "--cdb", "--alike", "--blank", "image"]).gives(0);
    ran.prints("image: 3 entries, 2214 bytes\n").tells("");
    folder.cqdb(&["list", "--cdb", "--puts", "image"]).gives(0).prints(records).tells("");
    folder.cqdb(&["list", "--cdb", "image"]).prints("+0,1:->0\n+5,1:crane->7\n+10,2:two\nlines:->12\n\n");
    folder.cqdb(&["id", "image", "crane"]).prints("7 crane\n");
    // Records that no empty line follows may be cut.
    let told = "standard input ends behind record 1 without an empty line, so it may be cut: --incomplete takes it\n";
    folder.with("+5,1:crane->7\n", &["make", "--cdb", "image"]).gives(2).tells(&format!("cqdb: make: {told}"));
    folder.with("+5,1:crane->7\n", &["make", "--cdb", "--incomplete", "image"]).gives(0);
    let ran = folder.with("+5,1:crane->7\n\n+1,1:b->2\n\n", &["make", "--cdb", "image"]).gives(2);
    ran.tells("cqdb: make: standard input: something stands behind the empty line\n");
    for bad in [
        "+5,1:crane->7",
        "+5,1:crane-:7\n",
        "5,1:crane->7\n",
        "+5:crane->7\n",
        "+x,1:crane->7\n",
        "+5,1:cra",
        "+99999999999,1:x->1\n",
    ] {
        let ran = folder.with(format!("+1,1:a->1\n{bad}"), &["make", "--cdb", "image"]).gives(2);
        ran.tells("cqdb: make: standard input, record 2: not +klen,dlen:key->data\n");
    }
    let ran = folder.with("+1,1:a->1\n+1,1:b->x\n\n", &["make", "--cdb", "image"]).gives(2);
    ran.tells("cqdb: make: standard input, record 2: the data \"x\" is no decimal id up to 4294967295\n");
    let ran = folder.with("+1,1:a->1\n+1,1:b->1\n\n", &["make", "--cdb", "image"]).gives(2);
    ran.tells("cqdb: make: standard input, record 2: id 1 was put by record 1: --renamed takes the later name\n");
    folder
        .with(records, &["make", "--cdb", "--tab", "image"])
        .gives(2)
        .tells("cqdb: make: say --cdb or --tab, not both\n");
    folder.cqdb(&["list", "image"]).prints("7 crane\n");
}
