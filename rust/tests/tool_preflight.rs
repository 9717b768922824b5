//! `cqdb preflight` on a catalogue in which each fault is planted, one at a time.
mod tool;

use tool::{Folder, Ran};

const LIST: &str =
    "0 reference east pier\n1 reference west pier\n14 north wall 1\n15 north wall 2\n16 mole\n47 retired: quay 06\n";

/// A catalogue that did not change, its sheet, round, pairs and windows, without a fault.
fn folder() -> Folder {
    let folder = Folder::new();
    folder.image("image", LIST);
    folder.image("old", LIST);
    sheet(&folder, "reference 0\nreference 1\nwall 14\nwall 15\nwall 16\nretired 47\n");
    folder.write("round", "0\n14\n1\n15\n");
    folder.write("pairs", "0 14\n1 15\n0 15\n");
    let windows =
        "0 1990-01-01 2200-01-01\n1 2000-01-01 2200-01-01\n14 2020-02-29 2030-01-01\n15 2020-02-29 2030-01-01\n";
    folder.write("windows", windows);
    folder
}

fn sheet(folder: &Folder, list: &str) {
    folder.with(list, &["sheet", "make", "--force", "sheet"]).gives(0);
}

fn make(folder: &Folder, image: &str, list: &str) {
    folder.with(list, &["make", "--force", "--blank", "--repeats", "--renamed", image]).gives(0);
}

const LAST: &str = "--last old --sheet sheet --round round image";
const FIRST: &str = "--first --sheet sheet --round round image";

fn asked(folder: &Folder, words: &str) -> Ran {
    folder.cqdb(&["preflight"].into_iter().chain(words.split(' ')).collect::<Vec<_>>())
}

const LINES: [&str; 10] = [
    "the image is canonical and two-way",
    "the round sheet reads",
    "every sighted id is on the sheet once, as a reference or a wall",
    "an id is sighted",
    "every sighted id has a name",
    "no two sighted ids have one name",
    "the last image is canonical and two-way",
    "the last image names some id as this one does",
    "every sighted id keeps its name, or its rename is accepted",
    "no sighted id has a name that another id has lost",
];
const SHEET_NAMED: &str = "      every id of the sheet has a name";

/// The lines of the first so many questions, all yes.
fn yes(count: usize) -> String {
    (1..=count).map(|number| format!("yes  {number:>2}  {}\n", LINES[number - 1])).collect()
}

/// The lines of so many questions, of which this one, by its number, fails.
fn no(count: usize, fails: usize, breaks: &str) -> String {
    let behind = (fails + 1..=count).map(|number| format!("-    {number:>2}  {}: not asked\n", LINES[number - 1]));
    let line = format!("no   {fails:>2}  {}: {breaks}\n", LINES[fails - 1]);
    yes(fails - 1) + &line + &behind.collect::<String>()
}

/// Asserts that this question of a report with a last one fails, whatever else is asked.
#[track_caller]
fn fails(folder: &Folder, number: usize, breaks: &str) {
    fails_of(folder, LAST, 10, number, breaks);
}

#[track_caller]
fn fails_of(folder: &Folder, words: &str, count: usize, number: usize, breaks: &str) {
    let ran = asked(folder, words).gives(1).tells("");
    let (text, wanted) = (String::from_utf8(ran.out).unwrap(), no(count, number, breaks));
    assert!(text.starts_with(&wanted), "{text}\nwanted:\n{wanted}");
    assert!(!text.contains("sighted ids, "), "{text}");
}

/// Asserts a yes, with this last line.
#[track_caller]
fn leaves(folder: &Folder, words: &str, about: &str) {
    let wanted = yes(10) + &format!("yes{SHEET_NAMED}\n{about}\n");
    asked(folder, words).gives(0).prints(wanted).tells("");
}

const ABOUT: &str = "compared 4 of 4 sighted ids, 0 new, 1 on the sheet not sighted";

/// An old image that is byte for byte the new one is a catalogue that did not change.
#[test]
fn without_a_fault_every_line_says_yes() {
    let folder = folder();
    leaves(&folder, LAST, ABOUT);
    leaves(&folder, "--last image --sheet sheet --round round image", ABOUT);
    let first = yes(6) + &format!("yes{SHEET_NAMED}\nfirst report of 4 sighted ids, 1 on the sheet not sighted\n");
    asked(&folder, FIRST).gives(0).prints(&first).tells("");
    let besides = "yes      the round keeps references before walls\n\
                   yes  11  every sighted id has a window that holds both dates\n";
    let all = "--last=old --sheet=sheet --round=round --pairs=pairs --validity=windows --date=2024-03-31 \
               --last-date=2024-03-24 image";
    asked(&folder, all).gives(0).prints(yes(10) + &format!("yes{SHEET_NAMED}\n{besides}{ABOUT}\n"));
}

#[test]
fn objects_of_json() {
    let folder = folder();
    let text = String::from_utf8(asked(&folder, &format!("--json {LAST}")).gives(0).out).unwrap();
    assert_eq!(text.lines().count(), 12);
    assert_eq!(text.lines().next(), Some(r#"{"question":1,"text":"the image is canonical and two-way","yes":true}"#));
    let last = r#"{"may_leave":true,"sighted":4,"compared":4,"added":0,"unsighted":1,"first":false}"#;
    assert_eq!(text.lines().last(), Some(last));
    make(&folder, "image", &LIST.replace("14 north wall 1", "14 \"south\" wall"));
    let text = String::from_utf8(asked(&folder, &format!("--json {LAST}")).gives(1).out).unwrap();
    let nine = r#"{"question":9,"text":"every sighted id keeps its name, or its rename is accepted","yes":false,"breaks":"id 14 was \"north wall 1\" and is \"\\\"south\\\" wall\"","id":14,"place":1}"#;
    assert_eq!(text.lines().nth(8), Some(nine));
    let ten = r#"{"question":10,"text":"no sighted id has a name that another id has lost","yes":null}"#;
    assert_eq!(text.lines().nth(9), Some(ten));
    assert_eq!(text.lines().last(), Some(r#"{"may_leave":false}"#));
}

#[test]
fn the_image_cannot_be_relied_on() {
    let folder = folder();
    let whole = folder.read("image");
    folder.write("image", &whole[..2_100]);
    fails(&folder, 1, "invalid table data: out of bounds (refusal 7)");
    fails_of(&folder, FIRST, 6, 1, "invalid table data: out of bounds (refusal 7)");
    folder.write("image", [&whole[..], b"\0"].concat());
    fails(&folder, 1, "no list of puts makes these bytes");
    folder.write("image", "");
    fails(&folder, 1, "invalid file format (refusal 1)");
    folder.with(LIST, &["make", "--force", "--one-way", "image"]).gives(0);
    fails(&folder, 1, "it is one-way: it names no ids");
}

#[test]
fn the_sheet() {
    let folder = folder();
    let whole = folder.read("sheet");
    folder.write("sheet", &whole[..whole.len() - 1]);
    fails(&folder, 2, "invalid round sheet, too few bytes (refusal 19)");
    folder.write("sheet", [&whole[..], b"\0"].concat());
    fails(&folder, 2, "invalid round sheet, left-over bytes (refusal 20)");
    folder.write("sheet", "");
    fails(&folder, 2, "invalid round sheet, too few bytes (refusal 19)");
    // A sheet without ids, one without a sighted id, one that has it twice, and a retired prism that is sighted.
    sheet(&folder, "");
    fails(&folder, 3, "id 0 is not on the sheet");
    sheet(&folder, "reference 0\nreference 1\nwall 14\n");
    fails(&folder, 3, "id 15 is not on the sheet");
    sheet(&folder, "reference 0\nreference 1\nwall 14\nwall 15\nreference 14\n");
    fails(&folder, 3, "id 14 is on the sheet 2 times");
    sheet(&folder, "reference 0\nreference 1\nwall 14\nwall 15\nretired 15\n");
    fails(&folder, 3, "id 15 is on the sheet 2 times");
    sheet(&folder, "reference 0\nreference 1\nwall 14\nretired 15\n");
    fails(&folder, 3, "id 15 is retired on the sheet");
    fails_of(&folder, FIRST, 6, 3, "id 15 is retired on the sheet");
    // An id without a name that is on no sheet.
    sheet(&folder, "reference 0\nreference 1\nwall 14\nwall 15\n");
    folder.write("round", "0\n14\n99\n");
    fails(&folder, 3, "id 99 is not on the sheet");
}

#[test]
fn the_round() {
    let folder = folder();
    folder.write("round", "");
    fails(&folder, 4, "the round is empty");
    sheet(&folder, "reference 0\nwall 14\nwall 17\nretired 47\n");
    folder.write("round", "0\n14\n17\n");
    fails(&folder, 5, "id 17 has none");
    make(&folder, "image", &format!("{LIST}17 \n"));
    fails(&folder, 5, "id 17 has the empty name");
    // A renewed prism is sighted under both of its ids; an id that is sighted twice is not two.
    make(&folder, "image", &format!("{LIST}17 north wall 1\n"));
    fails(&folder, 6, "ids 14 and 17 are both \"north wall 1\"");
    folder.write("round", "14\n0\n14\n");
    leaves(&folder, LAST, "compared 3 of 3 sighted ids, 0 new, 1 on the sheet not sighted");
}

#[test]
fn the_last_image_cannot_be_relied_on() {
    let folder = folder();
    let whole = folder.read("old");
    folder.write("old", &whole[..2_100]);
    fails(&folder, 7, "invalid table data: out of bounds (refusal 7)");
    folder.write("old", "");
    fails(&folder, 7, "invalid file format (refusal 1)");
    folder.write("old", LIST);
    fails(&folder, 7, "invalid file format (refusal 1)");
    folder.with(LIST, &["make", "--force", "--one-way", "old"]).gives(0);
    fails(&folder, 7, "it is one-way: it names no ids");
    // An image without entries, and one of another harbour.
    folder.cqdb(&["make", "--force", "old"]).gives(0);
    fails(&folder, 8, "they name no id alike, as images of two harbours");
    make(&folder, "old", "0 tower\n14 gate\n15 lock\n90 reference east pier\n");
    fails(&folder, 8, "they name no id alike, as images of two harbours");
}

/// One byte of the last image changes, at 150 places: no rename and no exchange of names is hidden.
#[test]
fn a_damaged_last_image_hides_nothing() {
    let folder = folder();
    let swapped = LIST.replace("14 north wall 1\n15 north wall 2", "15 north wall 1\n14 north wall 2");
    make(&folder, "image", &swapped);
    fails(&folder, 9, "id 14 was \"north wall 1\" and is \"north wall 2\"");
    let whole = folder.read("old");
    for turn in 0..150 {
        let mut damaged = whole.clone();
        // Most of them in entries, tables and back array.
        let at = if turn % 4 == 0 { turn * 13 % 2_072 } else { 2_072 + turn * 7 % (whole.len() - 2_072) };
        damaged[at] ^= 1 << (turn % 8);
        folder.write("old", &damaged);
        fails_at_some(&folder, &format!("byte {at}"));
    }
    for cut in [0, 1, 8, 2_071, 2_072, whole.len() - 1] {
        folder.write("old", &whole[..cut]);
        fails_at_some(&folder, &format!("cut at {cut}"));
    }
}

#[track_caller]
fn fails_at_some(folder: &Folder, what: &str) {
    let ran = asked(folder, LAST);
    assert_eq!(ran.status, Some(1), "{what}: {ran:?}");
    assert_eq!(String::from_utf8(ran.out).unwrap().matches("\nno  ").count(), 1, "{what}");
}

#[test]
fn an_id_or_a_name_that_has_moved() {
    let folder = folder();
    make(&folder, "image", &LIST.replace("14 north wall 1", "14 north wall one"));
    fails(&folder, 9, "id 14 was \"north wall 1\" and is \"north wall one\"");
    // The same as an intended rename. Another one is not.
    folder.write("accepted", "14\n");
    leaves(&folder, &format!("--accept accepted {LAST}"), ABOUT);
    folder.write("accepted", "15\n");
    fails_of(
        &folder,
        &format!("--accept accepted {LAST}"),
        10,
        9,
        "id 14 was \"north wall 1\" and is \"north wall one\"",
    );
    // An exchange of names, and one of three, cannot be accepted.
    folder.write("accepted", "14\n15\n16\n");
    make(&folder, "image", &LIST.replace("14 north wall 1\n15 north wall 2", "14 north wall 2\n15 north wall 1"));
    let words = format!("--accept accepted {LAST}");
    fails_of(&folder, &words, 10, 10, "\"north wall 1\" was the name of id 14 and is that of id 15");
    let three = LIST.replace("14 north wall 1\n15 north wall 2\n16 mole", "14 north wall 2\n15 mole\n16 north wall 1");
    make(&folder, "image", &three);
    fails_of(&folder, &words, 10, 10, "\"north wall 2\" was the name of id 15 and is that of id 14");
    // The other one is not sighted: it alone took a sighted prism's name, or lost its own to one.
    folder.write("round", "14\n");
    fails_of(&folder, &words, 10, 10, "\"north wall 2\" was the name of id 15 and is that of id 14");
    // A name is used again though its prism has another name now.
    make(&folder, "image", &LIST.replace("16 mole", "16 pier\n14 mole"));
    fails_of(&folder, &words, 10, 10, "\"mole\" was the name of id 16 and is that of id 14");
}

/// Prism 14 was renewed as 17, 16 is retired under its name, 15 has an intended new name, and 18 is new.
#[test]
fn renewed_retired_and_renamed_prisms_leave() {
    let folder = folder();
    let list = LIST.replace("15 north wall 2", "15 north wall east") + "17 north wall 1\n18 gate\n";
    make(&folder, "image", &list);
    sheet(&folder, "reference 0\nreference 1\nwall 17\nwall 15\nwall 18\nretired 14\nretired 16\nretired 47\n");
    folder.write("round", "0\n17\n1\n15\n18\n");
    folder.write("accepted", "15\n");
    let about = "compared 3 of 5 sighted ids, 2 new, 0 on the sheet not sighted";
    leaves(&folder, &format!("--accept accepted {LAST}"), about);
    // A catalogue that only gained entries, and a round of new prisms alone: it is compared all the same.
    make(&folder, "image", &format!("{LIST}18 gate\n"));
    sheet(&folder, "wall 18\nretired 47\n");
    folder.write("round", "18\n");
    leaves(&folder, LAST, "compared 0 of 1 sighted id, 1 new, 0 on the sheet not sighted");
    make(&folder, "image", &format!("{}18 mole\n", LIST.replace("16 mole\n", "")));
    fails(&folder, 10, "\"mole\" was the name of id 16 and is that of id 18");
}

#[test]
fn a_wall_before_its_reference() {
    let folder = folder();
    folder.write("round", "0\n14\n15\n1\n");
    let breaks = "pair 2: wall 15 is sighted, and reference 1 is not sighted before";
    let line = format!("no       the round keeps references before walls: {breaks}\n");
    let wanted = yes(10) + &format!("yes{SHEET_NAMED}\n{line}");
    asked(&folder, &format!("--pairs pairs {LAST}")).gives(1).prints(wanted).tells("");
}

/// Where there is no pair, or no wall of a pair is sighted, the yes is seen to be about nothing.
#[test]
fn pairs_that_compare_nothing() {
    let folder = folder();
    let (question, nothing) = ("the round keeps references before walls", "so nothing was compared");
    let has = |out: &[u8], text: String| assert!(String::from_utf8_lossy(out).contains(&text), "{text}");
    folder.write("pairs", "");
    let ran = asked(&folder, &format!("--pairs pairs {LAST}")).gives(0).tells("");
    has(&ran.out, format!("yes      {question}: there is no pair, {nothing}\n"));
    folder.write("pairs", "0 47\n");
    let ran = asked(&folder, &format!("--pairs pairs {LAST}")).gives(0).tells("");
    has(&ran.out, format!("yes      {question}: no wall of a pair is sighted, {nothing}\n"));
    let ran = asked(&folder, &format!("--json --pairs pairs {LAST}")).gives(0).tells("");
    has(&ran.out, format!("\"text\":\"{question}\",\"yes\":true,\"compared\":0}}"));
}

/// Where no id is sighted, or the sheet has none, the report stays, and each line that would ask of them says so.
#[test]
fn a_round_and_a_sheet_without_an_id() {
    let folder = folder();
    folder.write("pairs", "0 14\n");
    folder.write("windows", "0 1990-01-01 2200-01-01\n");
    folder.write("round", "");
    sheet(&folder, "");
    let dates = "--validity windows --date 2024-03-31 --last-date 2024-03-24";
    let none = "the round has no id, so nothing was compared";
    let behind = format!(
        "yes{SHEET_NAMED}: the sheet has no id, so nothing was compared\n\
         yes      the round keeps references before walls: {none}\n\
         yes  11  every sighted id has a window that holds both dates: {none}\n"
    );
    let ran = asked(&folder, &format!("--pairs pairs {dates} {LAST}")).gives(1).tells("");
    ran.prints(no(10, 4, "the round is empty") + &behind);
    let text = String::from_utf8(asked(&folder, &format!("--json {dates} {LAST}")).gives(1).out).unwrap();
    assert!(text.contains("\"yes\":true,\"compared\":0}\n{\"may_leave\":false}\n"), "{text}");
}

#[test]
fn an_unsighted_id_of_the_sheet_without_a_name() {
    let folder = folder();
    sheet(&folder, "reference 0\nreference 1\nwall 14\nwall 15\nretired 46\n");
    asked(&folder, LAST).gives(1).prints(yes(10) + &format!("no {SHEET_NAMED}: id 46 has none\n")).tells("");
}

/// The first day, the last, the day behind it; two windows that hold a date each; and a first report.
#[test]
fn windows_that_hold_both_dates() {
    let folder = folder();
    folder.write("round", "0\n14\n");
    let dates = "--validity windows --last-date 2024-03-24 --date 2024-03-31";
    let question = "11  every sighted id has a window that holds both dates";
    for (window, held) in [
        ("14 2024-03-24 2024-04-01", true),
        ("14 2024-03-25 2024-04-01", false),
        ("14 2024-01-01 2024-03-31", false),
        ("14 2024-01-01 2024-03-28\n14 2024-03-28 2025-01-01", false),
        ("14 2024-01-01 2024-03-28\n14 2024-03-01 2025-01-01", true),
        ("15 2024-01-01 2025-01-01", false),
    ] {
        folder.write("windows", format!("0 1990-01-01 2200-01-01\n{window}\n"));
        let text = String::from_utf8(asked(&folder, &format!("{dates} {LAST}")).gives(i32::from(!held)).out).unwrap();
        let line = if held { format!("yes  {question}\n") } else { format!("no   {question}: id 14 has none\n") };
        assert!(text.contains(&line), "{window}: {text}");
    }
    folder.write("windows", "0 1990-01-01 2200-01-01\n14 2024-03-31 2024-04-01\n");
    asked(&folder, &format!("--validity windows --date 2024-03-31 {FIRST}")).gives(0);
    asked(&folder, &format!("--validity windows --date 2024-04-01 {FIRST}")).gives(1);
}

/// Nobody reads the output: the status is the answer all the same. It is trouble where it cannot be written.
#[test]
fn the_status_without_a_reader() {
    let folder = folder();
    // The reader has gone before the first line is printed.
    let run = |end: &str| {
        let line = format!("set -o pipefail; (sleep 0.2; exec \"$CQDB\" preflight {LAST}) {end}");
        folder.shell(&line).status
    };
    assert_eq!(run("| true"), Some(0));
    assert_eq!(run(">/dev/full"), Some(2));
    make(&folder, "image", &LIST.replace("14 north wall 1", "14 north wall one"));
    assert_eq!(run("| true"), Some(1));
    assert_eq!(run(">/dev/full"), Some(2));
    assert_eq!(run(">&-"), Some(2));
}

/// The image and the last one are images of bundles.
#[test]
fn images_of_bundles() {
    let folder = folder();
    folder.image("quay", "30 crane\n31 mole head\n");
    folder.cqdb(&["bundle", "append", "walls", "quay", "image"]).gives(0);
    folder.cqdb(&["bundle", "append", "last", "quay", "old"]).gives(0);
    leaves(&folder, "--last last:1 --sheet sheet --round round walls:1", ABOUT);
    fails_of(
        &folder,
        "--last last:0 --sheet sheet --round round walls:1",
        10,
        8,
        "they name no id alike, as images of two harbours",
    );
    fails_of(&folder, "--last last:1 --sheet sheet --round round walls:0", 10, 5, "id 0 has none");
    for words in ["--last last --sheet sheet --round round walls:1", "--last last:1 --sheet sheet --round round walls"]
    {
        let ran = asked(&folder, words).gives(2).prints("");
        assert!(ran.err.contains("is a bundle of 2 images"), "{}", ran.err);
    }
    asked(&folder, "--last last:2 --sheet sheet --round round walls:1").gives(2).prints("");
    // An image of the bundle that does not open is a no, as a file of its own is.
    let mut spoilt = folder.read("last");
    let second = folder.read("quay").len();
    spoilt[second] = b'c';
    folder.write("last", &spoilt);
    fails_of(
        &folder,
        "--last last:1 --sheet sheet --round round walls:1",
        10,
        7,
        "invalid file format, magic mismatch (refusal 5)",
    );
}

/// Two walls, one sheet, one round.
#[test]
fn all_walls() {
    let folder = folder();
    let (north, quay) = ("14 north wall 1\n15 north wall 2\n", "30 crane\n31 mole head\n");
    let bundle = |name: &str, walls: [&str; 2]| {
        folder.write(name, "");
        for list in walls {
            make(&folder, "one", list);
            folder.cqdb(&["bundle", "append", name, "one"]).gives(0);
        }
    };
    bundle("last", [north, quay]);
    sheet(&folder, "wall 14\nwall 15\nwall 30\nwall 31\nretired 32\n");
    folder.write("round", "14\n30\n31\n");
    let ask = || asked(&folder, "--all --last last --sheet sheet --round round walls");
    let no = |line: &str| {
        let text = String::from_utf8(ask().gives(1).tells("").out).unwrap();
        assert!(text.contains(&format!("\n{line}\n")), "{text}");
    };
    bundle("walls", [north, &format!("{quay}32 quay 06\n")]);
    let of_wall = |wall: u32| yes(10).lines().map(|line| format!("{wall} {line}\n")).collect::<String>();
    let of_all = "yes      an id is sighted\nyes      every sighted id is in one wall, then and now\n\
                  yes      the name of every sighted id is in its wall alone, then and now\n";
    let about = "compared 3 of 3 sighted ids, 0 new, 1 on the sheet not sighted\n";
    ask().gives(0).prints(of_wall(0) + &of_wall(1) + of_all + &format!("yes{SHEET_NAMED}\n{about}"));
    // A wall in which nothing is sighted: its images are asked about all the same.
    folder.write("round", "30\n31\n");
    let text = String::from_utf8(ask().gives(0).out).unwrap();
    assert!(text.starts_with(&format!("0 yes   1  {}\n0 yes   7  {}\n1 yes   1", LINES[0], LINES[6])), "{text}");
    folder.write("round", "14\n30\n31\n");
    // A rename, a name that comes from another wall or is in both, an id that changed its wall, one in both and in none.
    bundle("walls", [north, "30 crane\n31 mole\n32 quay 06\n"]);
    no("1 no    9  every sighted id keeps its name, or its rename is accepted: id 31 was \"mole head\" and is \"mole\"");
    let apart = "no       the name of every sighted id is in its wall alone, then and now";
    bundle("walls", ["14 north wall 1\n", &format!("{quay}32 quay 06\n33 north wall 2\n")]);
    sheet(&folder, "wall 14\nwall 33\nwall 30\nwall 31\n");
    folder.write("round", "14\n33\n30\n");
    no(&format!("{apart}: \"north wall 2\" was in wall 0, and is sighted in wall 1"));
    bundle("walls", [&format!("{north}16 crane\n"), quay]);
    sheet(&folder, "wall 14\nwall 30\nwall 31\n");
    folder.write("round", "14\n30\n");
    no(&format!("{apart}: \"crane\" is in wall 0, and is sighted in wall 1"));
    let in_one = "no       every sighted id is in one wall, then and now";
    bundle("walls", [&format!("{north}31 gate\n"), "30 crane\n"]);
    folder.write("round", "14\n30\n31\n");
    no(&format!("{in_one}: id 31 was in wall 1 and is in wall 0"));
    bundle("walls", [&format!("{north}31 gate\n"), quay]);
    no(&format!("{in_one}: id 31 is in walls 0 and 1"));
    bundle("walls", [north, "30 crane\n"]);
    no(&format!("{in_one}: id 31 is in none"));
    bundle("walls", [north, quay]);
    folder.write("round", "");
    no("no       an id is sighted: the round is empty");
    no("yes      every sighted id is in one wall, then and now: the round has no id, so nothing was compared");
    // Bundles of different numbers of walls, and one image of a bundle, cannot be asked so.
    folder.write("round", "14\n");
    folder.cqdb(&["bundle", "append", "walls", "one"]).gives(0);
    ask().gives(2).prints("").tells("cqdb: preflight: the last bundle has 2 images, and this one 3\n");
    folder.write("last", folder.read("one"));
    ask().gives(2).prints("").tells("cqdb: preflight: the last bundle has 1 image, and this one 3\n");
    asked(&folder, "--all --last last --sheet sheet --round round walls:1").gives(2).prints("");
    folder.write("walls", "");
    asked(&folder, "--all --first --sheet sheet --round round walls").gives(2).prints("");
}

#[test]
fn what_cannot_be_done() {
    let folder = folder();
    folder.write("accepted", "14\n");
    folder.write("words", "0\nx\n");
    // The last id may be cut.
    folder.write("cut", "0\n1");
    folder.write("dos", "0\r\n");
    for (words, told) in [
        ("image", "say --last OLD, the image of the last report, or --first"),
        ("--sheet sheet --round round image", "say --last OLD, the image of the last report, or --first"),
        ("--first --last old --sheet sheet --round round image", "say --last or --first, not both"),
        ("--first --round round image", "say --sheet: the round sheet of the report"),
        ("--last old --sheet sheet image", "say --round: the ids that were sighted"),
        ("--last old --last old --sheet sheet --round round image", "--last is given twice"),
        ("--first --first --sheet sheet --round round image", "--first is given twice"),
        ("--first --sheet sheet --sheet=sheet --round round image", "--sheet is given twice"),
        ("--first --accept accepted --sheet sheet --round round image", "say --first or --accept, not both"),
        ("--validity windows --last old --sheet sheet --round round image", "--validity needs --date too"),
        ("--date 2024-03-31 --last old --sheet sheet --round round image", "--date needs --validity too"),
        ("--last-date 2024-03-31 --last old --sheet sheet --round round image", "--last-date needs --validity too"),
        (
            "--validity windows --date 2024-03-31 --last old --sheet sheet --round round image",
            "--validity needs --last-date too, where there is a last report",
        ),
        (
            "--validity windows --date 2024-03-31 --last-date 2024-03-31 --first --sheet sheet --round round image",
            "say --first or --last-date, not both",
        ),
        ("--validity windows --date 2024-02-30 --first --sheet sheet --round round image", "the date asked about"),
        (
            "--validity windows --date 2024-03-01 --last-date 2024-02-30 --last old --sheet sheet --round round image",
            "the date of the last report, 2024-02-30, is no day of the years 1900 to 2199 (refusal 22)",
        ),
        (
            "--validity windows --date 2024-02-29 --last-date 2024-03-01 --last old --sheet sheet --round round image",
            "the date of the last report is behind that of this one",
        ),
        ("--first --sheet sheet --round words image", "words, line 2: not a decimal id up to 4294967295: \"x\""),
        (
            "--first --sheet sheet --round dos image",
            "dos, line 1: a carriage return before the line feed (CR LF): --windows drops it\n",
        ),
        ("--first --sheet sheet --round cut image", "cut, line 2: the list ends without a line feed behind \"1\""),
        ("--first --sheet sheet --round", "--round needs its IDS"),
    ] {
        let ran = asked(&folder, words).gives(2).prints("");
        assert!(ran.err.starts_with(&format!("cqdb: preflight: {told}")), "{words}: {}", ran.err);
    }
    folder.write("windows", "0 1990-01-01 2200-01-01\n14 2024-01-01 2024-01-01\n");
    let ran = asked(&folder, &format!("--validity windows --date 2024-03-31 {FIRST}")).gives(2).prints("");
    assert!(ran.err.contains("windows, line 2: a window does not start before its end (refusal 23)"), "{}", ran.err);
    for words in [
        "--first --sheet sheet --round round missing",
        "--first --sheet missing --round round image",
        "--first --sheet sheet --round missing image",
        "--last missing --sheet sheet --round round image",
        "--accept missing --last old --sheet sheet --round round image",
        "--pairs missing --last old --sheet sheet --round round image",
    ] {
        let ran = asked(&folder, words).gives(2).prints("");
        assert!(ran.err.starts_with("cqdb: preflight: cannot read missing: "), "{words}: {}", ran.err);
    }
}
