//! `cqdb diff`, as it is run.
mod tool;

use std::collections::BTreeSet;

use tool::Folder;

fn folder() -> Folder {
    let folder = Folder::new();
    folder.image("old", "14 north wall 1\n15 north wall 2\n16 crane\n17 quay\n");
    folder.image("new", "14 north wall 2\n15 north wall 1\n16 crate\n18 quay\n20 gate\n");
    folder
}

/// The last line of a run on one pair of images.
fn counts(ids: [u32; 4], names: [u32; 4]) -> String {
    let words = |[compared, changed, new, gone]: [u32; 4]| {
        format!("{compared} compared, {changed} changed, {new} new, {gone} gone")
    };
    format!("= ids {}; names {}\n", words(ids), words(names))
}

#[test]
fn changes_of_two_images() {
    let folder = folder();
    let printed = "- 14 north wall 1\n+ 14 north wall 2\n> north wall 1 is now 15\n\
                   - 15 north wall 2\n+ 15 north wall 1\n> north wall 2 is now 14\n\
                   - 16 crane\n+ 16 crate\n\
                   - 17 quay\n> quay is now 18\n\
                   + 18 quay\n\
                   + 20 gate\n"
        .to_string()
        + &counts([6, 3, 2, 1], [6, 3, 2, 1]);
    folder.cqdb(&["diff", "old", "new"]).gives(1).prints(&printed).tells("");
    folder.cqdb(&["diff", "old", "old"]).gives(0).prints(counts([4, 0, 0, 0], [4, 0, 0, 0])).tells("");
    let zero = printed.replace('\n', "\0");
    folder.cqdb(&["diff", "-0", "old", "new"]).gives(1).prints(&zero);
}

#[test]
fn swapped_names_alone() {
    let folder = folder();
    let printed = "- 14 north wall 1\n+ 14 north wall 2\n> north wall 1 is now 15\n\
                   - 15 north wall 2\n+ 15 north wall 1\n> north wall 2 is now 14\n\
                   - 17 quay\n> quay is now 18\n"
        .to_string()
        + &counts([6, 3, 2, 1], [6, 3, 2, 1]);
    folder.cqdb(&["diff", "--swapped", "old", "new"]).gives(1).prints(printed);
    folder.image("renamed", "14 north wall 1\n15 south wall\n16 crane\n17 quay\n");
    let counts = counts([4, 1, 0, 0], [5, 0, 1, 1]);
    folder.cqdb(&["diff", "--swapped", "old", "renamed"]).gives(0).prints(&counts);
    let printed = format!("- 15 north wall 2\n+ 15 south wall\n{counts}");
    folder.cqdb(&["diff", "old", "renamed"]).gives(1).prints(printed);
}

/// Where names or ids were put again the two directions may differ alone, and both are compared.
#[test]
fn repeated_names_and_ids() {
    let folder = Folder::new();
    let make = |name: &str, list: &str| {
        folder.with(list, &["make", "--repeats", "--renamed", name]).gives(0);
    };
    make("old", "5 crane\n9 crane\n");
    make("new", "9 crane\n5 crane\n");
    for options in [&["diff"][..], &["diff", "--swapped"]] {
        let printed = "> crane was 5 and is now 9\n".to_string() + &counts([2, 0, 0, 0], [1, 1, 0, 0]);
        folder.cqdb(&[options, &["old", "new"]].concat()).gives(1).prints(printed);
    }
    // Names of ids are exchanged, and each name finds the id that it found before.
    make("old", "0 A\n1 B\n");
    make("new", "0 A\n1 B\n0 B\n1 A\n");
    for options in [&["diff"][..], &["diff", "--swapped"]] {
        let printed = "- 0 A\n+ 0 B\n> A is still 0\n> A is now the name of 1\n\
                       - 1 B\n+ 1 A\n> B is still 1\n> B is now the name of 0\n"
            .to_string()
            + &counts([2, 2, 0, 0], [2, 0, 0, 0]);
        folder.cqdb(&[options, &["old", "new"]].concat()).gives(1).prints(printed);
    }
    // One of two ids of a name gets another name; then the name is found under the other of the two.
    make("old", "5 crane\n9 crane\n");
    make("new", "5 crane\n9 mole\n");
    let printed = "- 9 crane\n+ 9 mole\n> crane is still 5\n".to_string() + &counts([2, 1, 0, 0], [2, 0, 1, 0]);
    folder.cqdb(&["diff", "old", "new"]).gives(1).prints(printed);
    make("new", "9 crane\n9 mole\n");
    let printed = "- 5 crane\n> crane is now 9\n- 9 crane\n+ 9 mole\n> crane is now 9\n".to_string()
        + &counts([2, 1, 0, 1], [2, 1, 1, 0]);
    folder.cqdb(&["diff", "old", "new"]).gives(1).prints(printed);
    // A name that no id has any longer is found still, or not.
    make("old", "0 A\n0 B\n1 C\n");
    make("new", "0 B\n1 C\n1 D\n1 C\n");
    let printed = "> A was 0 and is gone\n> D is new for 1\n".to_string() + &counts([2, 0, 0, 0], [4, 0, 1, 1]);
    folder.cqdb(&["diff", "old", "new"]).gives(1).prints(printed);
    folder.cqdb(&["diff", "--swapped", "old", "new"]).gives(0).prints(counts([2, 0, 0, 0], [4, 0, 1, 1]));
}

/// For small lists of every kind the status is 0 exactly where `cqdb id` and `cqdb name` answer alike.
#[test]
fn the_status_says_whether_all_answers_are_alike() {
    let folder = Folder::new();
    let names = ["A", "B", "C"];
    let mut seed = 11_u32;
    let mut statuses = BTreeSet::new();
    let mut list = |longest: u32| {
        let mut next = |below: u32| {
            seed = seed.wrapping_mul(1_664_525).wrapping_add(1_013_904_223);
            (seed >> 16) % below
        };
        let puts = (0..next(longest)).map(|_| format!("{} {}\n", next(3), names[next(3) as usize]));
        puts.collect::<String>()
    };
    let answers = |image: &str| {
        let ids = folder.cqdb(&[&["id", "-q", image], &names[..]].concat()).out;
        (ids, folder.cqdb(&["name", "-q", image, "0", "1", "2"]).out)
    };
    for _ in 0..150 {
        for image in ["old", "new"] {
            folder.with(list(5), &["make", "--force", "--repeats", "--renamed", image]).gives(0);
        }
        let alike = answers("old") == answers("new");
        let ran = folder.cqdb(&["diff", "old", "new"]).gives(i32::from(!alike));
        assert_eq!(ran.out.iter().filter(|byte| **byte == b'\n').count() == 1, alike, "{ran:?}");
        statuses.insert(alike);
    }
    assert_eq!(statuses.len(), 2);
}

#[test]
fn objects_of_json() {
    let folder = folder();
    folder.with(b"1 caf\xe9\n2 A\n".as_slice(), &["make", "one"]).gives(0);
    folder.image("other", "1 A\n");
    let printed =
        "{\"id\":1,\"old\":\"caf\u{fffd}\",\"old_hex\":\"636166e9\",\"new\":\"A\",\"was\":1,\"now\":null,\"now_name_of\":null}\n\
                   {\"id\":2,\"old\":\"A\",\"new\":null,\"was\":2,\"now\":1,\"now_name_of\":1}\n\
                   {\"name\":\"caf\u{fffd}\",\"hex\":\"636166e9\",\"old\":1,\"new\":null}\n\
                   {\"name\":\"A\",\"old\":2,\"new\":1}\n\
                   {\"ids\":{\"compared\":2,\"changed\":1,\"new\":0,\"gone\":1},\
                   \"names\":{\"compared\":2,\"changed\":1,\"new\":0,\"gone\":1}}\n";
    folder.cqdb(&["diff", "--json", "one", "other"]).gives(1).prints(printed).tells("");
    let ran = folder.cqdb(&["diff", "--json", "--zero", "one", "other"]).gives(2).prints("");
    ran.tells("cqdb: diff: say --json or --zero, not both\n");
}

#[test]
fn bundles_by_position() {
    let folder = folder();
    folder.cqdb(&["make", "empty"]).gives(0);
    folder.cqdb(&["bundle", "append", "one", "old", "new"]).gives(0);
    folder.cqdb(&["bundle", "append", "other", "old", "new", "empty"]).gives(0);
    let same = |images: &str| {
        let line = |position: &str, n: u32| position.to_string() + &counts([n, 0, 0, 0], [n, 0, 0, 0]);
        line("0 ", 4) + &line("1 ", 5) + images
    };
    let ran = folder.cqdb(&["diff", "--all", "one", "one"]).gives(0);
    ran.prints(same("= images 2 compared, 0 changed, 0 new, 0 gone\n")).tells("");
    let third = "2 + image\n2 ".to_string() + &counts([0; 4], [0; 4]);
    let ran = folder.cqdb(&["diff", "--all", "one", "other"]).gives(1);
    ran.prints(same(&(third + "= images 3 compared, 0 changed, 1 new, 0 gone\n")));
    folder.image("more", "7 gate\n");
    folder.cqdb(&["bundle", "append", "third", "more"]).gives(0);
    let json = "{\"position\":0,\"id\":7,\"old\":\"gate\",\"new\":null,\"was\":7,\"now\":null,\"now_name_of\":null}\n\
                {\"position\":0,\"name\":\"gate\",\"old\":7,\"new\":null}\n\
                {\"position\":0,\"ids\":{\"compared\":1,\"changed\":0,\"new\":0,\"gone\":1},\
                \"names\":{\"compared\":1,\"changed\":0,\"new\":0,\"gone\":1}}\n\
                {\"images\":{\"compared\":1,\"changed\":1,\"new\":0,\"gone\":0}}\n";
    folder.cqdb(&["diff", "--all", "--json", "third", "empty"]).gives(1).prints(json);
    let told = "one is a bundle of 2 images: one:0 to one:1 name them; id, name, list and diff take --all\n";
    folder.cqdb(&["diff", "one", "old"]).gives(2).prints("").tells(&format!("cqdb: diff: {told}"));
    folder.cqdb(&["diff", "one:0", "old"]).gives(0);
}

#[test]
fn what_cannot_be_compared() {
    let folder = folder();
    folder.with("1 crane\n", &["make", "--one-way", "one-way"]).gives(0);
    for words in [["diff", "one-way", "new"], ["diff", "new", "one-way"]] {
        let told = "cqdb: diff: one-way is one-way: it names no ids; --any compares the ids of its names\n";
        folder.cqdb(&words).gives(2).prints("").tells(told);
    }
    folder.cqdb(&["diff", "old", "absent"]).gives(2).prints("");
    folder.cqdb(&["diff", "old"]).gives(2).prints("");
    folder.write("text", "no image");
    folder.cqdb(&["diff", "text", "new"]).gives(2).prints("");
    folder.with("7 two\nlines\0", &["make", "-0", "--alike", "lines"]).gives(0);
    let told = "cqdb: diff: the name \"two\\nlines\" has a line feed: say --zero or --json\n";
    folder.cqdb(&["diff", "lines", "old"]).gives(2).tells(told);
}

/// With --any as far as it goes; what was not compared is no reason for a yes.
#[test]
fn images_that_are_one_way_or_not_canonical() {
    let folder = folder();
    for (name, list) in [("one", "1 crane\n2 mole\n"), ("two", "2 crane\n1 mole\n")] {
        folder.with(list, &["make", "--one-way", name]).gives(0);
    }
    folder.cqdb(&["diff", "--any", "one", "one"]).gives(0).prints(counts([0; 4], [2, 0, 0, 0]));
    let printed = "> crane was 1 and is now 2\n> mole was 2 and is now 1\n".to_string() + &counts([0; 4], [2, 2, 0, 0]);
    folder.cqdb(&["diff", "--any", "one", "two"]).gives(1).prints(printed);
    // A byte more behind the image: nothing says what it is for.
    folder.write("longer", [&folder.read("old")[..], b"\0"].concat());
    let told = "cqdb: diff: longer is not canonical: it may have names that no id has; --any compares the others\n";
    folder.cqdb(&["diff", "old", "longer"]).gives(2).prints("").tells(told);
    let told = "cqdb: diff: longer is not canonical, so names that no id has were not compared, \
                and no other difference was found\n";
    let alike = counts([4, 0, 0, 0], [4, 0, 0, 0]);
    folder.cqdb(&["diff", "--any", "old", "longer"]).gives(2).prints(&alike).tells(told);
    folder.cqdb(&["diff", "--any", "longer", "longer"]).gives(0).prints(&alike).tells("");
    folder.cqdb(&["diff", "--any", "longer", "new"]).gives(1).tells("");
}
