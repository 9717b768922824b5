//! `cqdb bundle`, as it is run.
mod tool;

use std::fs;

use tool::Folder;

fn folder() -> Folder {
    let folder = Folder::new();
    folder.image("north", "0 A\n1 B\n");
    folder.image("quay", "7 crane\n");
    folder.cqdb(&["make", "empty"]).gives(0);
    folder
}

#[test]
fn append_list_extract() {
    let folder = folder();
    let sizes = ["north", "empty", "quay"].map(|name| folder.read(name).len());
    let ran = folder.cqdb(&["bundle", "append", "walls", "north", "empty"]).gives(0);
    ran.prints(format!("walls: 2 images, {} bytes\n", sizes[0] + sizes[1]));
    folder.cqdb(&["bundle", "append", "walls", "quay"]).gives(0);
    assert_eq!(folder.read("walls"), ["north", "empty", "quay"].map(|name| folder.read(name)).concat());
    let ran = folder.cqdb(&["bundle", "list", "walls"]).gives(0);
    ran.prints(format!("0 2 {}\n1 0 {}\n2 1 {}\n", sizes[0], sizes[1], sizes[2])).tells("");
    let ran = folder.cqdb(&["bundle", "extract", "walls", "2", "out"]).gives(0);
    ran.prints(format!("out: 1 entry, {} bytes\n", sizes[2])).tells("");
    assert_eq!(folder.read("out"), folder.read("quay"));
    folder.cqdb(&["id", "out", "crane"]).gives(0).prints("7 crane\n");
    assert_eq!(folder.files(), ["empty", "north", "out", "quay", "walls"]);
}

#[test]
fn positions_that_are_not_there() {
    let folder = folder();
    folder.cqdb(&["bundle", "append", "walls", "north"]).gives(0);
    let ran = folder.cqdb(&["bundle", "extract", "walls", "1", "out"]).gives(1).prints("");
    ran.tells("cqdb: bundle: walls has 1 image, and none at position 1 (refusal 11)\n");
    folder.cqdb(&["bundle", "extract", "walls", "x", "out"]).gives(2);
    folder.write("none", "");
    folder.cqdb(&["bundle", "list", "none"]).gives(0).prints("").tells("");
    folder.cqdb(&["bundle", "list", "missing"]).gives(2);
    assert!(!folder.0.join("out").exists());
}

#[test]
fn broken_bundles_and_images() {
    let folder = folder();
    folder.cqdb(&["bundle", "append", "walls", "north", "quay"]).gives(0);
    let whole = folder.read("walls");
    // An image whose size word is not its length, a list of names, a file that is not there.
    folder.write("longer", [&folder.read("north")[..], b"\0"].concat());
    folder.write("text", "0 A\n");
    for image in ["longer", "text", "missing"] {
        let ran = folder.cqdb(&["bundle", "append", "walls", "north", image]).gives(2);
        assert!(ran.err.contains(image) && (image == "missing" || ran.err.ends_with("(refusal 10)\n")), "{}", ran.err);
        assert_eq!(folder.read("walls"), whole);
    }
    folder.write("cut", &whole[..whole.len() - 1]);
    for words in [
        &["bundle", "append", "cut", "north"][..],
        &["bundle", "list", "cut"],
        &["bundle", "extract", "cut", "1", "out"],
    ] {
        let ran = folder.cqdb(words).gives(2);
        assert!(ran.err.starts_with("cqdb: bundle: cut: ") && ran.err.ends_with("(refusal 10)\n"), "{}", ran.err);
    }
    folder.cqdb(&["bundle", "extract", "cut", "0", "out"]).gives(0);
    // An image that does not open is told, and the others are listed.
    let mut spoilt = whole;
    spoilt[0] = b'c';
    folder.write("spoilt", &spoilt);
    let ran =
        folder.cqdb(&["bundle", "list", "spoilt"]).gives(1).prints(format!("1 1 {}\n", folder.read("quay").len()));
    ran.tells("cqdb: bundle: image 0: invalid file format, magic mismatch (refusal 5)\n");
    folder.cqdb(&["bundle", "list"]).gives(2);
    folder.cqdb(&["bundle", "list", "walls", "more"]).gives(2);
    fs::remove_file(folder.0.join("out")).unwrap();
}

/// Eight at once, ten times: none is lost.
#[test]
fn appends_side_by_side() {
    let folder = folder();
    let line = "for i in $(seq 10); do for j in $(seq 8); do \"$CQDB\" bundle append walls north >>said 2>>told || echo $? & done; wait; done";
    folder.shell(line).gives(0).prints("").tells("");
    let (walls, north) = (folder.read("walls"), folder.read("north"));
    assert_eq!(walls.len(), 80 * north.len());
    assert!(walls.chunks(north.len()).all(|image| image == north));
    let said = String::from_utf8(folder.read("said")).unwrap();
    let mut images: Vec<u32> = said.lines().map(|line| line.split(' ').nth(1).unwrap().parse().unwrap()).collect();
    images.sort_unstable();
    assert_eq!(images, (1..=80).collect::<Vec<u32>>());
    assert_eq!(folder.files(), ["empty", "north", "quay", "said", "told", "walls"]);
}

/// A bundle that another process changes is waited for, and a message says so after a second.
#[test]
fn a_bundle_that_is_locked() {
    let folder = folder();
    if folder.shell("command -v flock").status != Some(0) {
        tool::skipped("there is no program 'flock'");
        return;
    }
    folder.cqdb(&["bundle", "append", "walls", "north"]).gives(0);
    let line = "flock walls sleep 1.6 & sleep 0.2; \"$CQDB\" bundle append walls quay";
    let ran = folder.shell(line).gives(0);
    assert!(ran.err.starts_with("cqdb: waiting: another process is changing walls\n"), "{}", ran.err);
    folder.cqdb(&["bundle", "list", "walls"]).prints(format!(
        "0 2 {}\n1 1 {}\n",
        folder.read("north").len(),
        folder.read("quay").len()
    ));
}

#[test]
fn a_bundle_is_not_taken_for_an_image() {
    let folder = folder();
    folder.cqdb(&["bundle", "append", "walls", "north", "quay"]).gives(0);
    let whole = folder.read("walls");
    folder.write("list", "3 mole\n");
    let told = "walls is a bundle of 2 images: walls:0 to walls:1 name them; id, name, list and diff take --all\n";
    for command in [
        &["id", "walls", "A"][..],
        &["name", "walls", "0"],
        &["stats", "walls"],
        &["list", "walls"],
        &["page", "walls"],
        &["check", "walls"],
        &["home", "walls", "0"],
        &["panel", "walls", "0"],
        &["ids", "walls", "A"],
    ] {
        folder.cqdb(command).gives(2).prints("").tells(&format!("cqdb: {}: {told}", command[0]));
    }
    let told = "cannot write walls: a bundle of 2 images is there; remove it, name another place, or say --force\n";
    for command in
        [&["make", "walls", "list"][..], &["load", "0", "walls"], &["bundle", "extract", "walls", "0", "walls"]]
    {
        folder.cqdb(command).gives(2).prints("").tells(&format!("cqdb: {}: {told}", command[0]));
    }
    // Where the second image is cut, the file is a bundle still.
    folder.write("cut", &whole[..whole.len() - 1]);
    let ran = folder.cqdb(&["id", "cut", "A"]).gives(2);
    ran.tells("cqdb: id: cut is a broken bundle: cut:0 names its first image (refusal 10)\n");
    folder.cqdb(&["id", "cut:0", "A"]).gives(0).prints("0 A\n");
    folder.cqdb(&["make", "cut", "list"]).gives(2);
    assert_eq!(folder.read("walls"), whole);
    folder.cqdb(&["make", "--force", "walls", "list"]).gives(0);
    folder.cqdb(&["list", "walls"]).prints("3 mole\n");
}

#[test]
fn an_image_that_becomes_a_bundle() {
    let folder = folder();
    let told = "cqdb: bundle: north had one image and is a bundle now: north:0 names that image\n";
    folder.cqdb(&["bundle", "append", "north", "quay"]).gives(0).tells(told);
    folder.cqdb(&["list", "north:0"]).gives(0).prints("0 A\n1 B\n");
    folder.cqdb(&["bundle", "append", "north", "quay"]).gives(0).tells("");
}

#[test]
fn one_image_of_a_bundle_and_all() {
    let folder = folder();
    folder.image("more", "1 crane\n2 A\n");
    folder.cqdb(&["bundle", "append", "walls", "north", "empty", "quay", "more"]).gives(0);
    folder.cqdb(&["id", "walls:2", "crane"]).gives(0).prints("7 crane\n");
    folder.cqdb(&["name", "walls:3", "1", "2"]).gives(0).prints("1 crane\n2 A\n");
    folder.cqdb(&["list", "walls:0"]).prints("0 A\n1 B\n");
    folder.cqdb(&["check", "walls:3"]).gives(0);
    let ran = folder.cqdb(&["id", "walls:4", "A"]).gives(2);
    ran.tells("cqdb: id: walls:4: the bundle has no image at this position (refusal 11)\n");
    folder
        .cqdb(&["id", "--all", "walls", "crane", "A"])
        .gives(0)
        .prints("2 7 crane\n3 1 crane\n0 0 A\n3 2 A\n")
        .tells("");
    let ran = folder.cqdb(&["name", "--all", "walls", "1", "9"]).gives(1).prints("0 1 B\n3 1 crane\n 9 \n");
    ran.tells("cqdb: name: walls has no name for id 9\n");
    folder.cqdb(&["list", "--all", "walls"]).gives(0).prints("0 0 A\n0 1 B\n2 7 crane\n3 1 crane\n3 2 A\n");
    let json = "{\"position\":2,\"id\":7,\"name\":\"crane\"}\n{\"position\":3,\"id\":1,\"name\":\"crane\"}\n";
    folder.cqdb(&["id", "--all", "--json", "walls", "crane"]).gives(0).prints(json);
    folder.cqdb(&["id", "--all", "north", "B"]).gives(0).prints("0 1 B\n");
    // A file whose name has a colon is that file.
    fs::copy(folder.0.join("quay"), folder.0.join("walls:0")).unwrap();
    folder.cqdb(&["list", "walls:0"]).prints("7 crane\n");
}

/// An image is appended, not a bundle; one image of a bundle is named by its position.
#[test]
fn a_bundle_is_not_appended() {
    let folder = folder();
    folder.cqdb(&["bundle", "append", "walls", "north", "quay"]).gives(0);
    let whole = folder.read("walls");
    let told = "walls is a bundle of 2 images, and an image is appended: walls:0 to walls:1 name them\n";
    for bundle in ["walls", "other", "-"] {
        let ran = folder.cqdb(&["bundle", "append", bundle, "walls"]).gives(2).prints("");
        ran.tells(&format!("cqdb: bundle: {told}"));
    }
    folder.write("cut", &whole[..whole.len() - 1]);
    let ran = folder.cqdb(&["bundle", "append", "walls", "cut"]).gives(2).prints("");
    ran.tells("cqdb: bundle: cut is a broken bundle, and an image is appended: cut:0 names its first (refusal 10)\n");
    assert!(folder.read("walls") == whole && !folder.0.join("other").exists());
    let ran = folder.cqdb(&["bundle", "append", "walls", "walls:1", "cut:0"]).gives(0);
    ran.prints(format!("walls: 4 images, {} bytes\n", 2 * whole.len())).tells("");
    assert_eq!(folder.read("walls"), [&whole[..], &folder.read("quay"), &folder.read("north")].concat());
    let ran = folder.cqdb(&["bundle", "append", "walls", "walls:4"]).gives(2);
    ran.tells("cqdb: bundle: walls:4: the bundle has no image at this position (refusal 11)\n");
    folder.write("text", "0 A\n");
    let told = "text cannot be appended: it is no image, or its size word is not its length (refusal 10)\n";
    folder.cqdb(&["bundle", "append", "walls", "text"]).gives(2).tells(&format!("cqdb: bundle: {told}"));
}
