//! What the commands write, and what they leave as it is.
mod tool;

use std::fs;
use std::io::Write;
use std::os::unix::fs::{chown, symlink, MetadataExt, PermissionsExt};
use std::process::{Child, Command, Stdio};
use std::thread;
use std::time::Duration;

use tool::{Folder, TOOL};

const NOT_IMAGE: &str = "a file that is not an image is there; remove it, name another place, or say --force\n";

#[test]
fn a_file_of_another_kind_is_not_replaced() {
    let folder = Folder::new();
    folder.write("list", "0 crane\n");
    let told = |command: &str| format!("cqdb: {command}: cannot write list: {NOT_IMAGE}");
    folder.with("1 mole\n", &["make", "list"]).gives(2).prints("").tells(&told("make"));
    folder.cqdb(&["load", "0", "list"]).gives(2).tells(&told("load"));
    folder.image("image", "1 mole\n");
    folder.cqdb(&["bundle", "append", "walls", "image"]).gives(0);
    folder.cqdb(&["bundle", "extract", "walls", "0", "list"]).gives(2).tells(&told("bundle"));
    let told = told("sheet").replace("an image", "a round sheet");
    folder.cqdb(&["sheet", "make", "list"]).gives(2).prints("").tells(&told);
    folder.with("wall 1\n", &["sheet", "make", "list"]).gives(2).tells(&told);
    folder.with("wall 1\n", &["sheet", "make", "image"]).gives(2).tells(&told.replace("list", "image"));
    assert!(folder.read("list") == b"0 crane\n" && folder.files() == ["image", "list", "walls"]);
    // A sheet is no image either; what --force says is done.
    folder.with("wall 1\n", &["sheet", "make", "round"]).gives(0);
    folder.with("1 mole\n", &["make", "round"]).gives(2);
    folder.with("1 mole\n", &["make", "--force", "list"]).gives(0);
    folder.with("wall 1\n", &["sheet", "make", "--force", "image"]).gives(0);
    assert!(folder.read("list") == folder.read("walls") && folder.read("image") == folder.read("round"));
    folder.write("empty", "");
    folder.image("empty", "1 mole\n");
    assert_eq!(folder.read("empty"), folder.read("walls"));
}

#[test]
fn an_empty_list_replaces_nothing_that_is_full() {
    let folder = Folder::new();
    folder.image("image", "1 mole\n");
    folder.with("wall 1\n", &["sheet", "make", "round"]).gives(0);
    let old = ["image", "round"].map(|name| folder.read(name));
    let told = "is there, and an empty one would replace it; say --force\n";
    folder
        .cqdb(&["make", "image"])
        .gives(2)
        .prints("")
        .tells(&format!("cqdb: make: cannot write image: an image {told}"));
    let ran = folder.cqdb(&["sheet", "make", "round"]).gives(2).prints("");
    ran.tells(&format!("cqdb: sheet: cannot write round: a round sheet {told}"));
    assert_eq!(["image", "round"].map(|name| folder.read(name)), old);
    // A damaged image is not an empty one.
    folder.write("damaged", &old[0][..2_100]);
    folder.cqdb(&["make", "damaged"]).gives(2);
    folder.with("1 pier\n", &["make", "damaged"]).gives(0);
    folder.cqdb(&["make", "--force", "image"]).gives(0).prints("image: 0 entries, 2072 bytes\n");
    folder.cqdb(&["make", "image"]).gives(0);
    folder.cqdb(&["sheet", "make", "--force", "round"]).gives(0);
    folder.cqdb(&["sheet", "make", "round"]).gives(0).prints("round: 0 ids, 6 bytes\n");
}

#[test]
fn a_link_and_the_rights_of_the_old_image_are_kept() {
    let folder = Folder::new();
    folder.image("image", "1 old\n");
    fs::set_permissions(folder.0.join("image"), fs::Permissions::from_mode(0o640)).unwrap();
    symlink("image", folder.0.join("link")).unwrap();
    folder.image("link", "1 new\n");
    folder.cqdb(&["list", "image"]).prints("1 new\n");
    let kept = fs::metadata(folder.0.join("image")).unwrap().permissions().mode();
    assert_eq!((kept & 0o777, folder.files()), (0o640, vec!["image".to_string(), "link".to_string()]));
    // A link to nothing stays a link to nothing.
    symlink("nowhere", folder.0.join("dangling")).unwrap();
    for words in [&["make", "dangling"][..], &["bundle", "append", "dangling", "image"], &["sheet", "make", "dangling"]]
    {
        let ran = folder.with("", words).gives(2).prints("");
        ran.tells(&format!(
            "cqdb: {}: cannot write dangling: it is a symbolic link to nowhere, which is not there\n",
            words[0]
        ));
    }
    assert_eq!(folder.files(), ["dangling", "image", "link"]);
    assert!(fs::symlink_metadata(folder.0.join("dangling")).unwrap().is_symlink());
}

/// A folder of somebody who is not root, with the tool in it. None where this is not run by root.
fn for_another_user() -> Option<Folder> {
    let folder = Folder::new();
    let setpriv = folder.shell("[ \"$(id -u)\" = 0 ] && command -v setpriv").status == Some(0);
    if !setpriv {
        tool::skipped("this needs root and the program 'setpriv'");
        return None;
    }
    fs::copy(TOOL, folder.0.join("cqdb")).unwrap();
    fs::set_permissions(&folder.0, fs::Permissions::from_mode(0o777)).unwrap();
    Some(folder)
}

const AS_1234: &str = "setpriv --reuid 1234 --regid 1234 --clear-groups ./cqdb";

#[test]
fn the_owner_of_the_old_image_is_kept_where_the_user_may() {
    let Some(folder) = for_another_user() else { return };
    folder.image("image", "1 old\n");
    let owner = || {
        let about = fs::metadata(folder.0.join("image")).unwrap();
        (about.uid(), about.gid(), about.mode() & 0o777)
    };
    chown(folder.0.join("image"), Some(1234), Some(1234)).unwrap();
    fs::set_permissions(folder.0.join("image"), fs::Permissions::from_mode(0o604)).unwrap();
    folder.with("2 new\n", &["make", "image"]).gives(0).prints("image: 1 entry, 2112 bytes\n").tells("");
    assert_eq!(owner(), (1234, 1234, 0o604));
    // Another user than root cannot give a file away.
    chown(folder.0.join("image"), Some(0), Some(0)).unwrap();
    let ran = folder.shell(&format!("echo '3 newer' | {AS_1234} make image")).gives(0);
    ran.tells("cqdb: image is written; its owner was 0:0 and is now 1234:1234, since the user may not keep it\n");
    assert_eq!(owner(), (1234, 1234, 0o604));
}

/// The folder can be written to and not be read, so it cannot be synced: that is said, and the image is there.
#[test]
fn a_folder_that_cannot_be_synced() {
    let Some(folder) = for_another_user() else { return };
    let line = format!(
        "mkdir place; chown 1234 place; echo '1 mole' | {AS_1234} make place/image; chmod 300 place; \
         {AS_1234} bundle append place/walls place/image; echo $?; {AS_1234} bundle append place/walls place/image; echo $?"
    );
    let ran = folder.shell(&line).gives(0);
    let text = String::from_utf8(ran.out).unwrap();
    assert_eq!(
        text,
        "place/image: 1 entry, 2109 bytes\nplace/walls: 1 image, 2109 bytes\n0\nplace/walls: 2 images, 4218 bytes\n0\n"
    );
    let told =
        ran.err.lines().filter(|line| line.starts_with("cqdb: place/walls is written; its folder could not be synced"));
    assert_eq!(told.count(), 2, "{}", ran.err);
}

/// Where the message cannot be written, nothing is done: status and file agree.
#[test]
fn a_message_that_cannot_be_written() {
    let folder = Folder::new();
    folder.image("image", "1 old\n");
    folder.with("wall 1\n", &["sheet", "make", "round"]).gives(0);
    folder.cqdb(&["bundle", "append", "walls", "image"]).gives(0);
    let old = ["image", "round", "walls"].map(|name| folder.read(name));
    for line in [
        "echo '2 new' | \"$CQDB\" make image",
        "\"$CQDB\" load 0 image",
        "echo 'wall 2' | \"$CQDB\" sheet make round",
        "\"$CQDB\" bundle append walls image",
        "\"$CQDB\" bundle append new image",
    ] {
        let ran = folder.shell(&format!("{line} >/dev/full")).gives(2);
        assert!(ran.err.contains(": cannot write to standard output: "), "{}", ran.err);
    }
    assert_eq!(["image", "round", "walls"].map(|name| folder.read(name)), old);
    assert_eq!(folder.files(), ["image", "round", "walls"]);
    // A reader who is gone is no reason to keep the old image.
    folder.shell("set -o pipefail; (sleep 0.2; echo '2 new') | \"$CQDB\" make image | true").gives(0).tells("");
    folder.cqdb(&["list", "image"]).prints("2 new\n");
}

#[test]
fn a_name_of_250_letters() {
    let folder = Folder::new();
    for letters in [200, 201, 250, 255] {
        let name = "x".repeat(letters);
        folder.image(&name, "1 old\n");
        folder.image(&name, "1 new\n");
        folder.cqdb(&["list", &name]).prints("1 new\n");
        assert_eq!(folder.files(), std::slice::from_ref(&name));
        fs::remove_file(folder.0.join(name)).unwrap();
    }
}

/// A make that has been given all but the end of its list, and waits for that.
fn waiting(folder: &Folder) -> Child {
    let mut child =
        Command::new(TOOL).args(["make", "image"]).current_dir(&folder.0).stdin(Stdio::piped()).spawn().unwrap();
    child.stdin.as_mut().unwrap().write_all(b"1 new\n").unwrap();
    child
}

/// A signal that comes while the new file is written removes it. The file is made slow by a size that takes a while to
/// sync.
#[test]
fn a_signal_removes_the_new_file() {
    let folder = Folder::new();
    folder.image("image", "1 old\n");
    let old = folder.read("image");
    let mut during = 0;
    for signal in ["INT", "TERM", "HUP"].into_iter().cycle().take(30) {
        let line = "echo '9000000 far' | \"$CQDB\" make image >/dev/null & \
                    for i in $(seq 500); do compgen -G 'image.*.new' >/dev/null && break; sleep 0.001; done; \
                    compgen -G 'image.*.new' >/dev/null && echo during; ";
        let ran = folder.shell(&format!("{line} kill -{signal} $! 2>/dev/null; wait $!; echo $?"));
        let text = String::from_utf8(ran.out).unwrap();
        let files = folder.files();
        assert_eq!(files, ["image"], "{signal}: {text}");
        if text.starts_with("during") && folder.read("image") == old {
            during += 1;
        } else {
            folder.write("image", &old);
        }
    }
    assert!(during > 0, "no signal came while a new file was there");
}

/// A run that is killed leaves its new file, under a name that no later run uses; the later runs name it.
#[test]
fn what_a_killed_run_leaves_is_named() {
    let folder = Folder::new();
    folder.image("image", "1 old\n");
    folder.write("image.0123456789abcdef.new", "half");
    folder.write("image.1.new", "of another program");
    folder.write("other.0123456789abcdef.new", "of another image");
    let ran = folder.with("2 new\n", &["make", "image"]).gives(0).prints("image: 1 entry, 2112 bytes\n");
    let place = fs::canonicalize(&folder.0).unwrap().join("image.0123456789abcdef.new");
    ran.tells(&format!("cqdb: {} is left by a run that was killed; it may be removed\n", place.display()));
    assert_eq!(folder.files().len(), 4);
    // A file that is being written now is not.
    let line = "exec 9<image.0123456789abcdef.new; flock 9; echo '3 newer' | \"$CQDB\" make image 9<&-";
    if folder.shell("command -v flock").status == Some(0) {
        folder.shell(line).gives(0).tells("");
    }
}

/// Two at once: one of them is the last, and both say that they have written.
#[test]
fn two_makes_at_once() {
    let folder = Folder::new();
    let mut children = [waiting(&folder), waiting(&folder)];
    thread::sleep(Duration::from_millis(50));
    children.iter_mut().for_each(|child| drop(child.stdin.take()));
    assert!(children.iter_mut().all(|child| child.wait().unwrap().success()));
    folder.cqdb(&["list", "image"]).prints("1 new\n");
    assert_eq!(folder.files(), ["image"]);
}

/// Process 1 of a container: a signal ends it too, and what an earlier one left is not in the way.
#[test]
fn as_process_1() {
    let folder = Folder::new();
    let unshare = "unshare --user --map-root-user --pid --fork --mount-proc";
    if folder.shell(&format!("{unshare} true")).status != Some(0) {
        tool::skipped("'unshare' cannot make a container here");
        return;
    }
    folder.write("image.1.new", "of an earlier version");
    folder.shell(&format!("echo '1 old' | {unshare} \"$CQDB\" make image")).gives(0);
    folder.shell(&format!("echo '2 new' | {unshare} \"$CQDB\" make image")).gives(0).tells("");
    folder.cqdb(&["list", "image"]).prints("2 new\n");
    assert_eq!(folder.files(), ["image", "image.1.new"]);
}

/// The line that says what is written comes behind the move: a file that cannot be moved to its place is not said to be
/// there. Linux does not move a file to where another is mounted.
#[test]
fn a_move_that_fails() {
    let folder = Folder::new();
    folder.image("image", "1 old\n");
    let old = folder.read("image");
    let line = "unshare --user --map-root-user --mount bash -c 'mount --bind image image || exit 77; \
                echo \"2 new\" | \"$CQDB\" make image'";
    let ran = folder.shell(line);
    if ran.status == Some(77) || ran.err.starts_with("unshare: ") {
        tool::skipped("'unshare' cannot mount here");
        return;
    }
    let ran = ran.gives(2).prints("");
    assert!(ran.err.starts_with("cqdb: make: cannot write image: "), "{}", ran.err);
    assert!(folder.read("image") == old && folder.files() == ["image"]);
}
