//! The tool on damaged files, on a full disk, killed, side by side with readers, and on long lists.
mod tool;

use std::fs;
use std::io::Write;
use std::process::{Command, Stdio};
use std::sync::atomic::{AtomicBool, Ordering};
use std::thread;

use tool::{Folder, TOOL};

const READING: [&[&str]; 5] =
    [&["id", "bad", "crane"], &["name", "bad", "1"], &["list", "bad"], &["page", "bad"], &["stats", "bad"]];

#[test]
fn each_refusal_of_opening_has_its_number_and_its_words() {
    let folder = Folder::new();
    folder.image("good", "0 north wall\n1 crane\n");
    let good = folder.read("good");
    let changed = |at: usize, value: u32| {
        let mut bad = good.clone();
        bad[at..at + 4].copy_from_slice(&value.to_le_bytes());
        bad
    };
    let cases = [
        (good[..2_071].to_vec(), "invalid file format (refusal 1)"),
        (Vec::new(), "invalid file format (refusal 1)"),
        (changed(0, 0), "invalid file format, magic mismatch (refusal 5)"),
        (changed(12, 0), "invalid file format, byte order mismatch (refusal 6)"),
        (changed(24, u32::MAX), "invalid table data: out of bounds (refusal 7)"),
        (changed(20, u32::MAX), "invalid backward link data: out of bounds (refusal 8)"),
    ];
    for (bytes, words) in cases {
        folder.write("bad", bytes);
        for command in READING {
            folder.cqdb(command).gives(2).prints("").tells(&format!("cqdb: {}: bad: {words}\n", command[0]));
        }
        folder.cqdb(&["check", "bad"]).gives(1).prints(format!("no   it opens: {words}\n"));
    }
}

/// Whatever the damage, each command ends by itself with one of the three statuses.
#[test]
fn damaged_images() {
    let folder = Folder::new();
    folder.image("good", "0 north wall\n1 crane\n2 mole\n");
    let good = folder.read("good");
    let mut seed = 7_u32;
    let mut statuses = [0; 3];
    for _ in 0..60 {
        let mut bad = good.clone();
        for _ in 0..3 {
            seed = seed.wrapping_mul(1_664_525).wrapping_add(1_013_904_223);
            // In half of the cases past the table rows, where a change matters more often.
            let at =
                if seed & 1 == 0 { seed as usize >> 8 } else { 2_072 + (seed as usize >> 8) % (good.len() - 2_072) };
            bad[at % good.len()] ^= (seed >> 1) as u8 | 1;
        }
        folder.write("bad", &bad);
        for command in READING.iter().chain([&&["check", "bad"][..]]) {
            let ran = folder.cqdb(command);
            let status = ran.status.unwrap_or(-1);
            assert!((0..=2).contains(&status), "{command:?} {ran:?}");
            statuses[status as usize] += 1;
        }
    }
    assert!(statuses.iter().all(|runs| *runs > 0), "{statuses:?}");
}

#[test]
fn files_that_are_not_there() {
    let folder = Folder::new();
    for command in [&["check", "bad"][..], &["sheet", "show", "bad"]].iter().chain(&READING) {
        let ran = folder.cqdb(command).gives(2).prints("");
        assert!(ran.err.contains(": cannot read bad: "), "{}", ran.err);
    }
}

#[test]
fn a_full_disk() {
    let folder = Folder::new();
    folder.image("image", "1 old\n");
    let old = folder.read("image");
    let list: String = (0..1_000).map(|id| format!("{id} prism {id}\n")).collect();
    folder.write("list", list);
    // The limit is 8 blocks of 1,024 bytes for a file.
    let ran = folder.shell("ulimit -f 8; exec \"$CQDB\" make image list").gives(2);
    assert!(ran.err.starts_with("cqdb: make: cannot write image: "), "{}", ran.err);
    assert!(folder.read("image") == old && folder.files() == ["image", "list"]);
    folder.cqdb(&["make", "image", "list"]).gives(0);
    let ran = folder.shell("\"$CQDB\" list image >/dev/full").gives(2);
    assert!(ran.err.starts_with("cqdb: list: cannot write to standard output: "), "{}", ran.err);
}

#[test]
fn a_killed_make_leaves_the_old_image() {
    let folder = Folder::new();
    folder.image("image", "1 old\n");
    let old = folder.read("image");
    let mut child =
        Command::new(TOOL).args(["make", "image"]).current_dir(&folder.0).stdin(Stdio::piped()).spawn().unwrap();
    // It has read most of this when all of it is written, and waits for more.
    let list: String = (0..100_000).map(|id| format!("{id} prism {id}\n")).collect();
    child.stdin.as_mut().unwrap().write_all(list.as_bytes()).unwrap();
    child.kill().unwrap();
    assert_eq!(child.wait().unwrap().code(), None);
    assert!(folder.read("image") == old && folder.files() == ["image"]);
}

#[test]
fn a_reader_sees_one_image_or_the_other() {
    let folder = Folder::new();
    let lists: Vec<String> = [50, 20_000].map(|n| (0..n).map(|id| format!("{id} prism {id}\n")).collect()).into();
    folder.write("short", &lists[0]);
    folder.write("long", &lists[1]);
    let images = ["short", "long"].map(|list| {
        folder.cqdb(&["make", "image", list]).gives(0);
        folder.read("image")
    });
    let done = AtomicBool::new(false);
    let seen = thread::scope(|scope| {
        let reader = scope.spawn(|| {
            let mut seen = [0; 2];
            while !done.load(Ordering::Relaxed) {
                let bytes = folder.read("image");
                let which = images.iter().position(|image| *image == bytes);
                seen[which.expect("one of the two images")] += 1;
            }
            seen
        });
        for _ in 0..20 {
            folder.cqdb(&["make", "image", "short"]).gives(0);
            folder.cqdb(&["make", "image", "long"]).gives(0);
        }
        done.store(true, Ordering::Relaxed);
        reader.join().unwrap()
    });
    assert!(seen[0] > 0 && seen[1] > 0, "{seen:?}");
    assert_eq!(folder.files(), ["image", "long", "short"]);
}

#[test]
fn a_reader_of_the_output_that_goes() {
    let folder = Folder::new();
    let list: String = (0..50_000).map(|id| format!("{id} prism {id}\n")).collect();
    folder.image("image", list);
    let ran = folder.shell("set -o pipefail; \"$CQDB\" list image | head -n 2").gives(0);
    ran.prints("0 prism 0\n1 prism 1\n").tells("");
}

#[test]
fn a_hundred_thousand_names() {
    let folder = Folder::new();
    let list: String = (0..100_000).map(|id| format!("{id} prism {:05x} of the quay\n", id * 7)).collect();
    let names: String = list.lines().map(|line| format!("{}\n", line.split_once(' ').unwrap().1)).collect();
    let ran = folder.with(&list, &["make", "image"]).gives(0);
    let size = fs::metadata(folder.0.join("image")).unwrap().len();
    ran.prints(format!("image: 100000 entries, {size} bytes\n")).tells("");
    folder.cqdb(&["list", "image"]).gives(0).prints(&list);
    folder.with(names, &["id", "image"]).gives(0).prints(&list);
    folder.cqdb(&["check", "image"]).gives(0);
}

/// `script` gives the tool a terminal. The list pauses after 5,000 of its lines, so the work takes long enough.
#[test]
fn progress_on_a_terminal() {
    let folder = Folder::new();
    if folder.shell("command -v script").status != Some(0) {
        tool::skipped("there is no program 'script' to give a terminal");
        return;
    }
    let list = "(seq 0 4999 | sed 's/.*/& prism &/'; sleep 0.7; seq 5000 9999 | sed 's/.*/& prism &/')";
    folder.write("run", format!("{list} | \"$CQDB\" make image\n"));
    let ran = folder.shell("script -qec 'bash run' /dev/null </dev/null").gives(0);
    let text = String::from_utf8_lossy(&ran.out);
    assert!(
        text.contains("\rcqdb: 8192 lines") && text.ends_with("image: 10000 entries, 390962 bytes\r\n"),
        "{text:?}"
    );
    // No terminal, no progress.
    folder.shell("bash run").gives(0).tells("");
}

/// From a terminal each line is answered at once, before the next one comes.
#[test]
fn questions_from_a_terminal() {
    let folder = Folder::new();
    if folder.shell("command -v script").status != Some(0) {
        tool::skipped("there is no program 'script' to give a terminal");
        return;
    }
    folder.image("image", "0 north wall\n1 crane\n");
    folder.write("asks", "(sleep 0.3; echo crane; sleep 2; echo 'north wall'; sleep 0.3; printf '\\004')");
    let ran = folder.shell("bash asks | script -qec '\"$CQDB\" id image' /dev/null").gives(0);
    let text = String::from_utf8_lossy(&ran.out).replace('\r', "");
    let at = |what: &str| text.find(what).unwrap_or_else(|| panic!("{what} is missing: {text:?}"));
    assert!(at("lines are read from the terminal") < at("1 crane") && at("1 crane") < at("0 north wall"), "{text:?}");
    // What is typed is shown by the terminal: the first answer comes before the second name.
    assert!(at("1 crane") < text.rfind("\nnorth wall").unwrap_or(usize::MAX), "{text:?}");
}
