//! The tool under limits of memory, on large files, and on names that are all equal.
mod tool;

use std::fs::OpenOptions;
use std::io::{BufRead, BufReader, Write};
use std::process::{Command, Stdio};
use std::time::Instant;

use tool::{Folder, TOOL};

/// One mistyped id does not make an image of gigabytes.
#[test]
fn a_sparse_image_has_to_be_meant() {
    let folder = Folder::new();
    folder.image("image", "1 old\n");
    let old = folder.read("image");
    let list = "0 crane\n1000000000 mole\n2 pier\n";
    let told = "cqdb: make: standard input, line 2: id 1000000000 makes an image of 4000002164 bytes, \
                3999999992 of them for ids without a name: --sparse takes it\n";
    let begun = Instant::now();
    folder.with(list, &["make", "image"]).gives(2).prints("").tells(told);
    assert!(begun.elapsed().as_secs() < 5);
    assert!(folder.read("image") == old && folder.files() == ["image"]);
    folder.with(list, &["make", "--one-way", "image"]).gives(0).prints("image: 3 entries, 2160 bytes\n");
    // 64 MB, and four bytes more.
    let largest = (64 << 20) / 4;
    folder.with(format!("{largest} far\n"), &["make", "image"]).gives(0).prints("image: 1 entry, 67110968 bytes\n");
    let list = format!("{} far\n", largest + 1);
    folder.with(&list, &["make", "image"]).gives(2);
    folder.with(&list, &["make", "--sparse", "image"]).gives(0).prints("image: 1 entry, 67110972 bytes\n");
    folder.cqdb(&["name", "image", &(largest + 1).to_string()]).prints(&list);
}

/// What a list decides has a message, where memory is short. The limit is in KiB of address space.
#[test]
fn without_memory() {
    let folder = Folder::new();
    folder.image("image", "1 old\n");
    let old = folder.read("image");
    let limited = |line: &str| folder.shell(&format!("ulimit -v 100000; {line}"));
    let ran = limited("printf '0 crane\\n90000000 mole\\n' | \"$CQDB\" make --sparse image").gives(2);
    ran.tells(
        "cqdb: make: standard input, line 2: not enough memory for an image of 360002135 bytes, \
         for ids up to 90000000\n",
    );
    // A line, a record and a file that do not fit.
    for (line, what) in [
        ("head -c 300000000 /dev/zero | tr '\\0' x | \"$CQDB\" make image", "line 1 of standard input"),
        ("head -c 300000000 /dev/zero | tr '\\0' x | \"$CQDB\" id image", "line 1 of standard input"),
        ("printf '+300000000,1:x' | \"$CQDB\" make --cdb image", "record 1 of standard input"),
        ("head -c 300000000 /dev/zero | \"$CQDB\" list -", "standard input"),
        ("head -c 300000000 /dev/zero | \"$CQDB\" preflight --first --sheet image --round image -", "standard input"),
        ("yes '7 1.25' | head -n 90000000 | \"$CQDB\" report --first --sheet image image", "standard input"),
        ("yes 'wall 7' | head -n 90000000 | \"$CQDB\" sheet make round", "standard input"),
    ] {
        let ran = limited(line).gives(2);
        assert!(ran.err.contains(&format!("not enough memory for {what}: ")), "{line}: {}", ran.err);
    }
    assert!(folder.read("image") == old && folder.files() == ["image"]);
    // A name that is nearly as large as the memory is printed without a copy.
    let large = folder
        .shell("(printf '7 '; head -c 60000000 /dev/zero | tr '\\0' x; echo) | \"$CQDB\" make --alike large")
        .gives(0);
    large.prints("large: 1 entry, 60002129 bytes\n");
    for (command, bytes) in [
        ("name large 7", 60_000_003),
        ("name -q large 7", 60_000_001),
        ("name --tsv large 7", 60_000_003),
        ("name --json large 7", 60_000_019),
        ("list --cdb large", 60_000_017),
    ] {
        limited(&format!("set -o pipefail; \"$CQDB\" {command} | wc -c")).gives(0).prints(format!("{bytes}\n"));
    }
    // A page that is larger than the memory is printed in parts.
    folder.with("4000000 far\n", &["make", "image"]).gives(0);
    limited("set -o pipefail; \"$CQDB\" page image | wc -c").gives(0).prints("180000045\n");
    let last = limited("\"$CQDB\" page image | tail -n 2").gives(0);
    last.prints(format!("{:>10} {} \n{:>10} {:32} \n", 3_999_999, "-".repeat(32), 4_000_000, "far"));
    limited("\"$CQDB\" name image 4000000").gives(0).prints("4000000 far\n");
}

/// A question reads the pages that it needs: the file has 8 GB behind its image, and the process may have 100 MB of its
/// own.
#[test]
fn a_question_does_not_read_the_whole_file() {
    let folder = Folder::new();
    folder.image("image", "0 north wall\n1 crane\n");
    OpenOptions::new().write(true).open(folder.0.join("image")).unwrap().set_len(8 << 30).unwrap();
    let begun = Instant::now();
    for (question, answer) in
        [("id image crane", "1 crane\n"), ("name image 1", "1 crane\n"), ("list image", "0 north wall\n1 crane\n")]
    {
        folder.shell(&format!("ulimit -d 100000; \"$CQDB\" {question}")).gives(0).prints(answer);
    }
    assert!(begun.elapsed().as_secs() < 5, "{:?}", begun.elapsed());
    // Where it has to be read, it does not fit.
    let ran = folder.shell("ulimit -d 100000; cat image | \"$CQDB\" id - crane").gives(2);
    assert!(ran.err.starts_with("cqdb: id: not enough memory for standard input: "), "{}", ran.err);
}

/// A file that another program makes shorter while it is read is told, and no signal ends the tool.
#[test]
fn a_file_that_becomes_shorter() {
    let folder = Folder::new();
    folder.image("image", (0..100_000).map(|id| format!("{id} prism {id}\n")).collect::<String>());
    let mut child = Command::new(TOOL)
        .args(["name", "image"])
        .current_dir(&folder.0)
        .stdin(Stdio::piped())
        .stdout(Stdio::null())
        .stderr(Stdio::piped())
        .spawn()
        .unwrap();
    let mut input = child.stdin.take().unwrap();
    // The first round of 512 is answered, so the file is open and mapped.
    input.write_all(&b"7\n".repeat(600)).unwrap();
    std::thread::sleep(std::time::Duration::from_millis(300));
    OpenOptions::new().write(true).open(folder.0.join("image")).unwrap().set_len(4_096).unwrap();
    let _ = input.write_all(&b"99999\n".repeat(600));
    drop(input);
    let output = child.wait_with_output().unwrap();
    assert_eq!(output.status.code(), Some(2));
    assert_eq!(String::from_utf8_lossy(&output.stderr), "cqdb: a file became shorter while it was read\n");
}

/// An image that another program writes to while it is asked may have answered from two states.
#[test]
fn a_file_that_changes() {
    let folder = Folder::new();
    folder.image("image", "7 crane\n");
    for command in ["name", "home", "ids"] {
        let mut child = Command::new(TOOL)
            .args([command, "image"])
            .current_dir(&folder.0)
            .stdin(Stdio::piped())
            .stdout(Stdio::null())
            .stderr(Stdio::piped())
            .spawn()
            .unwrap();
        let mut input = child.stdin.take().unwrap();
        let question: &[u8] = if command == "ids" { b"crane\n" } else { b"7\n" };
        // The first round of 512 is answered, so the file is open.
        input.write_all(&question.repeat(600)).unwrap();
        std::thread::sleep(std::time::Duration::from_millis(300));
        OpenOptions::new().append(true).open(folder.0.join("image")).unwrap().write_all(b"\0").unwrap();
        drop(input);
        let output = child.wait_with_output().unwrap();
        assert_eq!(output.status.code(), Some(2));
        let told = format!("cqdb: {command}: image changed while it was read: its size or time is another\n");
        assert_eq!(String::from_utf8_lossy(&output.stderr), told);
    }
}

/// So may a sheet that is shown, or the images of a bundle that are listed: both print more than a pipe holds.
#[test]
fn a_sheet_or_bundle_that_changes() {
    let folder = Folder::new();
    folder.with((0..20_000).map(|id| format!("wall {id}\n")).collect::<String>(), &["sheet", "make", "sheet"]).gives(0);
    folder.image("image", "7 crane\n");
    folder.write("bundle", folder.read("image").repeat(20_000));
    for words in [["sheet", "show", "sheet"], ["bundle", "list", "bundle"]] {
        let mut child = Command::new(TOOL)
            .args(words)
            .current_dir(&folder.0)
            .stdout(Stdio::piped())
            .stderr(Stdio::piped())
            .spawn()
            .unwrap();
        std::thread::sleep(std::time::Duration::from_millis(300));
        OpenOptions::new().append(true).open(folder.0.join(words[2])).unwrap().write_all(b"\0").unwrap();
        std::io::copy(&mut child.stdout.take().unwrap(), &mut std::io::sink()).unwrap();
        let output = child.wait_with_output().unwrap();
        let told = format!("cqdb: {}: {} changed while it was read: its size or time is another\n", words[0], words[2]);
        assert_eq!((String::from_utf8_lossy(&output.stderr).as_ref(), output.status.code()), (told.as_str(), Some(2)));
    }
}

/// Names that are all equal take time that grows with the square of their number: that is said.
#[test]
fn many_equal_names() {
    let folder = Folder::new();
    let list: String = (0..10_000).map(|id| format!("{id} crane\n")).collect();
    let told = |command: &str| {
        format!(
            "cqdb: {command}: 10000 entries have the same hash, as equal names have: \
             the searches for them take 50000000 steps\n"
        )
    };
    folder.with(&list, &["make", "--repeats", "image"]).gives(0).tells(&told("make"));
    folder.cqdb(&["check", "image"]).gives(1).tells(&told("check"));
    folder.cqdb(&["diff", "image", "image"]).gives(0).tells(&told("diff").repeat(2));
    let list: String = (0..100_000).map(|id| format!("{id} crane {id}\n")).collect();
    folder.with(&list, &["make", "--repeats", "image"]).gives(0).tells("");
    folder.cqdb(&["check", "image"]).gives(0).tells("");
}

/// A forged image whose ids all have one long name: to read it for each of them would take minutes. That the image is not
/// canonical is said before.
#[test]
fn a_forged_image_is_told_at_once() {
    let folder = Folder::new();
    folder.image("image", format!("0 {}\n1048575 far\n", "n".repeat(1 << 20)));
    let mut bytes = folder.read("image");
    let word = |at: usize| u32::from_le_bytes(bytes[at..at + 4].try_into().unwrap()) as usize;
    let (back_size, back) = (word(16), word(20));
    bytes[back..back + 4 * back_size].copy_from_slice(&2_072u32.to_le_bytes().repeat(back_size));
    folder.write("forged", bytes);
    let mut command = Command::new("bash");
    let command = command.args(["-c", "ulimit -t 60; exec \"$CQDB\" check forged"]).env("CQDB", TOOL);
    let mut child = command.current_dir(&folder.0).stdout(Stdio::piped()).spawn().unwrap();
    let lines = BufReader::new(child.stdout.take().unwrap()).lines().take(2);
    let lines: Vec<String> = lines.map(|line| line.unwrap()).collect();
    let asking = child.try_wait().unwrap().is_none();
    child.kill().unwrap();
    child.wait().unwrap();
    assert_eq!(lines, ["yes  it opens", "no   it is canonical: no list of puts makes these bytes"]);
    assert!(asking);
}
