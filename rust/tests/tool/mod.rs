//! Runs the built tool in a folder of its own.
use std::fs;
use std::io::Write;
use std::path::PathBuf;
use std::process::{self, Command, Stdio};
use std::sync::atomic::{AtomicU32, Ordering};

pub const TOOL: &str = env!("CARGO_BIN_EXE_cqdb");

/// A test that cannot run here says why. The gate counts these lines: CQDB_SKIPPED names its list (tests/skip.sh).
#[allow(dead_code)]
pub fn skipped(why: &str) {
    eprintln!("skipped: {why}");
    if let Some(list) = std::env::var_os("CQDB_SKIPPED") {
        let mut list = fs::OpenOptions::new().append(true).open(list).unwrap();
        writeln!(list, "a test of the tool: {why}").unwrap();
    }
}

/// A folder that is removed in the end.
pub struct Folder(pub PathBuf);

impl Folder {
    pub fn new() -> Folder {
        static NEXT: AtomicU32 = AtomicU32::new(0);
        let number = NEXT.fetch_add(1, Ordering::Relaxed);
        let path = std::env::temp_dir().join(format!("cqdb-tool-{}-{number}", process::id()));
        fs::create_dir(&path).unwrap();
        Folder(path)
    }

    #[allow(dead_code)]
    pub fn write(&self, name: &str, bytes: impl AsRef<[u8]>) {
        fs::write(self.0.join(name), bytes).unwrap();
    }

    #[allow(dead_code)]
    pub fn read(&self, name: &str) -> Vec<u8> {
        fs::read(self.0.join(name)).unwrap()
    }

    /// The names of its files, in order.
    #[allow(dead_code)]
    pub fn files(&self) -> Vec<String> {
        let names = fs::read_dir(&self.0).unwrap().map(|entry| entry.unwrap().file_name().into_string().unwrap());
        let mut names: Vec<String> = names.collect();
        names.sort();
        names
    }

    /// Runs the tool with an input.
    pub fn with(&self, input: impl AsRef<[u8]>, words: &[&str]) -> Ran {
        self.run(Command::new(TOOL).args(words), input.as_ref(), Stdio::piped())
    }

    /// Runs the tool without an input.
    pub fn cqdb(&self, words: &[&str]) -> Ran {
        self.with("", words)
    }

    /// Runs a line of a shell, in which $CQDB is the tool.
    #[allow(dead_code)]
    pub fn shell(&self, line: &str) -> Ran {
        self.run(Command::new("bash").args(["-c", line]).env("CQDB", TOOL), b"", Stdio::piped())
    }

    /// Runs the tool with an output that nobody reads any longer.
    #[allow(dead_code)]
    pub fn unread(&self, input: impl AsRef<[u8]>, words: &[&str]) -> Ran {
        let mut reader = Command::new("true").stdin(Stdio::piped()).spawn().unwrap();
        let pipe = reader.stdin.take().unwrap();
        reader.wait().unwrap();
        self.run(Command::new(TOOL).args(words), input.as_ref(), Stdio::from(pipe))
    }

    /// Runs the tool with the output that a shell's words say.
    #[allow(dead_code)]
    pub fn redirected(&self, to: &str, input: impl AsRef<[u8]>, words: &[&str]) -> Ran {
        let line = format!("exec \"$CQDB\" \"$@\" {to}");
        let mut command = Command::new("bash");
        let command = command.args(["-c", &line, "bash"]).args(words).env("CQDB", TOOL);
        self.run(command, input.as_ref(), Stdio::piped())
    }

    /// Makes an image of the list; both are called by the name.
    pub fn image(&self, name: &str, list: impl AsRef<[u8]>) {
        self.with(list, &["make", name]).gives(0);
    }

    /// The commands that the help lists.
    #[allow(dead_code)]
    pub fn commands(&self) -> Vec<String> {
        let overview = String::from_utf8(self.cqdb(&["--help"]).gives(0).out).unwrap();
        let firsts = overview.lines().filter_map(|line| line.strip_prefix("  cqdb ")?.split_whitespace().next());
        firsts.map(str::to_string).collect()
    }

    fn run(&self, command: &mut Command, input: &[u8], output: Stdio) -> Ran {
        let command = command.current_dir(&self.0).stdin(Stdio::piped()).stdout(output).stderr(Stdio::piped());
        let mut child = command.spawn().unwrap();
        let mut stdin = child.stdin.take().unwrap();
        let output = std::thread::scope(|scope| {
            // A tool that stops early does not read all of it.
            scope.spawn(move || drop(stdin.write_all(input)));
            child.wait_with_output().unwrap()
        });
        Ran {
            status: output.status.code(),
            out: output.stdout,
            err: String::from_utf8_lossy(&output.stderr).into_owned(),
        }
    }
}

impl Drop for Folder {
    fn drop(&mut self) {
        fs::remove_dir_all(&self.0).unwrap();
    }
}

/// What a run gave. The status is none where a signal ended it.
#[derive(Debug)]
pub struct Ran {
    pub status: Option<i32>,
    pub out: Vec<u8>,
    pub err: String,
}

impl Ran {
    /// Asserts the exit status, and that a message came where it could not be done.
    #[track_caller]
    pub fn gives(self, status: i32) -> Ran {
        assert_eq!(self.status, Some(status), "{self:?}");
        assert!(status != 2 || self.err.starts_with("cqdb: "), "{self:?}");
        self
    }

    #[track_caller]
    pub fn prints(self, out: impl AsRef<[u8]>) -> Ran {
        let (given, wanted) = (String::from_utf8_lossy(&self.out), String::from_utf8_lossy(out.as_ref()));
        assert_eq!(given, wanted, "{}", self.err);
        assert_eq!(self.out, out.as_ref());
        self
    }

    /// Asserts the whole of what it told.
    #[track_caller]
    pub fn tells(self, err: &str) -> Ran {
        assert_eq!(self.err, err);
        self
    }
}
