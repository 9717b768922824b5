//! What the tool asks of Linux beyond Rust's own library. The crate has no dependencies, so the C library's functions
//! are declared here by hand, each behind a safe function; no other file of the tool has a word `unsafe`.
use std::ffi::{c_char, c_int, c_void, CString};
use std::fs::File;
use std::io::{self, Write};
use std::ops::Deref;
use std::os::fd::AsRawFd;
use std::os::unix::ffi::OsStrExt;
use std::path::Path;
use std::ptr::{null, null_mut};
use std::slice;
use std::sync::atomic::{AtomicBool, AtomicPtr, Ordering};

/// C's `struct sigaction` of x86-64 Linux.
#[repr(C)]
struct Action {
    handler: usize,
    mask: [u64; 16],
    flags: c_int,
    restorer: usize,
}

extern "C" {
    fn mmap(at: *mut c_void, length: usize, protection: c_int, flags: c_int, file: c_int, offset: i64) -> *mut c_void;
    fn munmap(at: *mut c_void, length: usize) -> c_int;
    fn fcntl(file: c_int, command: c_int, ...) -> c_int;
    fn flock(file: c_int, operation: c_int) -> c_int;
    fn sigaction(signal: c_int, action: *const Action, before: *mut Action) -> c_int;
    fn raise(signal: c_int) -> c_int;
    fn unlink(path: *const c_char) -> c_int;
    fn write(file: c_int, bytes: *const c_void, length: usize) -> isize;
    fn _exit(status: c_int) -> !;
    fn renameat2(from: c_int, old: *const c_char, to: c_int, new: *const c_char, flags: u32) -> c_int;
}

const SIGHUP: c_int = 1;
const SIGINT: c_int = 2;
const SIGBUS: c_int = 7;
const SIGTERM: c_int = 15;
const SIGXFSZ: c_int = 25;
const SIG_IGN: usize = 1;
/// The default action is back before the handler runs, and the signal is not held back while it runs.
const ONCE: c_int = 0x8000_0000_u32 as c_int | 0x4000_0000;

/// Whether standard input and output were open when the process began. Rust opens /dev/null in the place of a closed
/// one before `main`, and what is written there would be taken for said.
static OPEN: [AtomicBool; 2] = [AtomicBool::new(true), AtomicBool::new(true)];

/// Runs before Rust's own beginning, as C's constructors do.
#[used]
#[link_section = ".init_array"]
static AT_BEGINNING: extern "C" fn() = {
    extern "C" fn look() {
        const F_GETFD: c_int = 1;
        for (number, open) in OPEN.iter().enumerate() {
            // SAFETY: the call asks for the flags of a file's number, which may be closed.
            open.store(unsafe { fcntl(number as c_int, F_GETFD) } != -1, Ordering::Relaxed);
        }
    }
    look
};

/// Was standard input open when the process began?
pub fn standard_input_is_open() -> bool {
    OPEN[0].load(Ordering::Relaxed)
}

/// Was standard output open when the process began?
pub fn standard_output_is_open() -> bool {
    OPEN[1].load(Ordering::Relaxed)
}

/// Standard output without a buffer. Rust's own takes one that cannot be written to for one that was.
pub struct StandardOutput;

impl Write for StandardOutput {
    fn write(&mut self, bytes: &[u8]) -> io::Result<usize> {
        // SAFETY: so many bytes are there.
        let written = unsafe { write(1, bytes.as_ptr().cast(), bytes.len()) };
        usize::try_from(written).map_err(|_| io::Error::last_os_error())
    }

    fn flush(&mut self) -> io::Result<()> {
        Ok(())
    }
}

/// The bytes of a file. A page of it is read from the disk when it is first asked for.
pub struct Map {
    start: *mut c_void,
    length: usize,
}

impl Map {
    /// Maps the first bytes of a file; at least one.
    pub fn new(file: &File, length: usize) -> io::Result<Map> {
        const PROT_READ: c_int = 1;
        const MAP_PRIVATE: c_int = 2;
        // SAFETY: without a wanted place, Linux chooses one that overlaps no memory of this process.
        let start = unsafe { mmap(null_mut(), length, PROT_READ, MAP_PRIVATE, file.as_raw_fd(), 0) };
        if start as isize == -1 {
            return Err(io::Error::last_os_error());
        }
        Ok(Map { start, length })
    }
}

impl Deref for Map {
    type Target = [u8];

    fn deref(&self) -> &[u8] {
        // SAFETY: the mapping is there until it is dropped, and nothing in this process writes to it. A program that
        // writes to the file in place could change it; the tool's own commands replace files by a rename, which leaves
        // the mapped file as it is. A file that gets shorter gives the signal SIGBUS, which `tell_where_a_file_was_cut`
        // answers.
        unsafe { slice::from_raw_parts(self.start.cast(), self.length) }
    }
}

impl Drop for Map {
    fn drop(&mut self) {
        // SAFETY: nothing borrows the mapping any longer.
        unsafe { munmap(self.start, self.length) };
    }
}

/// Takes the lock of a file for this process alone, until the file is closed. False where another one has it and `wait`
/// is not asked for.
pub fn lock(file: &File, wait: bool) -> io::Result<bool> {
    const LOCK_EX: c_int = 2;
    const LOCK_NB: c_int = 4;
    let operation = if wait { LOCK_EX } else { LOCK_EX | LOCK_NB };
    loop {
        // SAFETY: the file is open.
        if unsafe { flock(file.as_raw_fd(), operation) } == 0 {
            return Ok(true);
        }
        let error = io::Error::last_os_error();
        match error.kind() {
            io::ErrorKind::WouldBlock => return Ok(false),
            io::ErrorKind::Interrupted => {}
            _ => return Err(error),
        }
    }
}

/// Moves a file to a place where none is. Where one is there, the error is `AlreadyExists`.
pub fn rename_to_free(from: &Path, to: &Path) -> io::Result<()> {
    const RENAME_NOREPLACE: u32 = 1;
    match rename(from, to, RENAME_NOREPLACE) {
        Err(error) if lacks_the_flag(&error) && !to.exists() => std::fs::rename(from, to),
        renamed => renamed,
    }
}

/// Exchanges two files, so that both are there afterwards. False where this file system or Linux cannot.
pub fn exchange(one: &Path, other: &Path) -> io::Result<bool> {
    const RENAME_EXCHANGE: u32 = 2;
    match rename(one, other, RENAME_EXCHANGE) {
        Err(error) if lacks_the_flag(&error) => Ok(false),
        renamed => renamed.map(|()| true),
    }
}

fn rename(from: &Path, to: &Path, flags: u32) -> io::Result<()> {
    const AT_FDCWD: c_int = -100;
    let (old, new) = (CString::new(from.as_os_str().as_bytes())?, CString::new(to.as_os_str().as_bytes())?);
    // SAFETY: both are texts that end with a zero byte.
    match unsafe { renameat2(AT_FDCWD, old.as_ptr(), AT_FDCWD, new.as_ptr(), flags) } {
        0 => Ok(()),
        _ => Err(io::Error::last_os_error()),
    }
}

/// EINVAL, ENOSYS: this file system or Linux does not have the flag.
fn lacks_the_flag(error: &io::Error) -> bool {
    matches!(error.raw_os_error(), Some(22 | 38))
}

fn on_signal(signal: c_int, handler: usize, flags: c_int) {
    let mut before = Action { handler: 0, mask: [0; 16], flags: 0, restorer: 0 };
    let action = Action { handler, mask: [0; 16], flags, restorer: 0 };
    // SAFETY: the handlers below call nothing but unlink, write, raise and _exit, which a handler may call. A signal
    // that is ignored, as by nohup, stays ignored.
    unsafe {
        sigaction(signal, null(), &mut before);
        if before.handler != SIG_IGN {
            sigaction(signal, &action, null_mut());
        }
    }
}

/// A process that would exceed its limit of a file's size is ended by a signal. With the signal ignored the write fails
/// instead, so that it can be told and the half file removed.
pub fn keep_running_at_a_size_limit() {
    on_signal(SIGXFSZ, SIG_IGN, 0);
}

/// A mapped file that another program makes shorter ends the process by a signal: this says why.
pub fn tell_where_a_file_was_cut() {
    extern "C" fn told(_: c_int) {
        const TEXT: &[u8] = b"cqdb: a file became shorter while it was read\n";
        remove_new_file();
        // SAFETY: the text is there for ever.
        unsafe {
            write(2, TEXT.as_ptr().cast(), TEXT.len());
            _exit(2)
        }
    }
    on_signal(SIGBUS, told as extern "C" fn(c_int) as usize, ONCE);
}

/// The file that goes where a signal ends the process.
static NEW_FILE: AtomicPtr<c_char> = AtomicPtr::new(null_mut());

fn remove_new_file() {
    let path = NEW_FILE.load(Ordering::SeqCst);
    if !path.is_null() {
        // SAFETY: a path that is not null ends with a zero byte.
        unsafe { unlink(path) };
    }
}

/// As long as this is there, the signals INT, TERM and HUP remove a file before they end the process. There is one at a
/// time.
pub struct RemovedAtSignal;

impl RemovedAtSignal {
    pub fn new(path: &Path) -> io::Result<RemovedAtSignal> {
        extern "C" fn end(signal: c_int) {
            remove_new_file();
            // SAFETY: the raised signal has its default action again; where that does not end the process, since it is
            // process 1, the last call does.
            unsafe {
                raise(signal);
                _exit(128 + signal)
            }
        }
        let path = CString::new(path.as_os_str().as_bytes())?;
        NEW_FILE.store(path.into_raw(), Ordering::SeqCst);
        for signal in [SIGHUP, SIGINT, SIGTERM] {
            on_signal(signal, end as extern "C" fn(c_int) as usize, ONCE);
        }
        Ok(RemovedAtSignal)
    }
}

impl Drop for RemovedAtSignal {
    fn drop(&mut self) {
        let path = NEW_FILE.swap(null_mut(), Ordering::SeqCst);
        if !path.is_null() {
            // SAFETY: it came from `into_raw`. A handler runs in this thread, the only one, and from here on it sees
            // null.
            drop(unsafe { CString::from_raw(path) });
        }
    }
}
