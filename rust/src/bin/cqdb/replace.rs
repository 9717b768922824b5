//! Files that are written: beside their place, and moved there. A reader sees the old file or the new one, never a
//! part.
use std::collections::hash_map::RandomState;
use std::fs::{self, File, Metadata, OpenOptions};
use std::hash::{BuildHasher, Hasher};
use std::io::{self, IsTerminal, Write};
use std::os::unix::ffi::OsStrExt;
use std::os::unix::fs::{fchown, MetadataExt};
use std::path::{Path, PathBuf};
use std::thread;
use std::time::Duration;

use crate::args::{Args, Opt};
use crate::files::{self, Bytes};
use crate::kind::Kind;
use crate::outcome::{self, Failure, Output};
use crate::system::{self, RemovedAtSignal};

pub const FORCE: Opt = Opt::plain("--force", "replace a file of another kind too, or a full one by an empty one");

fn cannot_write(path: &Path, why: impl std::fmt::Display) -> Failure {
    Failure::new(format!("cannot write {}: {why}", path.display()))
}

/// A place that a command writes a file of some kind to.
pub struct Target<'a> {
    path: &'a Path,
    kind: Kind,
    force: bool,
}

impl<'a> Target<'a> {
    /// The place that an operand names, `-` for standard output. What stands there is looked at now, before any work is
    /// done, and again before it is replaced.
    pub fn new(args: &'a Args, at: usize, kind: Kind) -> Result<Target<'a>, Failure> {
        let target = Target { path: args.path(at), kind, force: args.has(&FORCE) };
        if target.is_standard_output() {
            if io::stdout().is_terminal() && !target.force {
                return Err(Failure::new(format!(
                    "standard output is a terminal, no place for {}: say --force",
                    kind.in_words()
                )));
            }
        } else if let Some(old) = Old::open(target.path)? {
            target.may_replace(&old, false)?;
        }
        Ok(target)
    }

    fn is_standard_output(&self) -> bool {
        self.path == Path::new("-")
    }

    /// Fails where a file of another kind stands there, or a full one that a bare one would replace.
    fn may_replace(&self, old: &Old, by_bare: bool) -> Result<(), Failure> {
        if self.force {
            return Ok(());
        }
        let bytes = old.bytes()?;
        if !self.kind.may_replace(&bytes) {
            let what = self.kind.what_is_not_replaced(&bytes);
            return Err(cannot_write(
                self.path,
                format_args!("{what} is there; remove it, name another place, or say --force"),
            ));
        }
        if by_bare && !self.kind.is_bare(&bytes) {
            let what = self.kind.in_words();
            return Err(cannot_write(
                self.path,
                format_args!("{what} is there, and an empty one would replace it; say --force"),
            ));
        }
        Ok(())
    }

    /// Replaces what is there, and says the message. Standard output gets the bytes alone.
    pub fn replace(&self, bytes: &[u8], message: &str) -> Result<(), Failure> {
        if self.is_standard_output() {
            let mut out = Output::new();
            out.bytes(bytes)?;
            return out.flush();
        }
        loop {
            let old = Locked::open(self.path, false)?;
            if let Some(old) = &old {
                self.may_replace(&old.old, self.kind.is_bare(bytes))?;
            }
            match old {
                Some(old) => return old.replace(bytes, message),
                None if put_in_place(self.path, self.path, None, bytes, message)? => return Ok(()),
                None => {}
            }
        }
    }
}

/// A file that is there, behind its symbolic links.
struct Old {
    shown: PathBuf,
    place: PathBuf,
    file: File,
    about: Metadata,
}

impl Old {
    /// None where nothing is there.
    fn open(path: &Path) -> Result<Option<Old>, Failure> {
        if let Some(to) = files::dangling(path) {
            return Err(cannot_write(
                path,
                format_args!("it is a symbolic link to {}, which is not there", to.display()),
            ));
        }
        let failed = |error| cannot_write(path, error);
        let place = match fs::canonicalize(path) {
            Ok(place) => place,
            Err(error) if error.kind() == io::ErrorKind::NotFound => return Ok(None),
            Err(error) => return Err(failed(error)),
        };
        if !fs::metadata(&place).map_err(failed)?.is_file() {
            return Err(cannot_write(path, "it is no regular file"));
        }
        // Some file systems lock only what may be written to.
        let opened = OpenOptions::new().read(true).write(true).open(&place).or_else(|_| File::open(&place));
        let file = match opened {
            Err(error) if error.kind() == io::ErrorKind::NotFound => return Ok(None),
            opened => opened.map_err(|error| files::cannot_read(path, error))?,
        };
        let about = file.metadata().map_err(failed)?;
        Ok(Some(Old { shown: path.to_path_buf(), place, file, about }))
    }

    fn bytes(&self) -> Result<Bytes, Failure> {
        files::bytes_of(&self.file, &self.shown)
    }

    /// Is this still the file of its place? Another process may have moved a new one there.
    fn is_there(&self) -> bool {
        fs::metadata(&self.place).is_ok_and(|now| (now.dev(), now.ino()) == (self.about.dev(), self.about.ino()))
    }
}

/// A file that only this process may replace, as long as all do it through this tool.
pub struct Locked {
    old: Old,
    /// The file was not there before, and goes where it is not replaced.
    created: bool,
}

impl Locked {
    /// None where nothing is there. A file system without locks is a failure only where `needed` says so.
    fn open(path: &Path, needed: bool) -> Result<Option<Locked>, Failure> {
        loop {
            let Some(old) = Old::open(path)? else { return Ok(None) };
            match wait_for_lock(&old) {
                Err(failure) if needed => return Err(failure),
                _ => {}
            }
            if old.is_there() {
                return Ok(Some(Locked { old, created: false }));
            }
        }
    }

    /// Makes an empty file where nothing is there.
    pub fn open_or_create(path: &Path) -> Result<Locked, Failure> {
        let mut created = false;
        loop {
            if let Some(mut locked) = Locked::open(path, true)? {
                locked.created = created && locked.old.about.len() == 0;
                return Ok(locked);
            }
            match OpenOptions::new().write(true).create_new(true).open(path) {
                Ok(_) => created = true,
                Err(error) if error.kind() == io::ErrorKind::AlreadyExists => {}
                Err(error) => return Err(cannot_write(path, error)),
            }
        }
    }

    /// What the file holds, read behind the lock.
    pub fn bytes(&self) -> Result<Bytes, Failure> {
        self.old.bytes()
    }

    pub fn replace(mut self, bytes: &[u8], message: &str) -> Result<(), Failure> {
        put_in_place(&self.old.shown, &self.old.place, Some(&self.old.about), bytes, message)?;
        self.created = false;
        Ok(())
    }
}

impl Drop for Locked {
    fn drop(&mut self) {
        if self.created && self.old.is_there() {
            let _ = fs::remove_file(&self.old.place);
        }
    }
}

/// Waits until no other process holds the lock, and says so after a second.
fn wait_for_lock(old: &Old) -> Result<(), Failure> {
    let failed = |error| cannot_write(&old.shown, error);
    for _ in 0..20 {
        if system::lock(&old.file, false).map_err(failed)? {
            return Ok(());
        }
        thread::sleep(Duration::from_millis(50));
    }
    outcome::tell(&format!("waiting: another process is changing {}", old.shown.display()));
    system::lock(&old.file, true).map_err(failed)?;
    Ok(())
}

/// Writes a file beside its place, moves it there and says the message; where one of that fails the old file stays.
/// False where no old file was there, and now there is one.
fn put_in_place(
    shown: &Path,
    place: &Path,
    old: Option<&Metadata>,
    bytes: &[u8],
    message: &str,
) -> Result<bool, Failure> {
    let mut new = New::beside(place).map_err(|error| cannot_write(shown, error))?;
    let filled = new.fill(bytes, old).map_err(|error| cannot_write(shown, error));
    let moved = filled.and_then(|lost| match new.move_to(place, old.is_some()) {
        Err(error) if old.is_none() && error.kind() == io::ErrorKind::AlreadyExists => Ok(None),
        Err(error) => Err(cannot_write(shown, error)),
        Ok(moved) => Ok(Some((lost, moved))),
    });
    let (lost, moved) = match moved {
        Ok(Some(both)) => both,
        Ok(None) => return new.remove().map(|()| false),
        Err(failure) => return new.remove().and(Err(failure)),
    };
    // The move itself is on the disk once the folder is.
    let synced = sync_folder(place);
    if let Err(failure) = say(message) {
        return Err(new.take_back(shown, place, moved, failure));
    }
    if moved == Moved::Exchanged {
        new.remove()?;
    }
    let undone = |error| format!("its folder could not be synced ({error}), so a failure of the machine may undo it");
    for what in lost.into_iter().chain(synced.err().map(undone)) {
        outcome::tell(&format!("{} is written; {what}", shown.display()));
    }
    tell_leftovers(place);
    Ok(true)
}

fn say(message: &str) -> Result<(), Failure> {
    let mut out = Output::new();
    out.bytes(message.as_bytes())?;
    out.flush()
}

fn sync_folder(place: &Path) -> io::Result<()> {
    File::open(folder(place))?.sync_all()
}

fn folder(place: &Path) -> &Path {
    place.parent().filter(|parent| !parent.as_os_str().is_empty()).unwrap_or(Path::new("."))
}

/// A new file beside its place, which goes where a signal ends the process.
struct New {
    path: PathBuf,
    file: File,
    _removed: RemovedAtSignal,
}

/// How a new file came to its place: where none was; for the old one, which is beside now; or over that one.
#[derive(Clone, Copy, PartialEq, Eq)]
enum Moved {
    ToFree,
    Exchanged,
    Over,
}

const ENDING: &str = ".new";
/// So many letters of the place's name begin the name of the new file, so that it is not longer than a name may be.
const BEGINNING: usize = 200;

fn beginning(place: &Path) -> &[u8] {
    let name = place.file_name().map_or(&b""[..], OsStrExt::as_bytes);
    &name[..name.len().min(BEGINNING)]
}

impl New {
    /// Its name has 16 digits that nobody can foretell. Its lock shows others that it is being written.
    fn beside(place: &Path) -> io::Result<New> {
        loop {
            let number = RandomState::new().build_hasher().finish();
            let name = [beginning(place), format!(".{number:016x}{ENDING}").as_bytes()].concat();
            let path = folder(place).join(std::ffi::OsStr::from_bytes(&name));
            let removed = RemovedAtSignal::new(&path)?;
            match OpenOptions::new().write(true).create_new(true).open(&path) {
                Ok(file) => {
                    let _ = system::lock(&file, false);
                    return Ok(New { path, file, _removed: removed });
                }
                Err(error) if error.kind() == io::ErrorKind::AlreadyExists => {}
                Err(error) => return Err(error),
            }
        }
    }

    /// Gives it the rights of the old file and the bytes, and waits until they are on the disk. Says what could not be
    /// kept.
    fn fill(&mut self, bytes: &[u8], old: Option<&Metadata>) -> io::Result<Option<String>> {
        let lost = old.map_or(Ok(None), |old| keep_rights(&self.file, old))?;
        self.file.write_all(bytes)?;
        self.file.sync_all()?;
        Ok(lost)
    }

    fn move_to(&self, place: &Path, replacing: bool) -> io::Result<Moved> {
        if !replacing {
            return system::rename_to_free(&self.path, place).map(|()| Moved::ToFree);
        }
        if system::exchange(&self.path, place)? {
            return Ok(Moved::Exchanged);
        }
        fs::rename(&self.path, place).map(|()| Moved::Over)
    }

    /// Undoes the move, so that file and status agree, and gives the failure that was the reason.
    fn take_back(self, shown: &Path, place: &Path, moved: Moved, why: Failure) -> Failure {
        let back = match moved {
            Moved::ToFree => fs::remove_file(place).is_ok(),
            Moved::Exchanged => system::exchange(&self.path, place).unwrap_or(false) && self.remove().is_ok(),
            Moved::Over => false,
        };
        if back && sync_folder(place).is_ok() {
            return why;
        }
        why.and(&format!("; the new {} is written, and may be there", shown.display()))
    }

    fn remove(self) -> Result<(), Failure> {
        fs::remove_file(&self.path)
            .map_err(|error| Failure::new(format!("cannot write, and {} is left behind: {error}", self.path.display())))
    }
}

/// Gives a new file owner, group and mode of the old one, as far as the user may. Says what is different.
fn keep_rights(file: &File, old: &Metadata) -> io::Result<Option<String>> {
    let owner = |about: &Metadata| (about.uid(), about.gid());
    let mut now = owner(&file.metadata()?);
    if now != owner(old) && fchown(file, Some(old.uid()), Some(old.gid())).is_err() {
        // The group alone may be one of the user's.
        let _ = fchown(file, None, Some(old.gid()));
    }
    file.set_permissions(old.permissions())?;
    now = owner(&file.metadata()?);
    let (was, is) = (format!("{}:{}", old.uid(), old.gid()), format!("{}:{}", now.0, now.1));
    Ok((was != is).then(|| format!("its owner was {was} and is now {is}, since the user may not keep it")))
}

/// Names the files that killed runs have left beside a place: those that nobody holds the lock of.
fn tell_leftovers(place: &Path) {
    let Ok(entries) = fs::read_dir(folder(place)) else { return };
    for entry in entries.flatten() {
        let name = entry.file_name();
        let middle =
            name.as_bytes().strip_prefix(beginning(place)).and_then(|rest| rest.strip_suffix(ENDING.as_bytes()));
        let random = middle.is_some_and(|middle| {
            middle.len() == 17 && middle[0] == b'.' && middle[1..].iter().all(u8::is_ascii_hexdigit)
        });
        if random && File::open(entry.path()).is_ok_and(|file| system::lock(&file, false).unwrap_or(false)) {
            outcome::tell(&format!("{} is left by a run that was killed; it may be removed", entry.path().display()));
        }
    }
}
