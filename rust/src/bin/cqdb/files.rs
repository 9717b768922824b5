//! Files that are read: mapped, or taken whole from a pipe.
use std::ffi::OsStr;
use std::fs::{self, File};
use std::io::{self, Read};
use std::ops::Deref;
use std::os::unix::ffi::OsStrExt;
use std::os::unix::fs::MetadataExt;
use std::path::{Path, PathBuf};
use std::sync::atomic::{AtomicBool, Ordering};

use cqdb::{Bundle, Refusal, CQDB};

use crate::kind::{self, Images};
use crate::lines;
use crate::outcome::{self, Failure, Outcome, Output};
use crate::system::{self, Map};

/// The bytes of a file.
pub enum Bytes {
    Mapped(Map),
    Read(Vec<u8>),
}

impl Deref for Bytes {
    type Target = [u8];

    fn deref(&self) -> &[u8] {
        match self {
            Bytes::Mapped(map) => map,
            Bytes::Read(bytes) => bytes,
        }
    }
}

/// What messages call a file.
pub fn shown(path: &Path) -> String {
    if path == Path::new("-") {
        "standard input".to_string()
    } else {
        path.display().to_string()
    }
}

/// Standard input. It can be read by one part of a command.
pub fn standard_input() -> Result<io::Stdin, Failure> {
    static TAKEN: AtomicBool = AtomicBool::new(false);
    if TAKEN.swap(true, Ordering::Relaxed) {
        return Err(Failure::new("standard input is meant twice, and can be read once"));
    }
    if !system::standard_input_is_open() {
        return Err(Failure::new("cannot read standard input: it is closed"));
    }
    Ok(io::stdin())
}

/// The bytes of a file, or of standard input where it is called `-`.
pub fn read(path: &Path) -> Result<Bytes, Failure> {
    if path == Path::new("-") {
        return read_whole(standard_input()?, path).map(Bytes::Read);
    }
    bytes_of(&File::open(path).map_err(|error| cannot_read(path, error))?, path)
}

/// The bytes of an open file: mapped, unless it has no length, as a pipe has none.
pub fn bytes_of(file: &File, path: &Path) -> Result<Bytes, Failure> {
    let about = file.metadata().map_err(|error| cannot_read(path, error))?;
    match about.len() {
        length if about.is_file() && length > 0 => {
            Map::new(file, length as usize).map(Bytes::Mapped).map_err(|error| cannot_read(path, error))
        }
        _ => read_whole(file, path).map(Bytes::Read),
    }
}

pub fn cannot_read(path: &Path, error: io::Error) -> Failure {
    Failure::new(format!("cannot read {}: {error}", shown(path)))
}

/// All bytes of an input.
pub fn read_whole(mut from: impl Read, path: &Path) -> Result<Vec<u8>, Failure> {
    const PIECE: usize = 1 << 16;
    let mut bytes = Vec::new();
    loop {
        outcome::reserve(&mut bytes, PIECE, || shown(path))?;
        let more = from.by_ref().take(PIECE as u64).read_to_end(&mut bytes);
        if more.map_err(|error| cannot_read(path, error))? == 0 {
            return Ok(bytes);
        }
    }
}

/// What shows that a file was written to: its size, and the time of its last change.
#[derive(PartialEq, Eq)]
pub struct State(u64, i64, i64);

impl State {
    /// None where it is no regular file, as a pipe.
    pub fn of(file: &File) -> io::Result<Option<State>> {
        let about = file.metadata()?;
        Ok(about.is_file().then(|| State(about.len(), about.mtime(), about.mtime_nsec())))
    }

    /// Fails where a file is not as it was: what was read of it may be of two states.
    pub fn has_stayed(before: &Option<State>, file: &File, name: &str) -> Result<(), Failure> {
        let now = State::of(file).map_err(|error| cannot_read(Path::new(name), error))?;
        match now == *before {
            true => Ok(()),
            false => Err(Failure::new(format!("{name} changed while it was read: its size or time is another"))),
        }
    }
}

/// The bytes of a file, which is seen to stay as it was.
pub struct Reading {
    path: PathBuf,
    bytes: Bytes,
    opened: Option<(File, Option<State>)>,
}

impl Reading {
    /// Of a file, or of standard input, which is read whole.
    pub fn of(path: &Path) -> Result<Reading, Failure> {
        if path == Path::new("-") {
            return Ok(Reading { path: path.to_owned(), bytes: read(path)?, opened: None });
        }
        let file = File::open(path).map_err(|error| cannot_read(path, error))?;
        let before = State::of(&file).map_err(|error| cannot_read(path, error))?;
        let bytes = bytes_of(&file, path)?;
        Ok(Reading { path: path.to_owned(), bytes, opened: Some((file, before)) })
    }

    pub fn bytes(&self) -> &Bytes {
        &self.bytes
    }

    /// Fails where the file was written to since it was opened.
    pub fn has_stayed(&self) -> Result<(), Failure> {
        match &self.opened {
            Some((file, before)) => State::has_stayed(before, file, &shown(&self.path)),
            None => Ok(()),
        }
    }
}

/// A file that images are asked for: all of it, or the image at a position of a bundle, as `BUNDLE:1` says.
pub struct Source {
    path: PathBuf,
    position: Option<u64>,
    bytes: Bytes,
    /// The file and its state when it was opened; none where it is standard input, which is read whole.
    opened: Option<(File, Option<State>)>,
}

impl Source {
    pub fn open(path: &Path) -> Result<Source, Failure> {
        let (path, position) = match position_of(path) {
            Some((file, position)) if !path.exists() => (file, Some(position)),
            _ => (path.to_path_buf(), None),
        };
        if path == Path::new("-") {
            return Ok(Source { bytes: read(&path)?, path, position, opened: None });
        }
        let file = File::open(&path).map_err(|error| cannot_read(&path, error))?;
        let before = State::of(&file).map_err(|error| cannot_read(&path, error))?;
        Ok(Source { bytes: bytes_of(&file, &path)?, path, position, opened: Some((file, before)) })
    }

    /// Fails where the file is not as it was when it was opened. It is mapped, so an answer may be of two states.
    pub fn has_stayed(&self) -> Result<(), Failure> {
        match &self.opened {
            Some((file, before)) => State::has_stayed(before, file, &shown(&self.path)),
            None => Ok(()),
        }
    }

    /// What messages call the image.
    pub fn name(&self) -> String {
        match self.position {
            Some(position) => format!("{}:{position}", shown(&self.path)),
            None => shown(&self.path),
        }
    }

    /// The bytes of the image at the position, or of the whole file.
    pub fn bytes(&self) -> Result<&[u8], Failure> {
        match self.position {
            Some(_) => Ok(self.image()?.bytes()),
            None => Ok(&self.bytes),
        }
    }

    /// The image, or the error that opening it gives. A file of several images fails, since one of them is meant.
    pub fn opened(&self) -> Result<io::Result<CQDB<'_>>, Failure> {
        let path = shown(&self.path);
        match (self.position, kind::images(&self.bytes)) {
            (Some(position), _) => Ok(Bundle::new(&self.bytes).open(position).map_err(io::Error::from)),
            (None, Images::One) => Ok(CQDB::new(&self.bytes)),
            (None, Images::Several(images)) => Err(Failure::new(format!(
                "{path} is a bundle of {images} images: {path}:0 to {path}:{} name them; id, name, list and diff take --all",
                images - 1
            ))),
            (None, Images::Broken) => Err(Failure::new(format!(
                "{path} is a broken bundle: {path}:0 names its first image (refusal {})",
                Refusal::BrokenBundle.number()
            ))),
        }
    }

    /// The image.
    pub fn image(&self) -> Result<CQDB<'_>, Failure> {
        self.opened()?.map_err(|error| Failure::new(format!("{}: {}", self.name(), in_words(&error))))
    }

    /// Every image of a bundle with its position, or the one image.
    pub fn images(&self) -> Result<Vec<(u64, CQDB<'_>)>, Failure> {
        if let Some(position) = self.position {
            return Ok(vec![(position, self.image()?)]);
        }
        if kind::images(&self.bytes) == Images::One {
            return Ok(vec![(0, self.image()?)]);
        }
        let opened = Bundle::new(&self.bytes).iter().zip(0..).map(|(image, position)| match image {
            Ok(db) => Ok((position, db)),
            Err(refusal) => {
                Err(Failure::new(format!("{}:{position}: {}", shown(&self.path), refusal_in_words(refusal))))
            }
        });
        opened.collect()
    }
}

/// The parts of a path `FILE:POSITION`.
pub fn position_of(path: &Path) -> Option<(PathBuf, u64)> {
    let bytes = path.as_os_str().as_bytes();
    let at = bytes.iter().rposition(|byte| *byte == b':')?;
    let position = lines::id_of(&bytes[at + 1..])?;
    Some((PathBuf::from(OsStr::from_bytes(&bytes[..at])), position.into()))
}

/// Opens the image of a file and prints what is asked of it.
pub fn asked(path: &Path, ask: impl FnOnce(&CQDB, &mut Output) -> Outcome) -> Outcome {
    let source = Source::open(path)?;
    let db = source.image()?;
    let mut out = Output::new();
    let answer = ask(&db, &mut out)?;
    out.flush()?;
    source.has_stayed()?;
    Ok(answer)
}

/// An error of the crate, with its refusal's number.
pub fn in_words(error: &io::Error) -> String {
    Refusal::of(error).map_or_else(|| error.to_string(), refusal_in_words)
}

pub fn refusal_in_words(refusal: Refusal) -> String {
    format!("{refusal} (refusal {})", refusal.number())
}

/// A refusal as the reason why a command could not be carried out.
pub fn refused(refusal: Refusal) -> Failure {
    Failure::new(refusal_in_words(refusal))
}

/// Is the place a symbolic link to nothing?
pub fn dangling(path: &Path) -> Option<PathBuf> {
    match path.exists() {
        true => None,
        false => fs::read_link(path).ok(),
    }
}
