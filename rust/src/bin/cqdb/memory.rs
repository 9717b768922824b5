//! Files that are taken whole into memory: what was asked about is what is printed, and a file that changed meanwhile
//! is noticed.
use std::fs::File;
use std::io::{BufReader, Read};
use std::path::{Path, PathBuf};

use cqdb::{Bundle, Refusal};

use crate::files;
use crate::kind::{self, Images};
use crate::outcome::Failure;

/// The bytes of a file, or those of the image at a position of it, as `BUNDLE:1` says.
pub struct Kept {
    path: PathBuf,
    position: Option<u64>,
    bytes: Vec<u8>,
    /// Can it be read again? A pipe cannot.
    again: bool,
}

impl Kept {
    /// A file, or standard input where it is called `-`.
    pub fn file(path: &Path) -> Result<Kept, Failure> {
        let (bytes, again) = if path == Path::new("-") {
            (files::read_whole(files::standard_input()?, path)?, false)
        } else {
            let file = opened(path)?;
            let again = file.metadata().is_ok_and(|about| about.is_file());
            (files::read_whole(file, path)?, again)
        };
        Ok(Kept { path: path.to_path_buf(), position: None, bytes, again })
    }

    /// A file that is read elsewhere too; none where it can be read only once, as a pipe.
    pub fn read_again(path: &Path) -> Result<Option<Kept>, Failure> {
        let is_file = path != Path::new("-") && path.metadata().is_ok_and(|about| about.is_file());
        is_file.then(|| Kept::file(path)).transpose()
    }

    /// A file that an image is asked for.
    pub fn image(path: &Path) -> Result<Kept, Failure> {
        match files::position_of(path) {
            Some((file, position)) if !path.exists() => Ok(Kept { position: Some(position), ..Kept::file(&file)? }),
            _ => Kept::file(path),
        }
    }

    /// The bytes of the file.
    pub fn bytes(&self) -> &[u8] {
        &self.bytes
    }

    /// The bytes of the image, whatever they are. A file of several images fails, since one of them is meant.
    pub fn image_bytes(&self) -> Result<&[u8], Failure> {
        let path = files::shown(&self.path);
        match (self.position, kind::images(self.bytes())) {
            (Some(position), _) => self.at(position),
            (None, Images::One) => Ok(self.bytes()),
            (None, Images::Several(images)) => Err(Failure::new(format!(
                "{path} is a bundle of {images} images: {path}:0 to {path}:{} name them",
                images - 1
            ))),
            (None, Images::Broken) => Err(self.refused(Refusal::BrokenBundle)),
        }
    }

    /// The bytes of every image of a bundle, whatever they are.
    pub fn walls(&self) -> Result<Vec<&[u8]>, Failure> {
        if self.position.is_some() {
            return Err(Failure::new("--all asks of every image of a bundle: leave the position out"));
        }
        let images = Bundle::new(self.bytes()).count().map_err(|refusal| self.refused(refusal))?;
        (0..images).map(|position| self.at(position)).collect()
    }

    /// The bytes of the image at a position. An image that does not open has its bytes too.
    fn at(&self, position: u64) -> Result<&[u8], Failure> {
        if let Err(refusal @ (Refusal::BrokenBundle | Refusal::NoSuchImage)) = Bundle::new(self.bytes()).open(position)
        {
            return Err(self.refused(refusal));
        }
        // The walk of that call came to the image, so each size word up to it lies in the file.
        let mut rest = self.bytes();
        let size_of = |image| Bundle::new(image).first_size().expect("the walk came behind it") as usize;
        for _ in 0..position {
            rest = &rest[size_of(rest)..];
        }
        Ok(&rest[..size_of(rest)])
    }

    fn refused(&self, refusal: Refusal) -> Failure {
        Failure::new(format!("{}: {}", files::shown(&self.path), files::refusal_in_words(refusal)))
    }

    /// Fails where the file has other bytes by now.
    pub fn has_not_changed(&self) -> Result<(), Failure> {
        if !self.again {
            return Ok(());
        }
        let path = &self.path;
        let changed = || Failure::new(format!("{} has changed meanwhile", files::shown(path)));
        let mut now = BufReader::with_capacity(1 << 16, opened(path)?);
        let mut piece = [0; 1 << 12];
        for part in self.bytes().chunks(piece.len()) {
            now.read_exact(&mut piece[..part.len()]).map_err(|_| changed())?;
            if piece[..part.len()] != *part {
                return Err(changed());
            }
        }
        match now.read(&mut piece) {
            Ok(0) => Ok(()),
            _ => Err(changed()),
        }
    }
}

fn opened(path: &Path) -> Result<File, Failure> {
    File::open(path).map_err(|error| files::cannot_read(path, error))
}
