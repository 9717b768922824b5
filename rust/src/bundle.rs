//! Several walls in a file.
use std::fmt;
use std::iter::FusedIterator;

use crate::archive;
use crate::read::CQDB;
use crate::refusal::{self, Refusal};

/// A file that holds images back to back; an empty file holds none.
///
/// ```
/// use cqdb::{Bundle, MemoryWriter};
///
/// # fn main() -> std::io::Result<()> {
/// let mut file = Vec::new();
/// for wall in ["north wall", "quay"] {
///     let mut writer = MemoryWriter::new();
///     writer.put(wall, 0)?;
///     Bundle::append(&mut file, &writer.finish()?)?;
/// }
/// let bundle = Bundle::new(&file);
/// assert_eq!(bundle.count()?, 2);
/// assert_eq!(bundle.open(1)?.to_id("quay"), Some(0));
/// # Ok(())
/// # }
/// ```
#[derive(Clone, Copy)]
pub struct Bundle<'a> {
    file: &'a [u8],
}

impl<'a> Bundle<'a> {
    /// A file as a bundle, whatever its bytes are.
    pub fn new(file: &'a [u8]) -> Self {
        Bundle { file }
    }

    /// Opens the image at a position, counted from 0, by a walk that goes only as far as it. Refused with
    /// [`Refusal::BrokenBundle`] where the walk breaks off, with [`Refusal::NoSuchImage`] where the file ends, and then as
    /// [`CQDB::new`] refuses the image's own bytes.
    pub fn open(&self, position: u64) -> Result<CQDB<'a>, Refusal> {
        let answer = archive::bundle_open(self.file, position);
        let (start, size) = (answer.start as usize, answer.size as usize);
        refusal::or(answer.refusal, CQDB::opened(&self.file[start..start + size], answer.num))
    }

    /// How many images the file holds. Refused with [`Refusal::BrokenBundle`].
    pub fn count(&self) -> Result<u64, Refusal> {
        let answer = archive::bundle_count(self.file);
        refusal::or(answer.refusal, answer.images)
    }

    /// How many bytes the first image says that it has, whatever that is; none where the file ends before its size word does. This
    /// word is all that leads from an image to the next, and no call gives it for an image that does not open.
    pub fn first_size(&self) -> Option<u32> {
        Some(u32::from_le_bytes(self.file.get(4..8)?.try_into().ok()?))
    }

    /// Opens each image, from the front.
    pub fn iter(&self) -> Images<'a> {
        Images { rest: self.file }
    }

    /// Appends an image to a file and gives the file's new length. The file is walked from its front, and the image is not
    /// opened. Refused with [`Refusal::BrokenBundle`], and the file stays as it was, where its walk breaks off, or where the
    /// image has fewer than 2,072 bytes or not as many as its size word says.
    pub fn append(file: &mut Vec<u8>, image: &[u8]) -> Result<u64, Refusal> {
        let end = file.len();
        file.resize(end + image.len(), 0);
        let answer = archive::bundle_append(file, end as u64, image);
        if answer.refusal > 0 {
            file.truncate(end);
        }
        refusal::or(answer.refusal, answer.length)
    }
}

impl fmt::Debug for Bundle<'_> {
    fn fmt(&self, f: &mut fmt::Formatter<'_>) -> fmt::Result {
        f.debug_struct("Bundle").field("len", &self.file.len()).finish()
    }
}

/// A walk over the images of a bundle. An image that does not open is given as its refusal, and the walk goes on behind it;
/// where the walk breaks off, it gives [`Refusal::BrokenBundle`] and ends.
#[derive(Clone, Debug)]
pub struct Images<'a> {
    rest: &'a [u8],
}

impl<'a> Iterator for Images<'a> {
    type Item = Result<CQDB<'a>, Refusal>;

    fn next(&mut self) -> Option<Self::Item> {
        let rest = Bundle::new(self.rest);
        let opened = rest.open(0);
        let size = match opened {
            Err(Refusal::NoSuchImage) => return None,
            Err(Refusal::BrokenBundle) => self.rest.len(),
            _ => rest.first_size().expect("the walk came behind it") as usize,
        };
        self.rest = &self.rest[size..];
        Some(opened)
    }
}

// A walk that has ended has no byte left.
impl FusedIterator for Images<'_> {}

impl<'a> IntoIterator for &Bundle<'a> {
    type Item = Result<CQDB<'a>, Refusal>;
    type IntoIter = Images<'a>;

    fn into_iter(self) -> Images<'a> {
        self.iter()
    }
}
