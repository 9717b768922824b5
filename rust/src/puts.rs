//! The puts of a canonical image, read back.
use std::iter::FusedIterator;

use crate::archive::{self, EntryAnswer, HEAD};
use crate::name::BStr;

/// The puts of an image, name and id, in put order: the list that makes the image. See [`CQDB::puts`](crate::CQDB::puts).
///
/// ```
/// # fn main() -> std::io::Result<()> {
/// let mut writer = cqdb::MemoryWriter::new();
/// writer.put("north wall", 7)?;
/// writer.put("crane", 2)?;
/// let image = writer.finish()?;
/// let puts = cqdb::CQDB::new(&image)?.puts().expect("an image of a writer");
/// assert_eq!(puts.collect::<Vec<_>>(), [(cqdb::BStr::new("north wall"), 7), (cqdb::BStr::new("crane"), 2)]);
/// # Ok(())
/// # }
/// ```
#[derive(Clone, Debug)]
pub struct Puts<'a> {
    image: &'a [u8],
    next: u32,
    left: u32,
}

impl<'a> Puts<'a> {
    // The image is canonical, and has `num` entries; or it is a writer's buffer with so many.
    pub(crate) fn new(image: &'a [u8], num: u32) -> Self {
        Puts { image, next: HEAD as u32, left: num }
    }
}

impl<'a> Iterator for Puts<'a> {
    type Item = (&'a BStr, u32);

    fn next(&mut self) -> Option<Self::Item> {
        self.left = self.left.checked_sub(1)?;
        let entry = archive::entry(self.image, self.next);
        let name = name_of(self.image, entry);
        // A zero byte stands behind each name, and then the next entry; all lie below 4,294,967,295.
        self.next = (entry.start + u64::from(entry.len) + 1) as u32;
        Some((name, entry.id))
    }

    fn size_hint(&self) -> (usize, Option<usize>) {
        (self.left as usize, Some(self.left as usize))
    }
}

impl ExactSizeIterator for Puts<'_> {}

impl FusedIterator for Puts<'_> {}

/// The name of an entry.
pub(crate) fn name_of(image: &[u8], entry: EntryAnswer) -> &BStr {
    BStr::new(&image[entry.start as usize..][..entry.len as usize])
}
