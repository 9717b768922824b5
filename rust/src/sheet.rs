//! The round sheet.
use std::iter::FusedIterator;

use crate::archive;
use crate::refusal::{self, Refusal};

/// A round sheet: a file of three sections in fixed order, references, wall prisms and retired prisms. Each is a 16-bit
/// count and that many 32-bit ids, little-endian. Nothing is copied: the ids are read from the file.
///
/// ```
/// use cqdb::Sheet;
///
/// # fn main() -> Result<(), cqdb::Refusal> {
/// let mut buf = [0; 64];
/// let length = Sheet::write(&mut buf, &[1, 2], &[7], &[])?;
///
/// let sheet = Sheet::read(&buf[..length])?;
/// assert_eq!(sheet.references().collect::<Vec<_>>(), [1, 2]);
/// assert_eq!(sheet.walls().get(0), Some(7));
/// assert_eq!(sheet.retired().len(), 0);
/// # Ok(())
/// # }
/// ```
#[derive(Clone, Debug, PartialEq, Eq)]
pub struct Sheet<'a> {
    sections: [Ids<'a>; 3],
}

impl<'a> Sheet<'a> {
    /// Reads a file. Refused with [`Refusal::TooFewBytes`] where it ends before its third section does, and with
    /// [`Refusal::LeftOverBytes`] where bytes follow that section.
    pub fn read(file: &'a [u8]) -> Result<Self, Refusal> {
        let answer = archive::sheet_read(file);
        let ids = |section: usize| {
            let (start, count) = (answer.starts[section] as usize, answer.counts[section] as usize);
            Ids { part: &file[start..start + 4 * count] }
        };
        refusal::or(answer.refusal, Sheet { sections: [ids(0), ids(1), ids(2)] })
    }

    /// The ids of the references.
    pub fn references(&self) -> Ids<'a> {
        self.sections[0].clone()
    }

    /// The ids of the wall prisms.
    pub fn walls(&self) -> Ids<'a> {
        self.sections[1].clone()
    }

    /// The ids of the retired prisms.
    pub fn retired(&self) -> Ids<'a> {
        self.sections[2].clone()
    }

    /// Writes the sheet of three lists into the front of a buffer, 6 + 4 × the number of all ids bytes, and gives this
    /// length; no byte past it is changed. Refused with [`Refusal::SheetTooLarge`] where a list has more than 65,535 ids
    /// or the buffer is shorter; then no byte is changed.
    pub fn write(buf: &mut [u8], references: &[u32], walls: &[u32], retired: &[u32]) -> Result<usize, Refusal> {
        let answer = archive::sheet_write(buf, [references, walls, retired]);
        refusal::or(answer.refusal, answer.length as usize)
    }
}

/// The ids of a section, in the file's order.
#[derive(Clone, Debug, PartialEq, Eq)]
pub struct Ids<'a> {
    part: &'a [u8],
}

impl<'a> Ids<'a> {
    /// The part of the file that holds the ids that are left, four bytes each.
    pub fn part(&self) -> &'a [u8] {
        self.part
    }

    /// The i-th of the ids that are left, counted from 0.
    pub fn get(&self, i: usize) -> Option<u32> {
        self.part.chunks_exact(4).nth(i).map(id_of)
    }
}

// The id that four bytes hold, the lowest first.
fn id_of(bytes: &[u8]) -> u32 {
    u32::from_le_bytes(bytes.try_into().expect("four bytes to an id"))
}

impl Iterator for Ids<'_> {
    type Item = u32;

    fn next(&mut self) -> Option<u32> {
        let id = self.get(0)?;
        self.part = &self.part[4..];
        Some(id)
    }

    fn size_hint(&self) -> (usize, Option<usize>) {
        let left = self.part.len() / 4;
        (left, Some(left))
    }
}

impl ExactSizeIterator for Ids<'_> {}

impl FusedIterator for Ids<'_> {}
