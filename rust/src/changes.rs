//! Two images compared.
use std::iter::FusedIterator;

use crate::archive;
use crate::name::BStr;
use crate::read::CQDB;

/// An id that two images name differently.
#[derive(Clone, Copy, Debug, PartialEq, Eq)]
pub struct Change<'a, 'b> {
    /// The id.
    pub id: u32,
    /// Its name in the old image.
    pub before: Option<&'a BStr>,
    /// Its name in the new image.
    pub after: Option<&'b BStr>,
    /// The other id that the new image has for the old name: then two ids may have exchanged names.
    pub moved_to: Option<u32>,
}

/// The ids that an old and a new image name differently, each once and in rising order: by a name and another name, byte for byte,
/// or by a name and none. All other ids are named alike by both.
///
/// ```
/// # fn main() -> std::io::Result<()> {
/// let image = |names: [&str; 2]| -> std::io::Result<Vec<u8>> {
///     let mut writer = cqdb::MemoryWriter::new();
///     writer.put(names[0], 14)?;
///     writer.put(names[1], 15)?;
///     Ok(writer.finish()?)
/// };
/// let (old, new) = (image(["north wall", "crane"])?, image(["crane", "north wall"])?);
/// let (old, new) = (cqdb::CQDB::new(&old)?, cqdb::CQDB::new(&new)?);
/// let moved: Vec<_> = cqdb::changes(&old, &new).map(|change| (change.id, change.moved_to)).collect();
/// assert_eq!(moved, [(14, Some(15)), (15, Some(14))]);
/// # Ok(())
/// # }
/// ```
pub fn changes<'a, 'b>(old: &CQDB<'a>, new: &CQDB<'b>) -> Changes<'a, 'b> {
    Changes { old: *old, new: *new, from: 0 }
}

/// The changes from an old to a new image; see [`changes`].
#[derive(Clone, Debug)]
pub struct Changes<'a, 'b> {
    old: CQDB<'a>,
    new: CQDB<'b>,
    from: u64,
}

impl<'a, 'b> Iterator for Changes<'a, 'b> {
    type Item = Change<'a, 'b>;

    fn next(&mut self) -> Option<Self::Item> {
        let (old, new) = (self.old.bytes(), self.new.bytes());
        let answer = archive::next_change(old, new, self.from);
        if answer.found != 1 {
            // Behind all ids, so that a further call ends at once.
            self.from = u64::MAX;
            return None;
        }
        self.from = u64::from(answer.id) + 1;
        let moved = archive::moved(old, new, answer.id);
        Some(Change {
            id: answer.id,
            before: self.old.part(answer.before),
            after: self.new.part(answer.after),
            moved_to: (moved.found == 1).then_some(moved.id),
        })
    }
}

impl FusedIterator for Changes<'_, '_> {}
