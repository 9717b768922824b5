//! Names and ids one to one.
use crate::archive::{self, OneToOneAnswer};
use crate::name::BStr;
use crate::puts::name_of;

/// Whether the names and ids of an image are one to one. See [`CQDB::one_to_one`](crate::CQDB::one_to_one).
#[derive(Clone, Copy, Debug, PartialEq, Eq)]
pub enum OneToOne<'a> {
    /// The name of every entry finds its id and, in a two-way image, its id gives its name.
    Yes,
    /// This entry is the first, in put order, that fails.
    Fails {
        /// What fails.
        kind: Mismatch,
        /// Where the entry stands in the image.
        offset: u32,
        /// The entry's id.
        id: u32,
        /// The entry's name.
        name: &'a BStr,
    },
}

/// How an entry of an image fails to be one to one.
#[derive(Clone, Copy, Debug, PartialEq, Eq, Hash)]
pub enum Mismatch {
    /// Its name finds another id: an earlier put has this name.
    OtherId,
    /// Its name finds its id, and its id gives another name: a later put has this id.
    OtherName,
}

impl<'a> OneToOne<'a> {
    /// The answer for an image. The entry that fails lies in it.
    pub(crate) fn new(image: &'a [u8], answer: OneToOneAnswer) -> Self {
        let kind = match answer.kind {
            0 => return OneToOne::Yes,
            1 => Mismatch::OtherId,
            _ => Mismatch::OtherName,
        };
        let entry = archive::entry(image, answer.offset);
        OneToOne::Fails { kind, offset: answer.offset, id: entry.id, name: name_of(image, entry) }
    }
}
