//! Constant quark database (CQDB) images: names to ids and ids to names. The crate has the names of cqdb-rs. Its calls are
//! safe wrappers of an archive whose functions are proved, for all inputs, to give what the rules of the format say. The
//! wrappers themselves are tested, not proved.
//!
//! ```
//! use cqdb::{CQDBWriter, CQDB};
//! use std::io::Cursor;
//!
//! # fn main() -> std::io::Result<()> {
//! let mut stream = Cursor::new(Vec::new());
//! let mut writer = CQDBWriter::new(&mut stream)?;
//! writer.put("north wall", 0)?;
//! writer.put("crane", 1)?;
//! writer.finish()?;
//!
//! let image = stream.into_inner();
//! let db = CQDB::new(&image)?;
//! assert_eq!(db.to_id("crane"), Some(1));
//! assert_eq!(db.to_str(0).unwrap(), "north wall");
//! for entry in &db {
//!     let (id, name) = entry?;
//!     println!("{id} {name}");
//! }
//! # Ok(())
//! # }
//! ```
//!
//! [`MemoryWriter`] builds an image without a stream. [`moving`] says how a program moves from cqdb-rs, and what differs.
#![warn(missing_docs)]

mod archive;
mod average;
mod build;
mod bundle;
mod changes;
mod flag;
mod load;
mod name;
mod one_to_one;
mod order;
mod owned;
mod page;
mod preflight;
mod puts;
mod read;
mod refusal;
mod round;
mod sheet;
mod stream;
mod write;
mod zeros;

#[doc = include_str!("../MOVING.md")]
pub mod moving {}

pub use archive::{Date, Window};
pub use average::Average;
pub use build::Built;
pub use bundle::{Bundle, Images};
pub use changes::{changes, Change, Changes};
pub use flag::Flag;
pub use load::{load, load_in};
pub use name::BStr;
pub use one_to_one::{Mismatch, OneToOne};
pub use order::{references_first, Order, Pair};
pub use owned::BString;
pub use page::Page;
pub use preflight::{preflight, preflight_dates, Preflight, PreflightDates, Report};
pub use puts::Puts;
pub use read::{Found, Iter, CQDB};
pub use refusal::Refusal;
pub use round::Round;
pub use sheet::{Ids, Sheet};
pub use stream::CQDBWriter;
pub use write::MemoryWriter;

/// The hash of a name with a start value (images use 0): lookup3's `hashlittle` over the name and one zero byte. Refused
/// with [`Refusal::NameTooLong`] when the name has 4,294,967,295 bytes or more.
pub fn jhash(name: &[u8], start: u32) -> Result<u32, Refusal> {
    let answer = archive::hash(name, start);
    refusal::or(answer.refusal, answer.hash)
}

/// The version of the archive that the program is linked with, as one number: major * 65,536 + minor * 256 + patch.
///
/// ```
/// let parts = env!("CARGO_PKG_VERSION").split('.').map(|part| part.parse::<u32>().unwrap());
/// assert_eq!(cqdb::version_number(), parts.fold(0, |number, part| 256 * number + part));
/// ```
pub fn version_number() -> u32 {
    archive::version_number()
}
