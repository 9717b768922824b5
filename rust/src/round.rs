//! A whole round in one call.
use crate::archive::{self, IdAnswer, StrAnswer};
use crate::name::BStr;
use crate::read::{Found, CQDB};
use crate::refusal::{self, Refusal};

/// What a round of names found.
#[derive(Clone, Debug, PartialEq, Eq)]
pub struct Round {
    /// For each name, in their order, what [`CQDB::lookup`] gives for it: the id and the offset of its entry or nothing, and the
    /// number of buckets that its search reads.
    pub answers: Vec<(Option<Found>, u32)>,
    /// The sum of the buckets over the different names, since equal names are searched for once: those that the call reads.
    pub buckets: u64,
}

impl<'a> CQDB<'a> {
    /// The ids of up to 512 names, as single lookups give them, in their order; equal names are searched for once. Refused with
    /// [`Refusal::RoundUnfit`] where there are more.
    ///
    /// ```
    /// # fn main() -> std::io::Result<()> {
    /// let mut writer = cqdb::MemoryWriter::new();
    /// writer.put("north wall", 0)?;
    /// writer.put("crane", 1)?;
    /// let image = writer.finish()?;
    /// let db = cqdb::CQDB::new(&image)?;
    /// let round = db.round(&[b"crane", b"quay", b"crane"])?;
    /// let ids: Vec<_> = round.answers.iter().map(|(found, _)| found.map(|f| f.id)).collect();
    /// assert_eq!(ids, [Some(1), None, Some(1)]);
    /// # Ok(())
    /// # }
    /// ```
    pub fn round(&self, names: &[&[u8]]) -> Result<Round, Refusal> {
        let ends: Vec<u64> = names
            .iter()
            .scan(0, |end, name| {
                *end += name.len() as u64;
                Some(*end)
            })
            .collect();
        let mut places = vec![IdAnswer { found: 0, id: 0, buckets: 0, offset: 0 }; names.len()];
        // More than 512 names are refused before their bytes are looked at, so those need not be joined.
        let joined = if names.len() <= 512 { names.concat() } else { Vec::new() };
        let answer = archive::round(self.bytes(), &joined, &ends, &mut places);
        let answers = places
            .iter()
            .map(|a| ((a.found == 1).then_some(Found { id: a.id, offset: a.offset }), a.buckets))
            .collect();
        refusal::or(answer.refusal, Round { answers, buckets: answer.buckets })
    }

    /// The names of up to 512 ids, as [`CQDB::to_str`] gives them, in their order. Refused with [`Refusal::RoundUnfit`] where there
    /// are more.
    pub fn name_round(&self, ids: &[u32]) -> Result<Vec<Option<&'a BStr>>, Refusal> {
        let mut places = vec![StrAnswer { found: 0, len: 0, start: 0 }; ids.len()];
        let number = archive::name_round(self.bytes(), ids, &mut places);
        refusal::or(number, places.into_iter().map(|place| self.part(place)).collect())
    }
}
