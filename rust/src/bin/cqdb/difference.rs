//! What differs between two images, both ways: the names of ids, and the ids of names.
use std::collections::{HashMap, HashSet};

use cqdb::{Change, Puts, CQDB};

use crate::outcome::{self, Failure};

/// How many ids or names were compared, and how many of them differ.
#[derive(Clone, Copy, Default)]
pub struct Counts {
    pub compared: u64,
    pub changed: u64,
    pub new: u64,
    pub gone: u64,
}

impl Counts {
    pub fn differ(&self) -> bool {
        self.changed + self.new + self.gone > 0
    }

    /// One more that one of the two has, or both.
    pub fn note(&mut self, before: bool, after: bool, alike: bool) {
        self.compared += 1;
        match (before, after) {
            (true, false) => self.gone += 1,
            (false, true) => self.new += 1,
            _ => self.changed += u64::from(!alike),
        }
    }
}

/// An id whose name is another, and where its old name is now.
pub struct IdChange<'a, 'b> {
    pub id: u32,
    pub before: Option<&'a [u8]>,
    pub after: Option<&'b [u8]>,
    /// The ids of the old name in the old image and in the new one.
    pub was: Option<u32>,
    pub now: Option<u32>,
    /// Another id whose new name is the old name.
    pub now_name_of: Option<u32>,
}

impl IdChange<'_, '_> {
    /// Has another id the old name now, in one direction or the other?
    pub fn is_swap(&self) -> bool {
        self.now.is_some_and(|id| id != self.id) || self.now_name_of.is_some()
    }
}

/// A name whose id is another.
pub struct NameChange<'a> {
    pub name: &'a [u8],
    pub before: Option<u32>,
    pub after: Option<u32>,
    /// Does a changed id tell of it?
    pub told: bool,
}

impl NameChange<'_> {
    /// Has another id the name now?
    pub fn is_swap(&self) -> bool {
        self.before.is_some() && self.after.is_some()
    }
}

/// Two images.
pub struct Pair<'a> {
    old: CQDB<'a>,
    new: CQDB<'a>,
    /// The puts of each; none where it is not canonical.
    puts: [Option<Puts<'a>>; 2],
}

impl<'a> Pair<'a> {
    pub fn new(old: CQDB<'a>, new: CQDB<'a>) -> Pair<'a> {
        Pair { puts: [old.puts(), new.puts()], old, new }
    }

    /// Is the old image canonical, and is the new one?
    pub fn canonical(&self) -> [bool; 2] {
        [self.puts[0].is_some(), self.puts[1].is_some()]
    }

    /// Calls with each id that the images name differently, in rising order. The archive finds them.
    pub fn ids(&self, mut give: impl FnMut(IdChange<'a, 'a>) -> Result<(), Failure>) -> Result<Counts, Failure> {
        let mut counts = Counts::default();
        let named = (0..self.old.back_size()).filter(|id| self.old.to_str(*id).is_some()).count() as u64;
        let names_now = self.names_now()?;
        for Change { id, before, after, .. } in cqdb::changes(&self.old, &self.new) {
            let (before, after) = (before.map(|name| &**name), after.map(|name| &**name));
            counts.note(before.is_some(), after.is_some(), false);
            let was = before.and_then(|name| self.old.to_id_bytes(name));
            let now = before.and_then(|name| self.new.to_id_bytes(name));
            let now_name_of = before.and_then(|name| names_now.get(name).copied());
            give(IdChange { id, before, after, was, now, now_name_of })?;
        }
        // The old image names all but the new ones.
        counts.compared = named + counts.new;
        Ok(counts)
    }

    /// The new names of the ids that are named differently, each with the first id that has it.
    fn names_now(&self) -> Result<HashMap<&'a [u8], u32>, Failure> {
        let mut names: HashMap<&[u8], u32> = HashMap::new();
        for change in cqdb::changes(&self.old, &self.new) {
            let Some(name) = change.after else { continue };
            names.try_reserve(1).map_err(|_| self.out_of_memory())?;
            names.entry(name).or_insert(change.id);
        }
        Ok(names)
    }

    /// Calls with each name whose id is another, the old image's first.
    pub fn names(&self, mut give: impl FnMut(NameChange<'a>) -> Result<(), Failure>) -> Result<Counts, Failure> {
        let (mut counts, mut seen) = (Counts::default(), HashSet::new());
        let mut compare = |name: &'a [u8]| {
            seen.try_reserve(1).map_err(|_| self.out_of_memory())?;
            if !seen.insert(name) {
                return Ok(());
            }
            let (before, after) = (self.old.to_id_bytes(name), self.new.to_id_bytes(name));
            if before.or(after).is_none() {
                return Ok(());
            }
            counts.note(before.is_some(), after.is_some(), before == after);
            match before == after {
                true => Ok(()),
                false => give(NameChange { name, before, after, told: self.is_told(name, before, after) }),
            }
        };
        each_name(&self.old, &self.puts[0], &mut compare)?;
        each_name(&self.new, &self.puts[1], &mut compare)?;
        Ok(counts)
    }

    /// Does a changed id tell that the name has another id? The id that it had does, where that was named so; or else the
    /// id that it has, where it had none.
    fn is_told(&self, name: &[u8], before: Option<u32>, after: Option<u32>) -> bool {
        let named = |db: &CQDB, id: u32| db.to_str(id).is_some_and(|other| **other == *name);
        match (before, after) {
            (Some(id), _) => named(&self.old, id) && !named(&self.new, id),
            (None, Some(id)) => named(&self.new, id) && !named(&self.old, id),
            (None, None) => true,
        }
    }

    fn out_of_memory(&self) -> Failure {
        let bytes = self.old.bytes().len() + self.new.bytes().len();
        outcome::out_of_memory("the names of two images", bytes as u64)
    }
}

/// Calls with the name of each put. Of an image that is not canonical only the names that ids have are known.
fn each_name<'a>(
    db: &CQDB<'a>,
    puts: &Option<Puts<'a>>,
    mut give: impl FnMut(&'a [u8]) -> Result<(), Failure>,
) -> Result<(), Failure> {
    match puts.clone() {
        Some(mut puts) => puts.try_for_each(|(name, _)| give(name)),
        None => (0..db.back_size()).filter_map(|id| db.to_str(id)).try_for_each(|name| give(name)),
    }
}
