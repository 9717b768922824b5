//! The average search length.

/// The average search length of an image: the number of buckets that are read when the name of each entry is looked up, over the
/// number of entries, as whole quotient and remainder. See [`CQDB::average`](crate::CQDB::average).
#[derive(Clone, Copy, Debug, PartialEq, Eq, Hash)]
pub struct Average {
    /// The number of entries, above 0.
    pub entries: u32,
    /// The whole part of the average.
    pub quotient: u64,
    /// What is left of the total: below the entries.
    pub remainder: u64,
}

impl Average {
    /// The total of buckets read.
    pub fn total(&self) -> u64 {
        self.quotient * u64::from(self.entries) + self.remainder
    }
}
