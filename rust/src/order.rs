//! References before walls.
use crate::archive;

pub use crate::archive::Pair;

/// Whether a round sights each reference before its wall prism.
#[derive(Clone, Copy, Debug, PartialEq, Eq, Hash)]
pub enum Order {
    /// Every pair is kept.
    Yes,
    /// This pair, by its place from 0, is the first that is not.
    Fails {
        /// The place of the pair in the list.
        pair: usize,
    },
}

/// Is every pair kept in a round of ids? A pair is kept when its wall prism does not occur, or its reference occurs before
/// the wall prism's first occurrence; so a pair of an id with itself fails where that id occurs. For each pair the round is
/// read once at most.
///
/// ```
/// use cqdb::{references_first, Order, Pair};
///
/// let pairs = [Pair { reference: 1, wall: 7 }, Pair { reference: 2, wall: 8 }];
/// assert_eq!(references_first(&pairs, &[1, 7, 2, 8]), Order::Yes);
/// assert_eq!(references_first(&pairs, &[1, 7, 8, 2]), Order::Fails { pair: 1 });
/// ```
pub fn references_first(pairs: &[Pair], round: &[u32]) -> Order {
    let answer = archive::references_first(pairs, round);
    match answer.ok {
        1 => Order::Yes,
        _ => Order::Fails { pair: answer.pair as usize },
    }
}
