//! References before walls, through the safe call.
use cqdb::{references_first, Order, Pair};

fn pairs(of: &[(u32, u32)]) -> Vec<Pair> {
    of.iter().map(|&(reference, wall)| Pair { reference, wall }).collect()
}

#[test]
fn nothing_to_keep() {
    assert_eq!(references_first(&[], &[]), Order::Yes);
    assert_eq!(references_first(&[], &[7, 8]), Order::Yes);
    assert_eq!(references_first(&pairs(&[(1, 2), (3, 3)]), &[]), Order::Yes);
    assert_eq!(references_first(&pairs(&[(1, 2)]), &[3, 1, 4]), Order::Yes);
}

#[test]
fn before_behind_or_absent() {
    let pair = pairs(&[(1, 2)]);
    assert_eq!(references_first(&pair, &[1, 3, 2]), Order::Yes);
    assert_eq!(references_first(&pair, &[3, 2, 1]), Order::Fails { pair: 0 });
    assert_eq!(references_first(&pair, &[3, 2]), Order::Fails { pair: 0 });
}

#[test]
fn repeated_ids() {
    let pair = pairs(&[(1, 2)]);
    assert_eq!(references_first(&pair, &[2, 1, 2]), Order::Fails { pair: 0 });
    assert_eq!(references_first(&pair, &[1, 1, 2, 2, 1]), Order::Yes);
}

#[test]
fn an_id_with_itself() {
    assert_eq!(references_first(&pairs(&[(5, 5)]), &[4, 5, 5]), Order::Fails { pair: 0 });
    assert_eq!(references_first(&pairs(&[(5, 5)]), &[4, 6]), Order::Yes);
}

#[test]
fn the_first_that_fails() {
    let three = pairs(&[(1, 2), (3, 4), (5, 5)]);
    assert_eq!(references_first(&three, &[1, 4, 2, 3, 5]), Order::Fails { pair: 1 });
    assert_eq!(references_first(&three, &[1, 3, 2, 4, 5]), Order::Fails { pair: 2 });
    assert_eq!(references_first(&three, &[1, 3, 2, 4]), Order::Yes);
    let mut many = vec![Pair { reference: 0, wall: u32::MAX }; 1_000];
    many[731].reference = 9;
    assert_eq!(references_first(&many, &[0, u32::MAX]), Order::Fails { pair: 731 });
}
