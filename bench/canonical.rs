// Is this image canonical? Ours in one call, lent the image alone; beside it a rebuild by the Rust: all puts, the close and the
// comparison of the bytes. The rebuild needs memory of the image's size: taken for it each time, or at hand and used again. Names
// of 9 bytes, ids in put order.
use crate::archive;
use crate::building::{build_rust, image_size};
use crate::names::Names;
use crate::table::{self, best};
use std::hint::black_box;

fn deciding(n: usize, repetitions: usize) {
    let names = Names::new('p', 9, 0..n);
    let names = names.all();
    let mut image = vec![0u8; image_size(n, 9)];
    build_rust(&names, &mut image);
    let ours = || assert_eq!(archive::canonical(black_box(&image)), 1);
    let rebuild = |room: &mut [u8]| {
        build_rust(black_box(&names), black_box(&mut *room));
        assert!(black_box(&*room) == black_box(&image[..]), "the same image");
    };
    let taken = best(repetitions, n, ours, || rebuild(&mut vec![0u8; image.len()]));
    table::row(&format!("canonical, an entry of {n}, beside a rebuild in memory of its own"), taken, None);
    let mut again = vec![0u8; image.len()];
    let at_hand = best(repetitions, n, ours, || rebuild(&mut again));
    table::row(&format!("canonical, an entry of {n}, beside a rebuild in memory at hand"), at_hand, None);
}

pub fn run() {
    deciding(4_096, 2_000);
    deciding(1_000_000, 15);
}
