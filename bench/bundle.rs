// Bundles: opening the last of 256 images, and an append to a file of 255, each beside a copy of as many bytes. Opening reads a size
// word of each image; the copy is what a caller would do who keeps each image apart.
use crate::archive;
use crate::building::{build, image_size};
use crate::names::Names;
use crate::table::{self, best};
use std::hint::black_box;

const IMAGES: usize = 256;

// An image of n entries, names of 9 bytes.
fn image(n: usize) -> Vec<u8> {
    let mut buf = vec![0; image_size(n, 9)];
    build(&Names::new('p', 9, 0..n).all(), &mut buf);
    buf
}

// Both sides do the work so many times in a row, so that reading the clock does not count.
fn row(what: &str, (repetitions, calls): (usize, usize), mut ours: impl FnMut(), mut copy: impl FnMut()) {
    let times = best(repetitions, calls, || (0..calls).for_each(|_| ours()), || (0..calls).for_each(|_| copy()));
    table::row(what, times, None);
}

fn bundle(n: usize, often: (usize, usize)) {
    let image = image(n);
    let size = image.len();
    let file = vec![&image[..]; IMAGES].concat();
    let mut copy = vec![0u8; file.len()];
    let open = || assert_eq!(archive::bundle_open(black_box(&file), IMAGES as u64 - 1).num as usize, n);
    let copy_file = || black_box(&mut copy[..]).copy_from_slice(black_box(&file));
    row(&format!("open the last of {IMAGES} images of {size} bytes, beside a copy of the file"), often, open, copy_file);

    let mut buf = file.clone();
    let end = file.len() - size;
    let mut place = vec![0u8; size];
    let append = || {
        assert_eq!(archive::bundle_append(black_box(&mut buf), end as u64, black_box(&image)).length as usize, file.len())
    };
    let mut copy_image = || black_box(&mut place[..]).copy_from_slice(black_box(&image));
    let what = format!("append an image of {size} bytes to {} others, beside a copy of it", IMAGES - 1);
    row(&what, often, append, &mut copy_image);
    let first = || assert_eq!(archive::bundle_append(black_box(&mut buf), 0, black_box(&image)).length as usize, size);
    row(&format!("append an image of {size} bytes to an empty file, beside a copy of it"), often, first, copy_image);
}

pub fn run() {
    bundle(0, (2_000, 32));
    bundle(100, (2_000, 32));
    bundle(4_096, (300, 1));
}
