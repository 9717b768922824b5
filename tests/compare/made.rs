// 02 (ix) in plain Rust: the puts that made an image, or none where no list of puts makes exactly these bytes.
use crate::plain::{self, Put, HEAD};
use crate::rules::{self, word};

// The puts that an image would have, read one after the other: half as many as its tables have buckets.
fn puts(image: &[u8]) -> Option<Vec<Put>> {
    let buckets: u64 = (0..256).map(|t| rules::table(image, t).1).sum();
    let (mut rest, mut puts) = (&image[HEAD..], Vec::new());
    for _ in 0..buckets / 2 {
        let head = rest.get(..8)?;
        let length = (word(head, 4) as usize).checked_sub(1)?;
        let name = rest.get(8..8 + length)?;
        puts.push((name.to_vec(), word(head, 0)));
        rest = rest.get(9 + length..)?;
    }
    Some(puts)
}

/// 02 (ix): the image of these puts is the bytes, and no name has a zero byte. An id that the bytes have no room for is not tried.
pub fn made(image: &[u8]) -> Option<Vec<Put>> {
    if image.len() < HEAD {
        return None;
    }
    let puts = puts(image)?;
    let oneway = word(image, 8) == 1;
    let ids_fit = oneway || puts.iter().all(|put| (put.1 as usize) < image.len() / 4);
    let free = puts.iter().all(|put| !put.0.contains(&0));
    (ids_fit && free && plain::image(oneway, &puts) == image).then_some(puts)
}
