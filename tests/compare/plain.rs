// The hash of a name and the image of a list of puts in plain Rust, written from lookup3 and 01: for comparisons that build images
// and do not ask the original. They share no line with the product.
#![allow(dead_code)]

pub const HEAD: usize = 2072;

pub type Put = (Vec<u8>, u32);

/// lookup3's hashlittle of a name and one zero byte, with start value 0. Twelve bytes at a time are added to three words; they
/// are mixed after each twelve but the last.
pub fn hash(name: &[u8]) -> u32 {
    let key = [name, &[0]].concat();
    let mut s = [0xdead_beef_u32.wrapping_add(key.len() as u32); 3];
    let last = (key.len() - 1) / 12;
    for (block, bytes) in key.chunks(12).enumerate() {
        for (place, &b) in bytes.iter().enumerate() {
            s[place / 4] = s[place / 4].wrapping_add(u32::from(b) << (8 * (place % 4)));
        }
        if block < last {
            mix(&mut s);
        }
    }
    finish(&mut s);
    s[2]
}

fn mix(s: &mut [u32; 3]) {
    for (step, turn) in [4, 6, 8, 16, 19, 4].into_iter().enumerate() {
        let (x, y, z) = (step % 3, (step + 1) % 3, (step + 2) % 3);
        s[x] = s[x].wrapping_sub(s[z]) ^ s[z].rotate_left(turn);
        s[z] = s[z].wrapping_add(s[y]);
    }
}

fn finish(s: &mut [u32; 3]) {
    for (step, turn) in [14, 11, 25, 16, 4, 14, 24].into_iter().enumerate() {
        let (x, y) = ((step + 2) % 3, (step + 1) % 3);
        s[x] = (s[x] ^ s[y]).wrapping_sub(s[y].rotate_left(turn));
    }
}

fn words(bytes: &mut Vec<u8>, words: &[u32]) {
    bytes.extend(words.iter().flat_map(|w| w.to_le_bytes()));
}

// A table takes its entries in put order, each into the first empty bucket of its search.
fn filled(entries: &[(u32, u32)]) -> Vec<[u32; 2]> {
    let n = 2 * entries.len();
    let mut table = vec![[0, 0]; n];
    for &(h, at) in entries {
        let start = h as usize / 256;
        let free = (0..n).map(|i| (start + i) % n).find(|&k| table[k][1] == 0).expect("twice as many as entries");
        table[free] = [h, at];
    }
    table
}

/// The image that these puts close to, one-way or two-way.
pub fn image(oneway: bool, puts: &[Put]) -> Vec<u8> {
    let mut entries = Vec::new();
    let mut tables: Vec<Vec<(u32, u32)>> = vec![Vec::new(); 256];
    let largest = if oneway { 0 } else { puts.iter().map(|put| put.1 as usize + 1).max().unwrap_or(0) };
    let mut links = vec![0; largest];
    for (name, id) in puts {
        let at = (HEAD + entries.len()) as u32;
        words(&mut entries, &[*id, name.len() as u32 + 1]);
        entries.extend_from_slice(name);
        entries.push(0);
        let h = hash(name);
        tables[h as usize % 256].push((h, at));
        if !oneway {
            links[*id as usize] = at;
        }
    }
    let mut bodies = Vec::new();
    let mut rows = Vec::new();
    for table in &tables {
        let at = HEAD + entries.len() + bodies.len();
        rows.extend(if table.is_empty() { [0, 0] } else { [at as u32, 2 * table.len() as u32] });
        words(&mut bodies, &filled(table).concat());
    }
    let back = HEAD + entries.len() + bodies.len();
    let size = back + 4 * links.len();
    let mut image = b"CQDB".to_vec();
    let place = if links.is_empty() { 0 } else { back as u32 };
    words(&mut image, &[size as u32, u32::from(oneway), 0x6244_5371, links.len() as u32, place]);
    words(&mut image, &rows);
    image.extend(entries);
    image.extend(bodies);
    words(&mut image, &links);
    image
}
