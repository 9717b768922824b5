// Document 01's rules for reading, written a second time, straight from its paragraphs and in their order. They share no line
// with the product. Where the Rust cannot be asked, the comparisons rely on them alone.
#![allow(dead_code)]

pub const HEAD: usize = 2072;
pub const LONGEST: u64 = 4_294_967_294;

extern "C" {
    fn jenkins_hashlittle(key: *const u8, length: usize, initval: u32) -> u32;
}

/// lookup3's hash of a name and one zero byte.
pub fn hash(name: &[u8]) -> u32 {
    let closed: Vec<u8> = name.iter().copied().chain([0, 0, 0, 0]).collect();
    // SAFETY: three more bytes than are counted are there: lookup3 may read an aligned word whole.
    unsafe { jenkins_hashlittle(closed.as_ptr(), name.len() + 1, 0) }
}

pub fn word(s: &[u8], at: usize) -> u32 {
    u32::from_le_bytes([s[at], s[at + 1], s[at + 2], s[at + 3]])
}

/// Table t's offset and bucket number.
pub fn table(image: &[u8], t: usize) -> (u64, u64) {
    (word(image, 24 + 8 * t) as u64, word(image, 28 + 8 * t) as u64)
}

pub fn back_size(image: &[u8]) -> u64 {
    word(image, 16) as u64
}

pub fn back_offset(image: &[u8]) -> u64 {
    word(image, 20) as u64
}

fn table_leaves(image: &[u8], (offset, number): (u64, u64)) -> bool {
    offset + 8 * number > image.len() as u64
}

fn back_leaves(image: &[u8]) -> bool {
    back_offset(image) + 4 * back_size(image) > image.len() as u64
}

/// Opening: num, or the first refusal that applies.
pub fn open(image: &[u8]) -> Result<u32, u32> {
    if image.len() < HEAD {
        return Err(1);
    }
    let tables = || (0..256).map(|t| table(image, t));
    if &image[..4] != b"CQDB" {
        Err(5)
    } else if word(image, 12) != 0x62445371 {
        Err(6)
    } else if tables().any(|row| row.0 > 0 && table_leaves(image, row)) {
        Err(7)
    } else if back_offset(image) > 0 && back_leaves(image) {
        Err(8)
    } else {
        Ok((tables().map(|(_, number)| number / 2).sum::<u64>() % (1 << 32)) as u32)
    }
}

/// What a lookup answers. 02 (ii): a found answer carries the offset in the deciding bucket too.
#[derive(Clone, Copy, Debug, PartialEq, Eq)]
pub struct Lookup {
    pub id: Option<u32>,
    pub buckets: u32,
    pub offset: u32,
    /// All n buckets were read and none decided: there the Rust never returns.
    pub unending: bool,
}

enum Seen {
    Pass,
    Nothing,
    Found { id: u32, offset: u32 },
}

// An entry whose first 8 bytes or name leave the image, or whose length word is 0, has none.
fn entry_name(image: &[u8], at: u64) -> Option<(usize, usize)> {
    let size = image.len() as u64;
    if at + 8 > size {
        return None;
    }
    let length = word(image, at as usize + 4) as u64;
    if length == 0 || at + 8 + (length - 1) > size {
        return None;
    }
    Some((at as usize + 8, length as usize - 1))
}

fn see(image: &[u8], name: &[u8], h: u32, bucket: usize) -> Seen {
    let at = word(image, bucket + 4);
    if at == 0 {
        return Seen::Nothing;
    }
    if word(image, bucket) != h {
        return Seen::Pass;
    }
    match entry_name(image, at as u64) {
        None => Seen::Nothing,
        Some((start, len)) if &image[start..start + len] == name => {
            Seen::Found { id: word(image, at as usize), offset: at }
        }
        Some(_) => Seen::Pass,
    }
}

// The name's hash, and offset and bucket number of its table; none where no bucket is read.
fn searched(hash: fn(&[u8]) -> u32, image: &[u8], name: &[u8]) -> Option<(u32, u64, u64)> {
    if image.len() < HEAD || name.len() as u64 > LONGEST {
        return None;
    }
    let h = hash(name);
    let (offset, n) = table(image, h as usize % 256);
    let none = offset == 0 || n == 0 || table_leaves(image, (offset, n));
    (!none).then_some((h, offset, n))
}

/// Looking up a name.
pub fn to_id(image: &[u8], name: &[u8]) -> Lookup {
    to_id_by(hash, image, name)
}

/// The same by a hash that is handed in, where lookup3 is not linked.
pub fn to_id_by(hash: fn(&[u8]) -> u32, image: &[u8], name: &[u8]) -> Lookup {
    let nothing = Lookup { id: None, buckets: 0, offset: 0, unending: false };
    let Some((h, offset, n)) = searched(hash, image, name) else { return nothing };
    let start = (h as u64 / 256) % n;
    for read in 0..n {
        let bucket = offset + 8 * ((start + read) % n);
        let buckets = read as u32 + 1;
        match see(image, name, h, bucket as usize) {
            Seen::Pass => {}
            Seen::Nothing => return Lookup { buckets, ..nothing },
            Seen::Found { id, offset } => return Lookup { id: Some(id), buckets, offset, unending: false },
        }
    }
    Lookup { buckets: n as u32, unending: true, ..nothing }
}

/// The entry at an offset: its id and the place of its name.
#[allow(dead_code)]
pub fn entry(image: &[u8], offset: u32) -> Option<(u32, (usize, usize))> {
    let place = entry_name(image, offset.into()).filter(|_| offset > 0)?;
    Some((word(image, offset as usize), place))
}

/// The table in which a hash is sought: its number of buckets and its offset; none where no bucket is read.
#[allow(dead_code)]
pub fn table_of(image: &[u8], h: u32) -> Option<(u64, u64)> {
    let (offset, number) = (image.len() >= HEAD).then(|| table(image, h as usize % 256))?;
    (offset > 0 && number > 0 && !table_leaves(image, (offset, number))).then_some((number, offset))
}

/// Naming an id: the place of the name.
pub fn to_str(image: &[u8], id: u32) -> Option<(usize, usize)> {
    if image.len() < HEAD || back_offset(image) == 0 || back_leaves(image) || id as u64 >= back_size(image) {
        return None;
    }
    match word(image, (back_offset(image) + 4 * id as u64) as usize) {
        0 => None,
        at => entry_name(image, at as u64),
    }
}

/// The panel's reading of an id (02 (v)): the name up to its first zero byte or else its end.
pub fn panel(image: &[u8], id: u32) -> Option<(usize, usize)> {
    let (start, len) = to_str(image, id)?;
    let shown = image[start..start + len].iter().take_while(|&&b| b != 0).count();
    Some((start, shown))
}

/// Do both readings agree on every id below back size (02 (v))? Where no back array can be read, no id has a name.
pub fn readings_agree(image: &[u8]) -> bool {
    upper_hint(image, 0) == 0 || (0..back_size(image) as u32).all(|id| panel(image, id) == to_str(image, id))
}

/// The upper hint of a walk that stands before the id `next`.
pub fn upper_hint(image: &[u8], next: u32) -> u32 {
    if image.len() < HEAD || back_offset(image) == 0 || back_leaves(image) {
        return 0;
    }
    back_size(image).saturating_sub(next as u64) as u32
}

/// 02 (vi): the ids of the entries met in a name's search that have this name. The search goes on past an equal name until an
/// empty bucket, a broken entry or all buckets are read.
pub fn met(image: &[u8], name: &[u8]) -> Vec<u32> {
    let mut ids = Vec::new();
    let Some((h, offset, n)) = searched(hash, image, name) else { return ids };
    for read in 0..n {
        let bucket = offset + 8 * (((h as u64 / 256) + read) % n);
        match see(image, name, h, bucket as usize) {
            Seen::Pass => {}
            Seen::Nothing => break,
            Seen::Found { id, .. } => ids.push(id),
        }
    }
    ids
}

/// 02 (vi), the home check: yes exactly when the id has a name and some entry met in that name's search has this name and this
/// id.
pub fn home(image: &[u8], id: u32) -> bool {
    to_str(image, id).is_some_and(|(start, len)| met(image, &image[start..start + len]).contains(&id))
}
