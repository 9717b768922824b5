// The lists of puts, and the images that the Rust's writer makes of them.
use crate::names::{hash_of, Names};
use crate::Random;
use cqdb::{CQDBWriter, Flag};
use std::io::Cursor;

const HEAD: usize = 2072;
const COUNT: usize = 240;

pub struct List {
    pub title: String,
    pub oneway: bool,
    pub length: usize,
    pub puts: Vec<(u32, Vec<u8>)>,
}

impl List {
    fn new(title: &str, oneway: bool, puts: Vec<(u32, Vec<u8>)>) -> List {
        let mode = if oneway { "one-way" } else { "two-way" };
        List { title: format!("{mode}, {title}"), oneway, length: 0x2000, puts }
    }

    fn in_bytes(mut self, length: usize) -> List {
        self.title = format!("{}, in {length} bytes", self.title);
        self.length = length;
        self
    }

    /// The same list with a digit in place of each zero byte of a name: put refuses a name with a zero byte, and the Rust
    /// takes it. The images to be read keep theirs.
    pub fn zero_free(&self) -> List {
        let digit = |b: &u8| if *b == 0 { b'0' } else { *b };
        let puts = self.puts.iter().map(|(id, name)| (*id, name.iter().map(digit).collect())).collect();
        List { title: self.title.clone(), puts, ..*self }
    }

    // The finished size of the entries so far.
    fn size(&self, puts: &[&(u32, Vec<u8>)]) -> usize {
        let entries: usize = puts.iter().map(|(_, name)| 25 + name.len()).sum();
        let back = puts.iter().map(|(id, _)| *id as usize + 1).max().unwrap_or(0);
        HEAD + entries + if self.oneway { 0 } else { 4 * back }
    }

    /// Which puts find room. The Rust gets only those, since its stream has no end.
    pub fn accepted(&self) -> Vec<bool> {
        let mut kept = Vec::new();
        let mut accepted = Vec::new();
        for put in &self.puts {
            kept.push(put);
            accepted.push(self.size(&kept) <= self.length);
            if !accepted[accepted.len() - 1] {
                kept.pop();
            }
        }
        accepted
    }

    pub fn entries(&self) -> Vec<&(u32, Vec<u8>)> {
        self.puts.iter().zip(self.accepted()).filter(|(_, accepted)| *accepted).map(|(put, _)| put).collect()
    }

    /// The image that the Rust's writer makes.
    pub fn image(&self) -> Vec<u8> {
        let mut bytes = Vec::new();
        let flag = if self.oneway { Flag::ONEWAY } else { Flag::NONE };
        let mut writer = CQDBWriter::with_flag(Cursor::new(&mut bytes), flag).expect("a writer");
        for (id, name) in self.entries() {
            writer.put(name, *id).expect("a put");
        }
        drop(writer);
        assert_eq!(bytes.len(), self.size(&self.entries()), "{}", self.title);
        bytes
    }

    /// Names to look up: those of the list, and others of the same tables.
    pub fn asked_names(&self, names: &Names) -> Vec<Vec<u8>> {
        let mut asked: Vec<Vec<u8>> = Vec::new();
        for (_, name) in self.puts.iter() {
            let others = names.of_table(hash_of(name) % 256, 20);
            let other = others.into_iter().find(|n| self.puts.iter().all(|(_, m)| m != n));
            asked.extend([Some(name.clone()), other.filter(|_| asked.len() < 8)].into_iter().flatten());
        }
        asked.extend([b"".to_vec(), b"absent".to_vec()]);
        let mut seen = std::collections::HashSet::new();
        asked.retain(|name| name.len() < 64 && seen.insert(name.clone()));
        asked
    }

    /// Ids to name: those of the list, a gap or two, and others past the end.
    pub fn asked_ids(&self) -> Vec<u32> {
        let mut asked: Vec<u32> = self.puts.iter().map(|(id, _)| *id).collect();
        asked.extend(self.puts.iter().map(|(id, _)| id.wrapping_add(1)).take(2));
        asked.extend([0, u32::MAX]);
        asked.sort();
        asked.dedup();
        asked
    }
}

fn named(puts: &[(u32, &str)]) -> Vec<(u32, Vec<u8>)> {
    puts.iter().map(|(id, name)| (*id, name.as_bytes().to_vec())).collect()
}

// Ids from 0 on.
fn counted(names: Vec<Vec<u8>>) -> Vec<(u32, Vec<u8>)> {
    (0..).zip(names).collect()
}

fn examples() -> Vec<List> {
    let two = |title, puts: &[(u32, &str)]| List::new(title, false, named(puts));
    let one = |title, puts: &[(u32, &str)]| List::new(title, true, named(puts));
    vec![
        two("no put", &[]),
        one("no put", &[]),
        two("A and B with a gap", &[(0, "A"), (3, "B")]),
        one("A and B with a gap", &[(0, "A"), (3, "B")]),
        two("the empty name", &[(0, "")]).in_bytes(2101),
        two("the empty name, no room", &[(0, "")]).in_bytes(2100),
        two("the largest id, no room", &[(u32::MAX, "A")]).in_bytes(3000),
        two("one name twice", &[(5, "A"), (9, "A")]),
        one("the largest id", &[(u32::MAX, "A")]).in_bytes(3000),
        two("one id twice", &[(0, "A"), (0, "B")]),
    ]
}

// Names around the ends of words and blocks, and around the size of the Rust's own buffer.
fn lengths() -> Vec<List> {
    let each = [0, 1, 3, 4, 5, 11, 12, 13, 23, 24, 25, 254, 255, 256, 257];
    let name = |n: usize, first: u8| (0..n).map(|i| first + (i % 23) as u8).collect::<Vec<u8>>();
    each.iter()
        .flat_map(|n| [false, true].map(|oneway| List::new(&format!("names of {n} bytes"), oneway, vec![(1, name(*n, b'a')), (0, name(*n, b'A'))])))
        .collect()
}

// Names that share a table and the first bucket of their search: the first, one in the middle, or the last.
fn colliding(names: &Names) -> Vec<List> {
    let mut lists = Vec::new();
    for count in 2..=6 {
        let n = 2 * count as u32;
        for bucket in [0, n / 2, n - 1] {
            let puts = counted(names.of_bucket(17 * n, n, bucket, count));
            lists.push(List::new(&format!("{count} names at bucket {bucket} of {n}"), (count as u32 + bucket) % 3 == 1, puts));
        }
    }
    for (table, oneway) in [(0, false), (1, true), (254, false), (255, false)] {
        lists.push(List::new(&format!("12 names of table {table}"), oneway, counted(names.of_table(table, 12))));
    }
    for twins in names.twins().into_iter().take(6) {
        lists.push(List::new("two names with one hash", false, counted(twins.to_vec())));
    }
    lists
}

// Any list: few names and few ids, so that both repeat, and with gaps between the ids.
fn any(names: &[Vec<u8>], random: &mut Random, most: usize) -> List {
    let count = random.below(most + 1);
    let ids = [4, 12, 40][random.below(3)];
    let puts = (0..count).map(|_| (random.below(ids) as u32, names[random.below(names.len())].clone())).collect();
    List::new(&format!("{count} puts, ids below {ids}"), random.below(4) == 0, puts)
}

// Buffers that a list fills exactly, and buffers that are one byte shorter.
fn exact(names: &[Vec<u8>], random: &mut Random) -> Vec<List> {
    let mut lists = Vec::new();
    for less in [0, 0, 0, 1, 1, 1, 2, 9, 30, 60] {
        for _ in 0..2 {
            let list = any(names, random, 7);
            let full = list.size(&list.entries());
            lists.push(list.in_bytes((full - less).max(HEAD)));
        }
    }
    lists
}

fn some_names(random: &mut Random) -> Vec<Vec<u8>> {
    let mut names: Vec<Vec<u8>> = ["", "A", "B", "quark", "zone", "\u{e9}t\u{e9}", "\u{1f980}", "a\0b", "\0"].iter().map(|n| n.as_bytes().to_vec()).collect();
    for n in [1, 2, 5, 8, 9, 12, 13] {
        names.push((0..n).map(|_| b'a' + random.below(26) as u8).collect());
        names.push((0..n).map(|_| random.below(256) as u8).collect());
    }
    names
}

pub fn all(names: &Names, random: &mut Random) -> Vec<List> {
    let some = some_names(random);
    let mut lists = examples();
    lists.extend(lengths());
    lists.extend(colliding(names));
    lists.extend(exact(&some, random));
    while lists.len() < COUNT {
        lists.push(any(&some, random, 12));
    }
    lists
}
