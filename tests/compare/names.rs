// Names and lists of puts for the comparisons: random ones, and names that are engineered to meet in a table.
#![allow(dead_code)]
use crate::original::Put;
use crate::rules;
use crate::seed::Random;
use std::collections::HashMap;

const POOL: usize = 400_000;
// Around the blocks of the hash, and around what the Rust writes at once.
const LENGTHS: [usize; 11] = [0, 11, 12, 13, 23, 24, 25, 254, 255, 256, 257];

/// Short names, sorted by table, and pairs of them with one hash.
pub struct Names {
    tables: Vec<Vec<(u32, String)>>,
    pub twins: Vec<(String, String)>,
}

impl Names {
    pub fn new(random: &mut Random) -> Names {
        let first = random.below(1 << 30);
        let mut tables = vec![Vec::new(); 256];
        let mut met: HashMap<u32, String> = HashMap::new();
        let mut twins = Vec::new();
        for name in (first..first + POOL).map(|i| format!("q{i:x}")) {
            let h = rules::hash(name.as_bytes());
            tables[h as usize % 256].push((h, name.clone()));
            if let Some(other) = met.insert(h, name.clone()) {
                twins.push((other, name));
            }
        }
        Names { tables, twins }
    }

    /// A name of table t.
    pub fn of_table(&self, random: &mut Random, t: usize) -> Vec<u8> {
        let table = &self.tables[t];
        table[random.below(table.len())].1.clone().into_bytes()
    }

    /// Up to k names that share a table and, where it has k entries, their first bucket.
    pub fn sharing(&self, random: &mut Random, k: usize) -> Vec<Vec<u8>> {
        let n = 2 * k as u32;
        let start = random.word() % n;
        let table = &self.tables[random.below(256)];
        let skip = random.below(table.len() / 2);
        let same = table.iter().skip(skip).filter(|(h, _)| (h / 256) % n == start);
        same.take(k).map(|(_, name)| name.clone().into_bytes()).collect()
    }

    /// Two names with one hash.
    pub fn pair(&self, random: &mut Random) -> (Vec<u8>, Vec<u8>) {
        let (a, b) = &self.twins[random.below(self.twins.len())];
        (a.clone().into_bytes(), b.clone().into_bytes())
    }

    /// The names of a list with up to `most` puts, and how they come to be.
    fn for_list(&self, random: &mut Random, most: usize) -> Vec<Vec<u8>> {
        let n = random.below(most + 1);
        match random.below(8) {
            0 => self.sharing(random, 1 + n / 2),
            1 => {
                let (a, b) = self.pair(random);
                vec![a, b, any(random)]
            }
            2 => {
                let t = random.below(256);
                (0..n).map(|_| self.of_table(random, t)).collect()
            }
            3 => (0..n).map(|i| format!("prism {i}").into_bytes()).collect(),
            _ => (0..n).map(|_| any(random)).collect(),
        }
    }

    /// A list of puts with repeated names and ids, and gaps between the ids.
    pub fn list(&self, random: &mut Random, most: usize) -> Vec<Put> {
        let names = self.for_list(random, most);
        let span = random.pick(&[1, 3, names.len() + 1, 2 * names.len() + 1, 500]);
        let mut puts: Vec<Put> = Vec::new();
        for name in names {
            let repeated = !puts.is_empty() && random.once_in(6);
            let name = if repeated { puts[random.below(puts.len())].0.clone() } else { name };
            let id = if random.once_in(3) { puts.len() } else { random.below(span) };
            puts.push((name, id as u32));
        }
        puts
    }
}

/// The same puts, half of them with a name that was put before, or nearly so.
pub fn repeating(random: &mut Random, names: &Names, mut puts: Vec<Put>) -> Vec<Put> {
    for i in 1..puts.len() {
        if random.once_in(2) {
            let earlier = puts[random.below(i)].0.clone();
            puts[i].0 = near(random, names, earlier);
        }
    }
    puts
}

// A name again; or one byte longer or shorter, with another byte somewhere, or another name of its table.
fn near(random: &mut Random, names: &Names, mut name: Vec<u8>) -> Vec<u8> {
    let n = name.len();
    match random.below(10) {
        0 => name.push(1 + random.below(255) as u8),
        1 => name.truncate(n.saturating_sub(1)),
        2 if n > 0 => name[random.below(n)] ^= 1 << random.below(8),
        3 => name = names.of_table(random, rules::hash(&name) as usize % 256),
        _ => (),
    }
    name
}

/// A name of any bytes, of the lengths that matter, or short. One in six has zero bytes.
pub fn any(random: &mut Random) -> Vec<u8> {
    let n = if random.once_in(3) { random.pick(&LENGTHS) } else { random.below(30) };
    let mut name = without_zero(random, n);
    if n > 0 && random.once_in(6) {
        add_zero(random, &mut name);
    }
    name
}

// A zero byte at the front, in the middle or at the end; or many.
fn add_zero(random: &mut Random, name: &mut [u8]) {
    let n = name.len();
    match random.below(4) {
        0 => name[0] = 0,
        1 => name[random.below(n)] = 0,
        2 => name[n - 1] = 0,
        _ => name.iter_mut().filter(|_| random.once_in(2)).for_each(|b| *b = 0),
    }
}

fn without_zero(random: &mut Random, n: usize) -> Vec<u8> {
    match random.below(4) {
        0 => (0..n).map(|_| 1 + random.below(255) as u8).collect(),
        1 => (0..n).map(|_| random.pick(&[1u8, 1, 2, 255])).collect(),
        2 => utf8(random, n),
        _ => (0..n).map(|_| b'a' + random.below(26) as u8).collect(),
    }
}

// UTF-8 of exactly n bytes: characters of one to four, the last ones of one.
fn utf8(random: &mut Random, n: usize) -> Vec<u8> {
    let mut text = String::new();
    while text.len() < n {
        let c = random.pick(&['A', '\u{1}', 'é', 'ß', '水', '光', '🧭', '𝔮']);
        text.push(if text.len() + c.len_utf8() <= n { c } else { 'z' });
    }
    text.into_bytes()
}
