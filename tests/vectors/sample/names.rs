// Names of three and four letters by table and first bucket, for lists whose names collide.
use crate::hash::jhash;

pub struct Names {
    all: Vec<(u32, Vec<u8>)>,
}

pub fn hash_of(name: &[u8]) -> u32 {
    jhash(name, name.len() as u32 + 1, 0)
}

fn letters(n: usize, mut number: usize) -> Vec<u8> {
    let mut name = vec![b'a'; n];
    for letter in name.iter_mut() {
        *letter += (number % 26) as u8;
        number /= 26;
    }
    name
}

impl Names {
    pub fn new() -> Names {
        let three = (0..26usize.pow(3)).map(|i| letters(3, i));
        let four = (0..26usize.pow(4)).map(|i| letters(4, i));
        Names { all: three.chain(four).map(|name| (hash_of(&name), name)).collect() }
    }

    fn first(&self, count: usize, wanted: impl Fn(u32) -> bool) -> Vec<Vec<u8>> {
        self.all.iter().filter(|(h, _)| wanted(*h)).take(count).map(|(_, name)| name.clone()).collect()
    }

    /// Names of one table.
    pub fn of_table(&self, table: u32, count: usize) -> Vec<Vec<u8>> {
        self.first(count, |h| h % 256 == table)
    }

    /// Names of one table whose searches all begin at one bucket of n.
    pub fn of_bucket(&self, table: u32, n: u32, bucket: u32, count: usize) -> Vec<Vec<u8>> {
        self.first(count, |h| h % 256 == table && h / 256 % n == bucket)
    }

    /// Pairs of names with one hash.
    pub fn twins(&self) -> Vec<[Vec<u8>; 2]> {
        let mut sorted = self.all.clone();
        sorted.sort();
        let pairs = sorted.windows(2).filter(|w| w[0].0 == w[1].0);
        pairs.map(|w| [w[0].1.clone(), w[1].1.clone()]).collect()
    }
}
