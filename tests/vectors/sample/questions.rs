// The Rust's answers on an image, as lines.
use crate::names::hash_of;
use crate::{hex, numbered, original};
use cqdb::CQDB;

pub struct Questions {
    pub asked: usize,
}

fn word(image: &[u8], at: usize) -> u32 {
    u32::from_le_bytes(image[at..at + 4].try_into().expect("four bytes"))
}

// Does the Rust's search for a name end? It never does where no bucket of the table is empty and none decides.
fn ends(image: &[u8], name: &[u8]) -> bool {
    let h = hash_of(name);
    let row = 24 + 8 * (h % 256) as usize;
    let (at, n) = (word(image, row) as usize, word(image, row + 4));
    let decides = |k: u32| {
        let bucket = at + 8 * k as usize;
        let entry = word(image, bucket + 4) as usize;
        entry == 0 || (word(image, bucket) == h && entry_decides(image, entry, name))
    };
    at == 0 || n == 0 || (0..n).any(decides)
}

// Does an entry decide the search? It does where it leaves the image, has length word 0 or has the name.
fn entry_decides(image: &[u8], entry: usize, name: &[u8]) -> bool {
    if image.len() < entry + 8 || word(image, entry + 4) == 0 {
        return true;
    }
    match image.get(entry + 8..entry + 7 + word(image, entry + 4) as usize) {
        Some(there) => there == name,
        None => true,
    }
}

// The lookup of a name; none where the name is not UTF-8 or the Rust's search never ends.
fn to_id(db: &CQDB, image: &[u8], name: &[u8]) -> Option<Option<u32>> {
    let text = std::str::from_utf8(name).ok()?;
    ends(image, name).then(|| db.to_id(text))
}

impl Questions {
    pub fn new() -> Questions {
        Questions { asked: 0 }
    }

    fn line(&mut self, line: String) {
        println!("{}", line.trim_end());
        self.asked += 1;
    }

    pub fn about(&mut self, image: &[u8], names: &[Vec<u8>], ids: &[u32]) {
        match original::open(image) {
            Ok(db) => {
                self.line(format!("open {:08x}", db.num()));
                for name in names {
                    self.lookup(&db, image, name);
                }
                for id in ids {
                    self.naming(&db, image, *id);
                }
                self.walk(&db);
            }
            Err(refusal) => self.line(format!("fail {refusal:08x}")),
        }
    }

    fn lookup(&mut self, db: &CQDB, image: &[u8], name: &[u8]) {
        match to_id(db, image, name) {
            Some(Some(id)) => self.line(numbered("find", id, name)),
            Some(None) => self.line(format!("miss {}", hex(name))),
            None => {}
        }
    }

    // The name of an id, and whether the id is home: it is where the name finds it, and is not where the name finds nothing.
    // Where the name finds another id, the Rust cannot tell.
    fn naming(&mut self, db: &CQDB, image: &[u8], id: u32) {
        let Some(name) = db.to_str(id) else {
            self.line(format!("void {id:08x}"));
            return;
        };
        self.line(numbered("name", id, name));
        match to_id(db, image, name) {
            Some(Some(found)) if found == id => self.line(format!("home {id:08x}")),
            Some(None) => self.line(format!("away {id:08x}")),
            _ => {}
        }
    }

    // All steps with the hint before each, and a step past the end.
    fn walk(&mut self, db: &CQDB) {
        println!("walk");
        let mut iter = db.iter();
        for _ in 0..2 {
            loop {
                self.line(format!("left {:08x}", iter.size_hint().1.expect("an upper hint")));
                match iter.next() {
                    Some(item) => {
                        let (id, name) = item.expect("an item");
                        self.line(numbered("item", id, name));
                    }
                    None => break,
                }
            }
            self.line("ends".to_string());
        }
    }
}
