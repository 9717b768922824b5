// The printed catalogue of an image: ours in one call; the Rust's names, each printed by one `write!` of the same format.
use crate::archive;
use crate::names::Names;
use crate::reading::image;
use crate::table::{self, best};
use cqdb::CQDB;
use std::fmt::Write;
use std::hint::black_box;

// The name as it is printed goes to `shown`, which is used again for each line.
fn line(out: &mut String, shown: &mut String, id: u32, name: Option<&[u8]>) {
    shown.clear();
    match name {
        Some(name) => {
            shown.extend(name.iter().take(32).map(|b| if (32..=126).contains(b) { *b as char } else { '.' }));
        }
        None => shown.push_str("--------------------------------"),
    }
    let sign = if name.is_some_and(|name| name.len() > 32) { '+' } else { ' ' };
    writeln!(out, "{id:>10} {shown:<32}{sign}").expect("a text in memory");
}

pub fn run() {
    let n = 4_096;
    for length in [9, 16, 40] {
        let image = image(&Names::new('p', length, 0..n).all());
        let db = CQDB::new(&image).expect("an image");
        let mut page = vec![0; 45 * n];
        let mut text = String::with_capacity(45 * n);
        let mut shown = String::with_capacity(32);
        let ours = || assert_eq!(archive::page(black_box(&image), &mut page).length, 45 * n as u64);
        let rust = || {
            text.clear();
            for id in 0..n as u32 {
                line(&mut text, &mut shown, id, black_box(&db).to_str(id).map(|name| &**name));
            }
            black_box(&text);
        };
        let times = best(3_000, n, ours, rust);
        assert!(page == text.as_bytes(), "both printed one page");
        table::row(&format!("page, a line of {n}, {length} bytes"), times, None);
    }
}
