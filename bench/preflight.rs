// May a report leave: 4,096 names, a round of 512 and its sheet, with one changed name, which is an intended rename; and as a first report.
// The Rust has no such call, so it is timed alone.
use crate::archive;
use crate::names::Names;
use crate::reading::image;
use crate::table::{self, least};
use std::hint::black_box;

const NAMES: usize = 4_096;
const ROUND: u32 = 512;

pub fn run() {
    let first = Names::new('n', 9, 0..NAMES);
    let mut names = first.all();
    let old = image(&names);
    names[77] = "another";
    let new = image(&names);
    let round: Vec<u32> = (0..ROUND).map(|i| i * 7 % ROUND).collect();
    let mut sheet = vec![0; 6 + 4 * ROUND as usize];
    assert_eq!(archive::sheet_write(&mut sheet, [&round[..12], &round[12..], &[]]).refusal, 0);
    let report = || {
        let answer = archive::preflight(black_box(&old), black_box(&new), &sheet, &round, &[77]);
        assert_eq!((answer.question, answer.compared), (0, u64::from(ROUND)));
    };
    let alone = || assert_eq!(archive::preflight_first(black_box(&new), &sheet, &round).question, 0);
    table::own_row("report of 512 ids by 4096 names, one changed, an id", least(40, ROUND as usize, report));
    table::own_row("first report of 512 ids by 4096 names, an id", least(40, ROUND as usize, alone));
}
