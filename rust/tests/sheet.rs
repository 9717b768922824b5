//! The round sheet, through the safe calls.
use cqdb::{Refusal, Sheet};

fn written(references: &[u32], walls: &[u32], retired: &[u32]) -> Vec<u8> {
    let mut file = vec![0xee; 6 + 4 * (references.len() + walls.len() + retired.len())];
    let length = Sheet::write(&mut file, references, walls, retired);
    assert_eq!(length, Ok(file.len()));
    file
}

#[test]
fn bytes_of_a_sheet() {
    assert_eq!(written(&[], &[], &[]), [0; 6]);
    let file = written(&[0x0403_0201], &[], &[u32::MAX, 0]);
    assert_eq!(file, [1, 0, 1, 2, 3, 4, 0, 0, 2, 0, 255, 255, 255, 255, 0, 0, 0, 0]);
}

#[test]
fn reads_back() {
    let file = written(&[7, u32::MAX], &[8], &[0x8000_0001, 9, 10]);
    let sheet = Sheet::read(&file).unwrap();
    assert_eq!(sheet.references().collect::<Vec<_>>(), [7, u32::MAX]);
    assert_eq!(sheet.walls().collect::<Vec<_>>(), [8]);
    assert_eq!(sheet.retired().collect::<Vec<_>>(), [0x8000_0001, 9, 10]);
    assert_eq!(
        (0..4).map(|i| sheet.retired().get(i)).collect::<Vec<_>>(),
        [Some(0x8000_0001), Some(9), Some(10), None]
    );
    assert_eq!([sheet.references().len(), sheet.walls().len(), sheet.retired().len()], [2, 1, 3]);
}

#[test]
fn parts_are_lent_from_the_file() {
    let file = written(&[], &[5], &[]);
    let sheet = Sheet::read(&file).unwrap();
    assert_eq!(sheet.walls().part(), &file[4..8]);
    assert_eq!(sheet.walls().part().as_ptr(), file[4..].as_ptr());
    // an empty section's part stands right behind its count
    assert_eq!([sheet.references().part().len(), sheet.retired().part().len()], [0, 0]);
    assert_eq!(sheet.references().part().as_ptr(), file[2..].as_ptr());
    assert_eq!(sheet.retired().part().as_ptr(), file[10..].as_ptr());
}

#[test]
fn an_iterator_that_stays_at_its_end() {
    let file = written(&[1, 2], &[], &[]);
    let mut ids = Sheet::read(&file).unwrap().references();
    assert_eq!((ids.size_hint(), ids.next(), ids.get(0), ids.len()), ((2, Some(2)), Some(1), Some(2), 1));
    assert_eq!([ids.next(), ids.next(), ids.next()], [Some(2), None, None]);
}

#[test]
fn cut_and_longer_files() {
    let file = written(&[1], &[2, 3], &[4]);
    for cut in 0..file.len() {
        assert_eq!(Sheet::read(&file[..cut]), Err(Refusal::TooFewBytes), "{cut} bytes");
    }
    let longer = [&file[..], &[0]].concat();
    assert_eq!(Sheet::read(&longer), Err(Refusal::LeftOverBytes));
    assert!(Sheet::read(&longer[..file.len()]).is_ok());
}

#[test]
fn the_longest_lists() {
    let most: Vec<u32> = (0..65_535).map(|i| i * 65_537).collect();
    let file = written(&most, &most, &most);
    assert_eq!(file.len(), 786_426);
    assert!(Sheet::read(&file).unwrap().walls().eq(most.iter().copied()));
    let more = vec![0; 65_536];
    let mut buf = vec![0xee; 1 << 20];
    for (a, b, c) in [(&more[..], &[][..], &[][..]), (&[], &more, &[]), (&[], &[], &more)] {
        assert_eq!(Sheet::write(&mut buf, a, b, c), Err(Refusal::SheetTooLarge));
    }
    assert!(buf.iter().all(|byte| *byte == 0xee));
}

#[test]
fn buffers() {
    let mut buf = [0xee; 11];
    assert_eq!(Sheet::write(&mut buf[..9], &[1], &[], &[]), Err(Refusal::SheetTooLarge));
    assert_eq!(buf, [0xee; 11]);
    assert_eq!(Sheet::write(&mut buf, &[1], &[], &[]), Ok(10));
    assert_eq!(buf, [1, 0, 1, 0, 0, 0, 0, 0, 0, 0, 0xee]);
    assert_eq!(
        [Refusal::TooFewBytes, Refusal::LeftOverBytes, Refusal::SheetTooLarge].map(Refusal::number),
        [19, 20, 21]
    );
}
