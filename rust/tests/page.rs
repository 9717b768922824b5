//! The printed catalogue, through the safe calls.
use cqdb::{Flag, MemoryWriter, Page, Refusal, CQDB};

fn image(puts: &[(&[u8], u32)]) -> Vec<u8> {
    let mut writer = MemoryWriter::new();
    for (name, id) in puts {
        writer.put(name, *id).unwrap();
    }
    writer.finish().unwrap()
}

/// The line of id 0 that has this name, without the number in front.
fn shown(name: &[u8]) -> String {
    Page::new(&image(&[(name, 0)])).to_string()[10..].into()
}

#[test]
fn gaps_have_hyphens() {
    let image = image(&[(b"A", 0), (b"B", 3), (b"C", 0)]);
    let page = CQDB::new(&image).unwrap().page();
    let hyphens = "-".repeat(32);
    let wanted = format!("{:>10} {:<33}\n{:>10} {hyphens} \n{:>10} {hyphens} \n{:>10} {:<33}\n", 0, "C", 1, 2, 3, "B");
    assert_eq!(page.to_string(), wanted);
    assert_eq!(page.to_vec(), wanted.as_bytes());
    assert_eq!((page.len(), page.is_empty()), (4 * 45, false));
}

#[test]
fn names_of_31_32_and_33_bytes() {
    let name = b"abcdefghijklmnopqrstuvwxyz0123456";
    assert_eq!(shown(&name[..31]), " abcdefghijklmnopqrstuvwxyz01234  \n");
    assert_eq!(shown(&name[..32]), " abcdefghijklmnopqrstuvwxyz012345 \n");
    assert_eq!(shown(&name[..33]), " abcdefghijklmnopqrstuvwxyz012345+\n");
    assert_eq!(shown(b""), format!("{:34}\n", ""));
    assert_eq!(shown(&[b'-'; 32]), format!(" {} \n", "-".repeat(32)));
}

#[test]
fn bytes_outside_32_to_126() {
    assert_eq!(&shown(&[1, 10, 31, 32, 33, 125, 126, 127, 128, 255])[..11], " ... !}~...");
    assert_eq!(&shown("été".as_bytes())[..6], " ..t..");
}

#[test]
fn an_output_that_is_too_short() {
    let image = image(&[(b"A", 0), (b"B", 1)]);
    let page = Page::new(&image);
    let mut short = [7; 89];
    assert_eq!(page.print(&mut short), Err(Refusal::PageTooLong));
    assert_eq!((short, Refusal::PageTooLong.number()), ([7; 89], 12));
    let mut long = [7; 100];
    assert_eq!(page.print(&mut long), Ok(90));
    assert_eq!((&long[..90], &long[90..]), (&page.to_vec()[..], &[7; 10][..]));
}

#[test]
fn no_line() {
    let oneway = {
        let mut writer = MemoryWriter::with_flag(Flag::ONEWAY);
        writer.put("A", 0).unwrap();
        writer.finish().unwrap()
    };
    let mut head = image(&[]);
    head[16..20].copy_from_slice(&u32::MAX.to_le_bytes());
    for bytes in [&[][..], &[0; 2071], &oneway, &head] {
        let page = Page::new(bytes);
        assert_eq!((page.len(), page.to_string(), page.print(&mut [])), (0, String::new(), Ok(0)));
    }
}

#[test]
fn any_writer_takes_it() {
    let image = image(&[(b"A", 0)]);
    let mut text = String::from("catalogue\n");
    Page::new(&image).write_to(&mut text).unwrap();
    assert_eq!(text, format!("catalogue\n{:>10} {:<33}\n", 0, "A"));
}
