//! Names as text.
#![allow(clippy::cmp_owned, clippy::op_ref, clippy::comparison_to_empty, clippy::nonminimal_bool)]
use std::borrow::Cow;
use std::collections::BTreeMap;

use cqdb::{BStr, BString};

#[test]
fn comparing() {
    let name = BStr::new("crane");
    assert!(name == "crane" && *name == *"crane" && "crane" == name && *"crane" == *name);
    assert!(name == b"crane" && *name == b"crane"[..] && *name == *b"crane" && *b"crane" == *name);
    assert!(name == "crane".to_string() && name == b"crane".to_vec() && *name == "crane" && *name == &b"crane"[..]);
    assert!(name != "Crane" && name != b"cran" && name != "crane ".to_string() && BStr::new("") == "");
    assert!(*name < "crane ".to_string() && *name > b"bollard"[..] && *"quay" > *name && name < BStr::new("d"));
}

#[test]
fn as_bytes_and_as_text() {
    let name = BStr::new(b"mole\xff");
    assert_eq!((name.len(), name[4], name.to_vec()), (5, 0xff, b"mole\xff".to_vec()));
    assert_eq!((name.to_str().is_err(), name.to_str_lossy().into_owned()), (true, "mole\u{fffd}".to_string()));
    assert_eq!(BStr::new("Grüße").to_str(), Ok("Grüße"));
    let from: [&BStr; 4] = ["a".into(), b"a".into(), b"a"[..].into(), "a".as_ref()];
    assert!(from.iter().all(|name| *name == "a") && <&BStr>::default().is_empty());
    let mut ids = BTreeMap::new();
    ids.insert(name.to_owned(), 7);
    assert_eq!(ids.get(name), Some(&7));
}

#[test]
fn owned_and_in_part() {
    let name = BStr::new("north wall");
    let boxed: Box<BStr> = Box::<[u8]>::from(&b"north wall"[..]).into();
    assert_eq!((&*boxed.clone(), &*boxed), (name, name));
    assert_eq!(&*Box::<[u8]>::from(boxed), b"north wall");
    let either: [Cow<'_, BStr>; 2] = [name.into(), BString::from("north wall").into()];
    assert!(either.iter().all(|held| name == *held && *held == name));
    assert!(
        name == Cow::Borrowed("north wall")
            && Cow::Borrowed(&b"north wall"[..]) == name
            && name != Cow::Borrowed("north")
    );
    assert_eq!(
        (&name[..5], &name[6..], &name[6..=7], name[0]),
        (BStr::new("north"), BStr::new("wall"), BStr::new("wa"), b'n')
    );
    assert_eq!((<&str>::try_from(name), String::try_from(name)), (Ok("north wall"), Ok("north wall".to_string())));
    assert_eq!(<&str>::try_from(BStr::new(b"a\xff")).unwrap_err().valid_up_to(), 1);
    let ids: BTreeMap<String, u32> = [("north wall".to_string(), 7)].into();
    assert_eq!((ids.get(name), ids.get(BStr::new("north"))), (Some(&7), None));
}

#[test]
fn owned() {
    let name = BString::new(b"mole\xff".to_vec());
    let same: [BString; 5] = [
        b"mole\xff".into(),
        b"mole\xff"[..].into(),
        BStr::new(b"mole\xff").into(),
        [&b"mole"[..], b"\xff"].into_iter().collect(),
        b"mole\xff".iter().copied().collect(),
    ];
    assert!(same.iter().all(|other| *other == name && name == b"mole\xff" && name == BStr::new(other)));
    assert!(name > "mole".to_string() && *"mole" < name && name != b"mole".to_vec() && name != "mole");
    let text: BString = ["no", "rth"].into_iter().collect();
    assert_eq!(
        (String::try_from(text.clone()), "north".parse::<BString>()),
        (Ok("north".to_string()), Ok(text.clone()))
    );
    assert_eq!("north".chars().collect::<BString>(), [text.clone()].into_iter().collect::<BString>());
    assert!(String::try_from(name.clone()).is_err() && <&str>::try_from(&name).is_err());
    assert_eq!(<&str>::try_from(&text), Ok("north"));
    assert_eq!((Vec::from(name.clone()), Cow::from(&name)), (b"mole\xff".to_vec(), Cow::from(BStr::new(b"mole\xff"))));
    assert_eq!(format!("[{name}] [{name:?}] [{text:>6}]"), "[mole\u{fffd}] [\"mole\\xff\"] [ north]");
    let ids: BTreeMap<BString, u32> = [(text, 7)].into();
    assert_eq!((ids.get(BStr::new("north")), ids.get(&b"north"[..])), (Some(&7), Some(&7)));
}

#[test]
fn as_printed() {
    let shown = |bytes: &[u8]| format!("{0} {0:?}", BStr::new(bytes));
    assert_eq!(shown(b"a\xffb"), "a\u{fffd}b \"a\\xffb\"");
    assert_eq!(shown(b"\xf0\x9f"), "\u{fffd} \"\\xf0\\x9f\"");
    assert_eq!(shown(b"\0\t\"\x1b"), "\0\t\"\x1b \"\\0\\t\\\"\\u{1b}\"");
    assert_eq!(format!("[{:-<5}] [{:>5}] [{1:^6}]", BStr::new("ab"), BStr::new("cd")), "[ab---] [   cd] [  cd  ]");
}
