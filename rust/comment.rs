//! The `.comment` section of an archive's objects: there the kit writes the sum of the logic with which it proved them.

/// What the objects of an archive say, the same in all of them.
pub fn of_archive(archive: &[u8]) -> Result<String, String> {
    let objects = objects(archive).ok_or("it is no archive of objects")?;
    let comments: Option<Vec<&[u8]>> = objects.into_iter().map(comment).collect();
    let comments = comments.ok_or("an object has no section .comment")?;
    match comments.split_first() {
        Some((first, rest)) if rest.iter().all(|other| other == first) => {
            let text = String::from_utf8_lossy(first);
            Ok(text.split('\0').filter(|part| !part.is_empty()).collect::<Vec<_>>().join(", "))
        }
        Some(_) => Err("its objects were proved with different kits".to_string()),
        None => Err("it has no object".to_string()),
    }
}

/// The objects of an archive: behind eight letters each file has a head of 60 bytes, its length in decimal digits at
/// 48, and begins at an even offset. The names that begin with a slash are the archive's own tables.
fn objects(archive: &[u8]) -> Option<Vec<&[u8]>> {
    let mut rest = archive.strip_prefix(b"!<arch>\n")?;
    let mut objects = Vec::new();
    while !rest.is_empty() {
        let head = rest.get(..60)?;
        let length: usize = std::str::from_utf8(&head[48..58]).ok()?.trim().parse().ok()?;
        let file = rest.get(60..60 + length)?;
        if !head.starts_with(b"/ ") && !head.starts_with(b"// ") {
            objects.push(file);
        }
        rest = rest.get(60 + length + length % 2..).unwrap_or(&[]);
    }
    Some(objects)
}

/// The section `.comment` of an object of x86-64: the head says at 40 where the heads of the sections are, at 58 how
/// long each is, at 60 how many there are, and at 62 which of them holds their names.
fn comment(object: &[u8]) -> Option<&[u8]> {
    let number = |at: usize, bytes: usize| -> Option<usize> {
        object.get(at..at + bytes).map(|part| part.iter().rev().fold(0, |sum, byte| sum << 8 | usize::from(*byte)))
    };
    let (heads, length, count, names) = (number(40, 8)?, number(58, 2)?, number(60, 2)?, number(62, 2)?);
    let part = |section: usize| -> Option<&[u8]> {
        let head = heads + section * length;
        let start = number(head + 24, 8)?;
        object.get(start..start.checked_add(number(head + 32, 8)?)?)
    };
    let names = part(names)?;
    let is_comment = |section: &usize| {
        let name = number(heads + section * length, 4).and_then(|name| names.get(name..));
        name.is_some_and(|name| name.starts_with(b".comment\0"))
    };
    part((0..count).find(is_comment)?)
}
