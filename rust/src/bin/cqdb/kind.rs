//! What a file holds, so that no command takes one kind for another.
use cqdb::{Bundle, Sheet, CQDB};

/// What a command writes.
#[derive(Clone, Copy, PartialEq, Eq)]
pub enum Kind {
    /// One image.
    Image,
    /// A round sheet.
    Sheet,
}

impl Kind {
    /// May a file with these bytes be replaced by one of this kind? An empty file may.
    pub fn may_replace(self, bytes: &[u8]) -> bool {
        match self {
            _ if bytes.is_empty() => true,
            Kind::Image => bytes.starts_with(LETTERS) && size_word(bytes).map_or(true, |size| size >= bytes.len()),
            Kind::Sheet => Sheet::read(bytes).is_ok(),
        }
    }

    /// Does a file of this kind say nothing? A damaged image does not.
    pub fn is_bare(self, bytes: &[u8]) -> bool {
        match self {
            Kind::Image => bytes.is_empty() || CQDB::new(bytes).is_ok_and(|db| db.num() == 0),
            Kind::Sheet => bytes.iter().all(|byte| *byte == 0),
        }
    }

    /// What stands in a file that may not be replaced by one of this kind.
    pub fn what_is_not_replaced(self, bytes: &[u8]) -> String {
        match images(bytes) {
            Images::Several(images) => format!("a bundle of {images} images"),
            Images::Broken => "a broken bundle".to_string(),
            Images::One => format!("a file that is not {}", self.in_words()),
        }
    }

    pub fn in_words(self) -> &'static str {
        match self {
            Kind::Image => "an image",
            Kind::Sheet => "a round sheet",
        }
    }
}

const LETTERS: &[u8] = b"CQDB";

/// How many bytes an image says that it has; none where the bytes end before that.
fn size_word(bytes: &[u8]) -> Option<usize> {
    Bundle::new(bytes).first_size().map(|size| size as usize)
}

/// What stands in a file behind its first image.
#[derive(Clone, Copy, PartialEq, Eq)]
pub enum Images {
    /// No further image.
    One,
    /// So many images in all.
    Several(u64),
    /// An image begins behind the first, and the images do not lie back to back up to the end.
    Broken,
}

/// How many images a file has. The bytes behind the first image are looked at only where the file is longer than it.
pub fn images(bytes: &[u8]) -> Images {
    let Some(size) = size_word(bytes).filter(|size| *size < bytes.len()) else { return Images::One };
    match Bundle::new(bytes).count() {
        Ok(0 | 1) => Images::One,
        Ok(images) => Images::Several(images),
        Err(_) if bytes[size..].starts_with(LETTERS) => Images::Broken,
        Err(_) => Images::One,
    }
}
