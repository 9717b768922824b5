//! `cqdb bundle`: several walls in a file.
use std::path::Path;

use cqdb::{Bundle, Refusal};

use crate::args::{Args, Command};
use crate::files::{self, Reading, Source};
use crate::kind::{self, Images, Kind};
use crate::lines;
use crate::outcome::{self, Answer, Failure, Outcome, Output};
use crate::replace::{Locked, Target, FORCE};

pub const COMMAND: Command = Command {
    name: "bundle",
    usage: "[OPTION].. append BUNDLE IMAGE.. | list BUNDLE | extract BUNDLE POSITION IMAGE",
    summary: "keep several images in a file",
    text: "
A bundle holds images one behind the other; an empty file, or one that is not
there yet, holds none. 'append' puts each IMAGE behind the last, or to standard
output where the BUNDLE is called -; runs side by side wait for each other. An
IMAGE may be one of a bundle, as OTHER:1; a whole bundle is not appended.
'list' prints a line for each image: its position from 0, its number of entries
and its size. 'extract' writes the image at a position to a file of its own, or
to standard output where it is called -; the exit status is 1 where the bundle
has no such position. Other commands name the image at position 1 by BUNDLE:1.
",
    options: &[FORCE],
    operands: (2, usize::MAX),
    run,
};

fn run(args: Args) -> Outcome {
    match (args.operand(0).and_then(|word| word.to_str()), args.count()) {
        (Some("append"), 3..) => append(&args),
        (Some("list"), 2) => list(args.path(1)),
        (Some("extract"), 4) => extract(&args),
        _ => Err(Failure::new(format!("say: cqdb bundle {}", COMMAND.usage))),
    }
}

fn refused(path: &Path, refusal: Refusal) -> Failure {
    Failure::new(format!("{}: {}", files::shown(path), files::refusal_in_words(refusal)))
}

/// Puts images behind those of a bundle; standard output has none before.
fn append(args: &Args) -> Outcome {
    let path = args.path(1);
    let sources = (2..args.count()).map(|at| Source::open(args.path(at))).collect::<Result<Vec<_>, Failure>>()?;
    let images =
        sources.iter().map(|image| Ok((image.name(), one_image(image)?))).collect::<Result<Vec<_>, Failure>>()?;
    if path == Path::new("-") {
        let (file, _) = joined(path, &[], &images)?;
        sources.iter().try_for_each(Source::has_stayed)?;
        let mut out = Output::new();
        out.bytes(&file)?;
        return out.finish(Answer::Yes);
    }
    let locked = Locked::open_or_create(path)?;
    let old = locked.bytes()?;
    let before = Bundle::new(&old).count().map_err(|refusal| refused(path, refusal))?;
    let (file, after) = joined(path, &old, &images)?;
    sources.iter().try_for_each(Source::has_stayed)?;
    let images = outcome::count(after, "image", "images");
    locked.replace(&file, &format!("{}: {images}, {} bytes\n", path.display(), file.len()))?;
    if before == 1 {
        let shown = path.display();
        outcome::tell(&format!("bundle: {shown} had one image and is a bundle now: {shown}:0 names that image"));
    }
    Ok(Answer::Yes)
}

/// The bytes of an image that is to be appended. Several images are not one.
fn one_image(image: &Source) -> Result<&[u8], Failure> {
    let (bytes, name) = (image.bytes()?, image.name());
    match kind::images(bytes) {
        Images::One => Ok(bytes),
        Images::Several(images) => Err(Failure::new(format!(
            "{name} is a bundle of {images} images, and an image is appended: {name}:0 to {name}:{} name them",
            images - 1
        ))),
        Images::Broken => Err(Failure::new(format!(
            "{name} is a broken bundle, and an image is appended: {name}:0 names its first (refusal {})",
            Refusal::BrokenBundle.number()
        ))),
    }
}

/// The bundle with images behind its last, and how many it has then.
fn joined(path: &Path, old: &[u8], images: &[(String, &[u8])]) -> Result<(Vec<u8>, u64), Failure> {
    let mut file = Vec::new();
    let length = old.len() + images.iter().map(|(_, image)| image.len()).sum::<usize>();
    outcome::reserve(&mut file, length, || path.display().to_string())?;
    file.extend_from_slice(old);
    for (name, bytes) in images {
        Bundle::append(&mut file, bytes).map_err(|refusal| {
            let what = "cannot be appended: it is no image, or its size word is not its length";
            Failure::new(format!("{name} {what} (refusal {})", refusal.number()))
        })?;
    }
    let after = Bundle::new(&file).count().map_err(|refusal| refused(path, refusal))?;
    Ok((file, after))
}

fn list(path: &Path) -> Outcome {
    let file = Reading::of(path)?;
    let mut out = Output::new();
    let mut all = true;
    for (position, image) in Bundle::new(file.bytes()).iter().enumerate() {
        match image {
            Ok(db) => out.text(&format!("{position} {} {}", db.num(), db.bytes().len()))?,
            Err(Refusal::BrokenBundle) => return Err(refused(path, Refusal::BrokenBundle)),
            Err(refusal) => {
                all = false;
                out.tell(&format!("bundle: image {position}: {}", files::refusal_in_words(refusal)))?;
            }
        }
    }
    file.has_stayed()?;
    out.finish(all)
}

fn extract(args: &Args) -> Outcome {
    let path = args.path(1);
    let position = lines::id_of(args.bytes(2)).ok_or_else(|| Failure::new("the position is no decimal number"))?;
    let target = Target::new(args, 3, Kind::Image)?;
    let file = Reading::of(path)?;
    match Bundle::new(file.bytes()).open(position.into()) {
        Ok(db) => {
            let (entries, size) = (outcome::count(db.num().into(), "entry", "entries"), db.bytes().len());
            let mut image = Vec::new();
            outcome::reserve(&mut image, size, || path.display().to_string())?;
            image.extend_from_slice(db.bytes());
            file.has_stayed()?;
            target.replace(&image, &format!("{}: {entries}, {size} bytes\n", args.path(3).display()))?;
            Ok(Answer::Yes)
        }
        Err(Refusal::NoSuchImage) => {
            let images = Bundle::new(file.bytes()).count().map_err(|refusal| refused(path, refusal))?;
            let (shown, images) = (files::shown(path), outcome::count(images, "image", "images"));
            let refusal = Refusal::NoSuchImage.number();
            outcome::tell(&format!(
                "bundle: {shown} has {images}, and none at position {position} (refusal {refusal})"
            ));
            Ok(Answer::No)
        }
        Err(refusal) => Err(refused(path, refusal)),
    }
}
