//! A report over all walls of a bundle: the questions of each position, and those that join them. Sheet and round are
//! those of all walls, so an id stands for one prism of one wall.
use std::collections::{HashMap, HashSet};

use cqdb::{preflight, Report, Sheet, CQDB};

use crate::asked::{Answers, Asked, Counts, Said, NONE_SIGHTED};
use crate::compare::{self, QUESTIONS};
use crate::lines;
use crate::memory::Kept;
use crate::outcome::{self, Failure};
use crate::preflight::Files;

/// Asks of every position in both bundles, position by position, then of the walls together.
pub fn ask(files: &Files, round: &[u32]) -> Result<Answers, Failure> {
    let (old, new) = (files.old.as_ref().map(Kept::walls).transpose()?, files.new.walls()?);
    if new.is_empty() {
        return Err(Failure::new("the bundle has no image"));
    }
    if let Some(old) = old.as_ref().filter(|old| old.len() != new.len()) {
        let images = outcome::count(old.len() as u64, "image", "images");
        return Err(Failure::new(format!("the last bundle has {images}, and this one {}", new.len())));
    }
    let mut answers = Answers { is_first: old.is_none(), ..Answers::default() };
    for (position, image) in new.iter().enumerate() {
        let sighted: Vec<u32> = round.iter().copied().filter(|id| names(image, *id)).collect();
        let old = old.as_ref().map(|old| old[position]);
        let report = Report { old, new: image, sheet: files.sheet(), round: &sighted, accepted: &files.accepted };
        let of_wall = of_wall(&report, position as u64);
        answers.counts.compared += of_wall.counts.compared;
        answers.counts.added += of_wall.counts.added;
        answers.asked.extend(of_wall.asked);
    }
    answers.asked.extend(of_all(&old.unwrap_or_default(), &new, round));
    answers.asked.extend(files.ask_besides(&new, round)?);
    let Counts { compared, added, .. } = answers.counts;
    answers.counts = Counts { sighted: round.len(), compared, added, unsighted: unsighted(files.sheet(), round) };
    Ok(answers)
}

/// The questions that join the walls.
fn of_all(old: &[&[u8]], new: &[&[u8]], round: &[u32]) -> [Asked; 3] {
    let said: [Said; 3] = match round.is_empty() {
        true => [Err("the round is empty".to_string()).into(), NONE_SIGHTED, NONE_SIGHTED],
        false => [Said::Yes, each_in_one(old, new, round).into(), names_apart(old, new, round).into()],
    };
    let [some, in_one, apart] = said;
    [
        Asked::own(QUESTIONS[3], some),
        Asked::own("every sighted id is in one wall, then and now", in_one),
        Asked::own("the name of every sighted id is in its wall alone, then and now", apart),
    ]
}

/// The questions of a wall. Of one without a sighted id, only that its images are canonical and two-way.
fn of_wall(report: &Report, position: u64) -> Answers {
    if !report.round.is_empty() {
        return Answers::of_report(report, Some(position));
    }
    let images = [(1, Some(report.new)), (7, report.old)];
    let asked = images.into_iter().filter_map(|(number, image)| Some((number, image?)));
    let asked = asked.map(|(number, image)| {
        // As the image of a first report it fails at question 1, or else at a later one.
        let alone = Report { old: None, new: image, accepted: &[], ..*report };
        let answer = preflight(&alone);
        let fits = if answer.question() == 1 { Err(compare::what_breaks(&alone, &answer)) } else { Ok(()) };
        let question = QUESTIONS[number as usize - 1];
        Asked { position: Some(position), number: Some(number), question, said: fits.into() }
    });
    Answers { asked: asked.collect(), ..Answers::default() }
}

fn names(image: &[u8], id: u32) -> bool {
    CQDB::new(image).is_ok_and(|db| db.to_str(id).is_some())
}

/// The positions of the images that name an id.
fn walls_of(images: &[&[u8]], id: u32) -> Vec<usize> {
    (0..images.len()).filter(|position| names(images[*position], id)).collect()
}

/// The first sighted id that is in no wall, in several, or was in another.
fn each_in_one(old: &[&[u8]], new: &[&[u8]], round: &[u32]) -> Result<(), String> {
    for id in round {
        let (then, now) = (walls_of(old, *id), walls_of(new, *id));
        match now[..] {
            [] => return Err(format!("id {id} is in none")),
            [wall] => {
                if let Some(other) = then.iter().find(|other| **other != wall) {
                    return Err(format!("id {id} was in wall {other} and is in wall {wall}"));
                }
            }
            [wall, other, ..] => return Err(format!("id {id} is in walls {wall} and {other}")),
        }
    }
    Ok(())
}

/// The first sighted name that another wall has too, or had.
fn names_apart(old: &[&[u8]], new: &[&[u8]], round: &[u32]) -> Result<(), String> {
    let mut sighted = HashMap::new();
    for (wall, db) in opened(new) {
        for name in round.iter().filter_map(|id| db.to_str(*id)) {
            sighted.entry(&**name).or_insert(wall);
        }
    }
    for (verb, images) in [("was", old), ("is", new)] {
        for (wall, db) in opened(images) {
            let mut names = (0..db.back_size()).filter_map(|id| db.to_str(id));
            if let Some(name) = names.find(|name| sighted.get(&***name).is_some_and(|of| *of != wall)) {
                let (shown, of) = (lines::shown(name), sighted[&**name]);
                return Err(format!("{shown} {verb} in wall {wall}, and is sighted in wall {of}"));
            }
        }
    }
    Ok(())
}

/// The images that open, with their positions.
fn opened<'a>(images: &[&'a [u8]]) -> impl Iterator<Item = (usize, CQDB<'a>)> {
    let opened: Vec<_> = images.iter().map(|image| CQDB::new(image)).enumerate().collect();
    opened.into_iter().filter_map(|(wall, db)| Some((wall, db.ok()?)))
}

/// How many references and wall prisms of the sheet are not in the round.
fn unsighted(file: &[u8], round: &[u32]) -> usize {
    let sighted: HashSet<u32> = round.iter().copied().collect();
    let Ok(sheet) = Sheet::read(file) else { return 0 };
    sheet.references().chain(sheet.walls()).filter(|id| !sighted.contains(id)).count()
}
