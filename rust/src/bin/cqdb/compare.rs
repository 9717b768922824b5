//! An image beside itself and beside an older one, in words. Each answer is that of one proved call; what is added here
//! says what breaks it.
use cqdb::{Mismatch, OneToOne, Preflight, Report, Sheet, CQDB};

use crate::{files, lines};

/// The question whose answer `one_name_for_one_id` gives.
pub const ONE_NAME: &str = "one name for one id";

/// The first entry whose name has another id, or whose id has another name, in the words of the lookup that shows it.
pub fn one_name_for_one_id(db: &CQDB) -> Result<(), String> {
    let answer = db.one_to_one().map_err(files::refusal_in_words)?;
    let OneToOne::Fails { kind, id, name, .. } = answer else { return Ok(()) };
    let shown = lines::shown(name);
    let or_none = |other: Option<String>| other.unwrap_or("none".to_string());
    Err(match kind {
        Mismatch::OtherId => {
            let other = db.to_id_bytes(name).map(|id| id.to_string());
            format!("{shown} was put with id {id}, and has id {}", or_none(other))
        }
        Mismatch::OtherName => {
            let other = db.to_str(id).map(|name| lines::shown(name));
            format!("id {id} was put with the name {shown}, and has the name {}", or_none(other))
        }
    })
}

/// The questions of [`cqdb::preflight`], in its order. A first report is asked the first six.
pub const QUESTIONS: [&str; 10] = [
    "the image is canonical and two-way",
    "the round sheet reads",
    "every sighted id is on the sheet once, as a reference or a wall",
    "an id is sighted",
    "every sighted id has a name",
    "no two sighted ids have one name",
    "the last image is canonical and two-way",
    "the last image names some id as this one does",
    "every sighted id keeps its name, or its rename is accepted",
    "no sighted id has a name that another id has lost",
];

/// What breaks the question that fails.
pub fn what_breaks(report: &Report, answer: &Preflight) -> String {
    match answer {
        Preflight::Yes { .. } => "nothing".to_string(),
        Preflight::NewUnfit => unfit(report.new),
        Preflight::SheetUnread { refusal } => files::refusal_in_words(*refusal),
        Preflight::NotOnSheet { id, .. } => format!("id {id} {}", where_on_sheet(report.sheet, *id)),
        Preflight::NoneSighted => "the round is empty".to_string(),
        Preflight::Nameless { id, .. } => match CQDB::new(report.new).ok().and_then(|db| db.to_str(*id)) {
            Some(_) => format!("id {id} has the empty name"),
            None => format!("id {id} has none"),
        },
        Preflight::OneName { id, other_id, name, .. } => {
            format!("ids {id} and {other_id} are both {}", lines::shown(name))
        }
        Preflight::OldUnfit => unfit(report.old.unwrap_or_default()),
        Preflight::NothingAlike => "they name no id alike, as images of two harbours".to_string(),
        Preflight::Renamed { id, before, after, .. } => {
            format!("id {id} was {} and is {}", lines::shown(before), lines::shown(after))
        }
        Preflight::NameTaken { id, taker, name, .. } => {
            format!("{} was the name of id {id} and is that of id {taker}", lines::shown(name))
        }
    }
}

/// The numbers that show what breaks a question, by the names that C gives them.
pub fn numbers(answer: &Preflight) -> Vec<(&'static str, u64)> {
    match *answer {
        Preflight::SheetUnread { refusal } => vec![("refusal", refusal.number().into())],
        Preflight::NotOnSheet { place, id } | Preflight::Nameless { place, id } => {
            vec![("id", id.into()), ("place", place as u64)]
        }
        Preflight::Renamed { place, id, .. } => vec![("id", id.into()), ("place", place as u64)],
        Preflight::OneName { place, id, other, other_id, .. } => {
            vec![("id", id.into()), ("place", place as u64), ("other_id", other_id.into()), ("other", other as u64)]
        }
        Preflight::NameTaken { id, place, taker, .. } => {
            vec![("id", id.into()), ("taker", taker.into()), ("place", place as u64)]
        }
        _ => Vec::new(),
    }
}

/// Why an image is not canonical and two-way.
fn unfit(image: &[u8]) -> String {
    match CQDB::new(image) {
        Err(error) => files::in_words(&error),
        Ok(db) if !db.is_canonical() => "no list of puts makes these bytes".to_string(),
        Ok(_) => "it is one-way: it names no ids".to_string(),
    }
}

/// How often an id stands on the sheet, and as what.
fn where_on_sheet(file: &[u8], id: u32) -> String {
    let Ok(sheet) = Sheet::read(file) else { return "is on no sheet".to_string() };
    let lists = [sheet.references(), sheet.walls(), sheet.retired()];
    let [references, walls, retired] = lists.map(|ids| ids.filter(|other| *other == id).count());
    match (references + walls, retired) {
        (0, 0) => "is not on the sheet".to_string(),
        (0, 1) => "is retired on the sheet".to_string(),
        (stands, retired) => format!("is on the sheet {} times", stands + retired),
    }
}
