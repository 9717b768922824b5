//! May this report leave?
use std::fmt;

use crate::archive::{self, Date, PreflightAnswer, Window};
use crate::name::BStr;
use crate::read::CQDB;
use crate::refusal::{self, Refusal};

/// What a report rests on.
#[derive(Clone, Copy, Debug)]
pub struct Report<'a> {
    /// The image by which the last report was named; none where this is the first report.
    pub old: Option<&'a [u8]>,
    /// The image by which this report is named.
    pub new: &'a [u8],
    /// The file of the round sheet.
    pub sheet: &'a [u8],
    /// The sighted ids, in order. An id may stand twice.
    pub round: &'a [u32],
    /// The ids whose rename is intended. They are not looked at where this is the first report.
    pub accepted: &'a [u32],
}

/// May a report leave? Yes, or the first question that fails, by its [number](Preflight::question), with what shows it. Places are
/// those in the round, counted from 0. See [`preflight`].
#[derive(Clone, Copy, Debug, PartialEq, Eq)]
pub enum Preflight<'a> {
    /// The report may leave.
    Yes {
        /// How many places the round has.
        sighted: usize,
        /// How many of them have an id that the old image names, so that it was compared; 0 for a first report.
        compared: usize,
        /// How many have an id that the old image does not name; 0 for a first report.
        added: usize,
        /// How many references and wall prisms of the sheet are not in the round.
        unsighted: usize,
    },
    /// 1: the new image is not canonical, or one-way.
    NewUnfit,
    /// 2: the sheet does not read.
    SheetUnread {
        /// Why.
        refusal: Refusal,
    },
    /// 3: an id of the round does not stand once on the whole sheet, as a reference or a wall prism.
    NotOnSheet {
        /// The first place of such an id.
        place: usize,
        /// The id.
        id: u32,
    },
    /// 4: the round has no id.
    NoneSighted,
    /// 5: an id of the round has no name in the new image, or the empty one.
    Nameless {
        /// The first place of such an id.
        place: usize,
        /// The id.
        id: u32,
    },
    /// 6: two different ids of the round have one name in the new image.
    OneName {
        /// The first place of an id whose name another one has.
        place: usize,
        /// The id.
        id: u32,
        /// The first place of such another id.
        other: usize,
        /// The other id.
        other_id: u32,
        /// The name of both.
        name: &'a BStr,
    },
    /// 7: the old image is not canonical, or one-way.
    OldUnfit,
    /// 8: the two images name no id alike, sighted or not.
    NothingAlike,
    /// 9: an id of the round has another name than in the old image, or none, and its rename is not intended.
    Renamed {
        /// The first place of such an id.
        place: usize,
        /// The id.
        id: u32,
        /// Its name in the old image.
        before: &'a BStr,
        /// Its name in the new image.
        after: &'a BStr,
    },
    /// 10: an id has lost its old name, which an id of the round has now.
    NameTaken {
        /// The smallest id that lost its name, sighted or not.
        id: u32,
        /// The first place of the id that has the name now.
        place: usize,
        /// The id that has the name now.
        taker: u32,
        /// The name.
        name: &'a BStr,
    },
}

/// May a report leave, of which engineers subtract the positions of the last one under one name? These questions are asked in order,
/// of a first report only 1 to 6, and the first that fails is the answer:
///
/// 1. The new image is canonical and two-way.
/// 2. The sheet reads.
/// 3. Each id of the round stands once on the whole sheet, as a reference or a wall prism.
/// 4. The round has an id.
/// 5. Each id of the round has a name in the new image that is not empty.
/// 6. No two different ids of the round have one name there.
/// 7. The old image is canonical and two-way.
/// 8. The two images name at least one id alike, sighted or not.
/// 9. Each id of the round that the old image names has the same name in the new one, or its rename is intended.
/// 10. No id, sighted or not, has lost its old name to an id of the round.
///
/// Any bytes and ids may be lent.
///
/// ```
/// use cqdb::{preflight, MemoryWriter, Preflight, Report, Sheet};
///
/// # fn main() -> std::io::Result<()> {
/// let image = |names: [&str; 2]| -> std::io::Result<Vec<u8>> {
///     let mut writer = MemoryWriter::new();
///     writer.put(names[0], 14)?;
///     writer.put(names[1], 15)?;
///     writer.put("east pier", 0)?;
///     Ok(writer.finish()?)
/// };
/// let mut sheet = [0; 18];
/// Sheet::write(&mut sheet, &[0], &[14, 15], &[])?;
/// let old = image(["north wall", "crane"])?;
///
/// let report = Report { old: Some(&old), new: &old, sheet: &sheet, round: &[0, 14, 15], accepted: &[] };
/// assert_eq!(preflight(&report), Preflight::Yes { sighted: 3, compared: 3, added: 0, unsighted: 0 });
///
/// // Two prisms have each other's names; that these are intended renames does not help.
/// let new = image(["crane", "north wall"])?;
/// let answer = preflight(&Report { new: &new, accepted: &[14, 15], ..report });
/// assert_eq!(answer.question(), 10);
/// assert_eq!(answer.to_string(), "id 14 has lost its name \"north wall\", which id 15 has now");
/// # Ok(())
/// # }
/// ```
pub fn preflight<'a>(report: &Report<'a>) -> Preflight<'a> {
    let Report { old, new, sheet, round, accepted } = *report;
    let answer = match old {
        Some(old) => archive::preflight(old, new, sheet, round, accepted),
        None => archive::preflight_first(new, sheet, round),
    };
    Preflight::new(report, answer)
}

impl<'a> Preflight<'a> {
    fn new(report: &Report<'a>, answer: PreflightAnswer) -> Self {
        let (place, other) = (answer.place as usize, answer.other as usize);
        let name = |image: &'a [u8], id| CQDB::opened(image, 0).to_str(id).unwrap_or(BStr::new(""));
        let id = || report.round[place];
        match answer.question {
            0 => Preflight::Yes {
                sighted: report.round.len(),
                compared: answer.compared as usize,
                added: answer.added as usize,
                unsighted: answer.unsighted as usize,
            },
            1 => Preflight::NewUnfit,
            2 => Preflight::SheetUnread { refusal: Refusal::from_number(answer.refusal) },
            3 => Preflight::NotOnSheet { place, id: id() },
            4 => Preflight::NoneSighted,
            5 => Preflight::Nameless { place, id: id() },
            6 => {
                let (id, other_id) = (id(), report.round[other]);
                Preflight::OneName { place, id, other, other_id, name: name(report.new, id) }
            }
            7 => Preflight::OldUnfit,
            8 => Preflight::NothingAlike,
            9 => {
                let before = name(report.old.unwrap_or_default(), id());
                Preflight::Renamed { place, id: id(), before, after: name(report.new, id()) }
            }
            10 => Preflight::NameTaken { id: answer.id, place, taker: id(), name: name(report.new, id()) },
            number => unreachable!("the archive has no question {number}"),
        }
    }

    /// The number of the first question that fails; 0 for yes.
    pub fn question(&self) -> u32 {
        match self {
            Preflight::Yes { .. } => 0,
            Preflight::NewUnfit => 1,
            Preflight::SheetUnread { .. } => 2,
            Preflight::NotOnSheet { .. } => 3,
            Preflight::NoneSighted => 4,
            Preflight::Nameless { .. } => 5,
            Preflight::OneName { .. } => 6,
            Preflight::OldUnfit => 7,
            Preflight::NothingAlike => 8,
            Preflight::Renamed { .. } => 9,
            Preflight::NameTaken { .. } => 10,
        }
    }

    /// May the report leave?
    pub fn is_yes(&self) -> bool {
        self.question() == 0
    }
}

fn ids(sighted: usize) -> String {
    format!("{sighted} sighted {}", if sighted == 1 { "id" } else { "ids" })
}

/// A sentence: how much a yes is about, or what breaks the question that fails.
impl fmt::Display for Preflight<'_> {
    fn fmt(&self, f: &mut fmt::Formatter<'_>) -> fmt::Result {
        match self {
            // A round that is compared has an id, so one of the two counts is above 0.
            Preflight::Yes { sighted, compared: 0, added: 0, unsighted } => {
                write!(f, "first report of {}, {unsighted} on the sheet not sighted", ids(*sighted))
            }
            Preflight::Yes { sighted, compared, added, unsighted } => {
                write!(f, "compared {compared} of {}, {added} new, {unsighted} on the sheet not sighted", ids(*sighted))
            }
            Preflight::NewUnfit => write!(f, "the new image is not canonical, or one-way"),
            Preflight::SheetUnread { refusal } => write!(f, "{refusal} (refusal {})", refusal.number()),
            Preflight::NotOnSheet { id, .. } => {
                write!(f, "id {id} does not stand once on the whole sheet, as a reference or a wall")
            }
            Preflight::NoneSighted => write!(f, "the round has no id"),
            Preflight::Nameless { id, .. } => write!(f, "id {id} has no name, or the empty one"),
            Preflight::OneName { id, other_id, name, .. } => write!(f, "ids {id} and {other_id} are both {name:?}"),
            Preflight::OldUnfit => write!(f, "the old image is not canonical, or one-way"),
            Preflight::NothingAlike => write!(f, "the images name no id alike"),
            Preflight::Renamed { id, before, after, .. } => write!(f, "id {id} was {before:?} and is {after:?}"),
            Preflight::NameTaken { id, taker, name, .. } => {
                write!(f, "id {id} has lost its name {name:?}, which id {taker} has now")
            }
        }
    }
}

/// Has every id of a round a window that holds both dates? See [`preflight_dates`].
#[derive(Clone, Copy, Debug, PartialEq, Eq, Hash)]
pub enum PreflightDates {
    /// Every id has one.
    Yes,
    /// 11: this id has none.
    NoWindow {
        /// The first place in the round of such an id, counted from 0.
        place: usize,
        /// The id.
        id: u32,
    },
}

/// Has every id of a round a window that holds both dates, that of the last report and that of this one, so that no prism was taken
/// away and set again between them? Of a first report both dates are the same. Refused with [`Refusal::NoSuchDate`] where a date does
/// not exist or is out of bounds, then with [`Refusal::NotBeforeEnd`] where a window does not start before its end.
///
/// ```
/// use cqdb::{preflight_dates, Date, PreflightDates, Window};
///
/// # fn main() -> Result<(), cqdb::Refusal> {
/// let date = |month, day| Date { year: 2024, month, day };
/// let spring = Window { id: 1, first: date(3, 1), end: date(6, 1) };
/// assert_eq!(preflight_dates(&[spring], &[1], date(5, 24), date(5, 31))?, PreflightDates::Yes);
/// assert_eq!(preflight_dates(&[spring], &[1], date(5, 31), date(6, 1))?, PreflightDates::NoWindow { place: 0, id: 1 });
/// # Ok(())
/// # }
/// ```
pub fn preflight_dates(windows: &[Window], round: &[u32], last: Date, date: Date) -> Result<PreflightDates, Refusal> {
    let answer = archive::preflight_dates(windows, round, last, date);
    let place = answer.place as usize;
    let dates = match answer.question {
        0 => PreflightDates::Yes,
        _ => PreflightDates::NoWindow { place, id: round[place] },
    };
    refusal::or(answer.refusal, dates)
}

impl PreflightDates {
    /// The number of the question where it fails, 11; 0 for yes.
    pub fn question(&self) -> u32 {
        match self {
            PreflightDates::Yes => 0,
            PreflightDates::NoWindow { .. } => 11,
        }
    }
}

/// A sentence.
impl fmt::Display for PreflightDates {
    fn fmt(&self, f: &mut fmt::Formatter<'_>) -> fmt::Result {
        match self {
            PreflightDates::Yes => write!(f, "every id has a window that holds both dates"),
            PreflightDates::NoWindow { id, .. } => write!(f, "id {id} has no window that holds both dates"),
        }
    }
}
