//! May this report leave, through the safe calls: each question with what shows it, and the sentences.
use cqdb::{
    preflight, preflight_dates, BStr, Date, Flag, MemoryWriter, Preflight, PreflightDates, Refusal, Report, Sheet,
    Window,
};

type Puts<'a> = &'a [(&'a str, u32)];

const WEEK: Puts = &[("east pier", 0), ("north wall 1", 14), ("north wall 2", 15), ("crane", 16), ("quay", 47)];

fn image(flag: Flag, puts: Puts) -> Vec<u8> {
    let mut writer = MemoryWriter::with_repeats(flag);
    puts.iter().for_each(|(name, id)| writer.put(name, *id).unwrap());
    writer.finish().unwrap()
}

fn sheet(lists: [&[u32]; 3]) -> Vec<u8> {
    let mut file = vec![0; 6 + 4 * lists.concat().len()];
    Sheet::write(&mut file, lists[0], lists[1], lists[2]).unwrap();
    file
}

/// Asks of a round with the sheet of the week, and asserts the answer, its number and its sentence.
#[track_caller]
fn answers(new: Puts, round: &[u32], accepted: &[u32], answer: Preflight, number: u32, sentence: &str) {
    let (old, new) = (image(Flag::NONE, WEEK), image(Flag::NONE, new));
    let sheet = sheet([&[0], &[14, 15, 16, 17], &[47]]);
    let given = preflight(&Report { old: Some(&old), new: &new, sheet: &sheet, round, accepted });
    assert_eq!(given, answer);
    assert_eq!((given.question(), given.is_yes()), (number, number == 0));
    assert_eq!(given.to_string(), sentence);
}

fn name(name: &str) -> &BStr {
    BStr::new(name)
}

#[test]
fn yes_with_its_counts() {
    let yes = |sighted, compared, added, unsighted| Preflight::Yes { sighted, compared, added, unsighted };
    let sentence = "compared 3 of 3 sighted ids, 0 new, 3 on the sheet not sighted";
    answers(WEEK, &[14, 0, 14], &[], yes(3, 3, 0, 3), 0, sentence);
    // A renewed prism, an intended rename and a new prism.
    let later = [WEEK, &[("north wall 1", 17)], &[("crane foot", 16)]].concat();
    let sentence = "compared 2 of 3 sighted ids, 1 new, 2 on the sheet not sighted";
    answers(&later, &[0, 17, 16], &[16], yes(3, 2, 1, 2), 0, sentence);
    let (new, sheet) = (image(Flag::NONE, WEEK), sheet([&[0], &[14], &[]]));
    let report = Report { old: None, new: &new, sheet: &sheet, round: &[14], accepted: &[] };
    assert_eq!(preflight(&report), yes(1, 0, 0, 1));
    assert_eq!(preflight(&report).to_string(), "first report of 1 sighted id, 1 on the sheet not sighted");
}

#[test]
fn the_round() {
    let sentence = "id 47 does not stand once on the whole sheet, as a reference or a wall";
    answers(WEEK, &[0, 47], &[], Preflight::NotOnSheet { place: 1, id: 47 }, 3, sentence);
    answers(WEEK, &[], &[], Preflight::NoneSighted, 4, "the round has no id");
    answers(WEEK, &[14, 17], &[], Preflight::Nameless { place: 1, id: 17 }, 5, "id 17 has no name, or the empty one");
    let twice = [WEEK, &[("north wall 1", 17)]].concat();
    let both = Preflight::OneName { place: 1, id: 14, other: 3, other_id: 17, name: name("north wall 1") };
    answers(&twice, &[0, 14, 14, 17], &[], both, 6, "ids 14 and 17 are both \"north wall 1\"");
}

#[test]
fn what_changed() {
    let elsewhere = &[("tower", 0), ("gate", 14), ("east pier", 15)];
    answers(elsewhere, &[0], &[0], Preflight::NothingAlike, 8, "the images name no id alike");
    let renamed = [WEEK, &[("crane foot", 16)]].concat();
    let other = Preflight::Renamed { place: 1, id: 16, before: name("crane"), after: name("crane foot") };
    answers(&renamed, &[0, 16], &[15], other, 9, "id 16 was \"crane\" and is \"crane foot\"");
    // Accepted renames do not help where names are exchanged, or a prism that is not sighted lost its name.
    let swapped = [WEEK, &[("north wall 2", 14), ("north wall 1", 15)]].concat();
    let taken = Preflight::NameTaken { id: 14, place: 1, taker: 15, name: name("north wall 1") };
    let sentence = "id 14 has lost its name \"north wall 1\", which id 15 has now";
    answers(&swapped, &[0, 15], &[14, 15], taken, 10, sentence);
}

#[test]
fn images_and_sheets_that_cannot_be_relied_on() {
    let (whole, listed) = (image(Flag::NONE, WEEK), sheet([&[0], &[14], &[]]));
    let (one_way, cut) = (image(Flag::ONEWAY, WEEK), &whole[..whole.len() - 1]);
    let report = Report { old: Some(&whole), new: &whole, sheet: &listed, round: &[0, 14], accepted: &[0, 14] };
    assert!(preflight(&report).is_yes());
    for image in [&one_way[..], cut, &[]] {
        assert_eq!(preflight(&Report { new: image, ..report }), Preflight::NewUnfit);
        assert_eq!(preflight(&Report { new: image, old: None, ..report }), Preflight::NewUnfit);
        assert_eq!(preflight(&Report { old: Some(image), ..report }), Preflight::OldUnfit);
    }
    assert_eq!(preflight(&Report { old: Some(&image(Flag::NONE, &[])), ..report }), Preflight::NothingAlike);
    let unread = preflight(&Report { sheet: &listed[..9], ..report });
    assert_eq!(unread, Preflight::SheetUnread { refusal: Refusal::TooFewBytes });
    assert_eq!(unread.to_string(), "invalid round sheet, too few bytes (refusal 19)");
    let longer = [&listed[..], &[0]].concat();
    let unread = preflight(&Report { sheet: &longer, ..report });
    assert_eq!(unread, Preflight::SheetUnread { refusal: Refusal::LeftOverBytes });
    let numbers = [Preflight::NewUnfit, unread, Preflight::OldUnfit].map(|answer| answer.question());
    assert_eq!(numbers, [1, 2, 7]);
}

#[test]
fn windows_of_a_round() {
    let date = |month, day| Date { year: 2024, month, day };
    let window = |id, first, end| Window { id, first, end };
    let windows =
        [window(1, date(3, 1), date(6, 1)), window(2, date(1, 1), date(5, 1)), window(2, date(5, 1), date(9, 1))];
    let asked = |round: &[u32], last, now| preflight_dates(&windows, round, last, now);
    assert_eq!(asked(&[1, 1], date(3, 1), date(5, 31)), Ok(PreflightDates::Yes));
    assert_eq!(asked(&[], date(3, 1), date(5, 31)), Ok(PreflightDates::Yes));
    // The end date is behind the window, and two windows are not one.
    let none = |place, id| Ok(PreflightDates::NoWindow { place, id });
    assert_eq!(asked(&[1, 1], date(3, 1), date(6, 1)), none(0, 1));
    assert_eq!(asked(&[1, 2], date(4, 30), date(5, 1)), none(1, 2));
    assert_eq!(asked(&[1, 3], date(4, 29), date(4, 30)), none(1, 3));
    let answer = asked(&[1, 3], date(4, 29), date(4, 30)).unwrap();
    assert_eq!((answer.question(), PreflightDates::Yes.question()), (11, 0));
    assert_eq!(answer.to_string(), "id 3 has no window that holds both dates");
    assert_eq!(asked(&[1], date(2, 30), date(3, 1)), Err(Refusal::NoSuchDate));
    assert_eq!(asked(&[1], date(3, 1), date(13, 1)), Err(Refusal::NoSuchDate));
    let backwards = [window(9, date(6, 1), date(6, 1))];
    assert_eq!(preflight_dates(&backwards, &[], date(3, 1), date(3, 1)), Err(Refusal::NotBeforeEnd));
}
