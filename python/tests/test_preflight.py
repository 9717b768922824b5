"""May a report leave? The answers beside the questions in plain Python, of lists of puts."""
import datetime
import random
import unittest
from typing import Any, Dict, Iterable, List, NamedTuple, Optional, Tuple

import cqdb
from tests.images import Entries, image_of, with_word

Names = Dict[int, bytes]


class Case(NamedTuple):
    """A report; an image is its entries, None where it is damaged."""

    old: Optional[Entries]
    new: Optional[Entries]
    sheet: Tuple[List[int], List[int], List[int]]
    round: List[int]
    accepted: List[int]


def named(entries: Entries) -> Names:
    return {id: name for name, id in entries}


def expected(case: Case) -> Tuple[int, Tuple[Optional[int], ...]]:
    """The first question that fails and what shows it: id, place, other. Of a yes the counts."""
    if case.new is None:
        return 1, (None, None, None)
    new, (references, walls, retired) = named(case.new), case.sheet
    listed = references + walls + retired
    for place, id in enumerate(case.round):
        if listed.count(id) != 1 or id in retired:
            return 3, (id, place, None)
    if not case.round:
        return 4, (None, None, None)
    for place, id in enumerate(case.round):
        if not new.get(id):
            return 5, (id, place, None)
    for place, id in enumerate(case.round):
        for other, another in enumerate(case.round):
            if id != another and new[id] == new[another]:
                return 6, (id, place, other)
    return beside_the_last(case, new)


def beside_the_last(case: Case, new: Names) -> Tuple[int, Tuple[Optional[int], ...]]:
    if case.old is None:
        return 7, (None, None, None)
    old = named(case.old)
    if not any(new.get(id) == name for id, name in old.items()):
        return 8, (None, None, None)
    for place, id in enumerate(case.round):
        if id in old and old[id] != new[id] and id not in case.accepted:
            return 9, (id, place, None)
    lost = [id for id in sorted(old) if new.get(id) != old[id]]
    for id in lost:
        for place, sighted in enumerate(case.round):
            if old[id] == new[sighted]:
                return 10, (id, place, None)
    compared = sum(id in old for id in case.round)
    unsighted = sum(id not in case.round for id in case.sheet[0] + case.sheet[1])
    return 0, (compared, len(case.round) - compared, unsighted)


def image(entries: Optional[Entries]) -> bytes:
    return image_of([(b"x", 1)], one_way=True) if entries is None else image_of(entries, repeats=True)


def ask(case: Case) -> cqdb.Preflight:
    return cqdb.preflight(
        image(case.new), sheet=cqdb.Sheet(*case.sheet), round=case.round, last=image(case.old), accepted=case.accepted
    )


def shown(answer: cqdb.Preflight) -> Tuple[int, Tuple[Optional[int], ...]]:
    if answer:
        return 0, (answer.compared, answer.added, answer.unsighted)
    return answer.question, (answer.id, answer.place, answer.other)


def drawn(rolls: random.Random) -> Case:
    """A report whose catalogue has changed a little, or is damaged, of few prisms, so that names meet."""
    ids = list(range(rolls.randrange(2, 9)))
    old: Entries = [(b"p%d" % id, id) for id in ids if rolls.random() < 0.95]
    new = list(old)
    for _ in range(rolls.choice([0, 0, 1, 1, 2, 3])):
        change, at, to = rolls.random(), rolls.randrange(len(ids)), rolls.randrange(len(ids))
        if change < 0.5 and max(at, to) < len(new):
            (one, first), (two, second) = new[at], new[to]
            new[at], new[to] = (two, first), (one, second)
        else:
            new.append((rolls.choice([b"p%d" % to, b"new %d" % at, b""]), rolls.choice([at, 20 + at])))
    sheet = [id for id in ids + [20 + id for id in ids] if rolls.random() < 0.97]
    cut = rolls.randrange(len(sheet) + 1)
    retired = [rolls.choice(ids)] if rolls.random() < 0.1 else []
    pool = [id for _, id in new if id not in retired] if rolls.random() < 0.9 else ids
    round = [rolls.choice(pool) for _ in range(rolls.randrange(5))] if pool else []
    accepted = [id for id in ids if rolls.random() < 0.3]
    damaged = rolls.random()
    return Case(
        None if damaged < 0.05 else old, None if damaged > 0.97 else new, (sheet[:cut], sheet[cut:], retired), round, accepted
    )


class Reports(unittest.TestCase):
    def test_beside_the_questions_in_plain_python(self) -> None:
        rolls, seen = random.Random(11), [0] * 11
        for _ in range(3_000):
            case = drawn(rolls)
            answer = ask(case)
            self.assertEqual(shown(answer), expected(case), case)
            self.assertEqual(bool(answer), answer.question == 0)
            seen[answer.question] += 1
        self.assertEqual([question for question in (0, 1, 3, 4, 5, 6, 7, 9, 10) if seen[question] < 10], [], seen)

    def answers(self, text: str, new: Any, last: Any, **given: Any) -> cqdb.Preflight:
        asked = {"sheet": cqdb.Sheet((0,), (14, 15)), "round": [0, 14, 15], **given}
        answer = cqdb.preflight(new, last=last, **asked)
        self.assertEqual(str(answer), text)
        return answer

    def test_sentences(self) -> None:
        walls: Entries = [(b"north wall", 14), (b"crane", 15), (b"east pier", 0)]
        old, swapped = image_of(walls), image_of([(b"crane", 14), (b"north wall", 15), (b"east pier", 0)])
        renamed, shared = (image_of([(name, 14)] + walls[1:], repeats=True) for name in (b"mole \xff", b"crane"))
        one_way = image_of(walls, one_way=True)
        yes = self.answers("compared 3 of 3 sighted ids, 0 new, 0 on the sheet not sighted", old, old)
        self.assertEqual((bool(yes), yes.question, yes.compared), (True, 0, 3))
        self.answers("compared 1 of 1 sighted id, 0 new, 2 on the sheet not sighted", old, old, round=[14])
        self.answers("the new image is not canonical, or one-way", one_way, old)
        self.answers("the new image is not canonical, or one-way", b"", old)
        self.answers("the new image is not canonical, or one-way", old + b"behind", old)
        sheet = self.answers("invalid round sheet, too few bytes (refusal 19)", old, old, sheet=b"")
        self.assertEqual((sheet.question, sheet.refusal), (2, cqdb.Refusal.TOO_FEW_BYTES))
        self.answers("id 7 does not stand once on the whole sheet, as a reference or a wall", old, old, round=[0, 7])
        self.answers("the round has no id", old, old, round=[])
        self.answers("id 15 has no name, or the empty one", image_of(walls[:1] + walls[2:]), old)
        self.answers('ids 14 and 15 are both "crane"', shared, old)
        self.answers("the old image is not canonical, or one-way", old, with_word(old, 2_072, 9))
        self.answers("the old image is not canonical, or one-way", old, b"")
        self.answers("the images name no id alike", old, image_of([(b"another harbour", 14)]))
        self.answers('id 14 was "north wall" and is "mole \udcff"', renamed, old)
        self.answers("compared 3 of 3 sighted ids, 0 new, 0 on the sheet not sighted", renamed, old, accepted=[14])
        self.answers('id 14 was "north wall" and is "crane"', swapped, old)
        taken = self.answers('id 14 has lost its name "north wall", which id 15 has now', swapped, old, accepted=[14, 15])
        self.assertEqual((taken.question, taken.id, taken.place), (10, 14, 2))

    def test_catalogues_and_a_sheet_as_bytes(self) -> None:
        old = cqdb.Catalogue(image_of([("Gr\xfc\xdfe".encode("latin-1"), 3)]), encoding="latin-1")
        sheet = cqdb.Sheet((3,))
        self.assertTrue(cqdb.preflight(old, sheet=bytes(sheet), round=iter([3, 3]), last=old))
        new = cqdb.Catalogue(image_of([("Gr\xfc\xdfe".encode("latin-1"), 4), (b"mole", 3)]), encoding="latin-1")
        answer = cqdb.preflight(new, sheet=cqdb.Sheet((4,)), round=[4], last=old, accepted=[3, 4])
        self.assertEqual((answer.question, str(answer)), (8, "the images name no id alike"))

    def test_a_first_report(self) -> None:
        new, sheet = image_of([(b"crane", 1), (b"mole", 2)]), cqdb.Sheet((1,), (2,))
        answer = cqdb.preflight(new, sheet=sheet, round=[1], first=True)
        self.assertEqual((answer.question, str(answer)), (0, "first report of 1 sighted id, 1 on the sheet not sighted"))
        self.assertEqual(cqdb.preflight(new, sheet=sheet, round=[2, 7], first=True).question, 3)

    def test_what_has_to_be_said(self) -> None:
        new, sheet = image_of([(b"crane", 1)]), cqdb.Sheet((1,))
        date = datetime.date(2026, 5, 1)
        for given in (
            {},
            {"last": new, "first": True},
            {"first": 2},
            {"first": True, "accepted": [1]},
            {"last": "walls.cqdb"},
            {"last": new, "accepted": "1"},
            {"last": new, "date": date},
            {"last": new, "last_date": date},
            {"last": new, "windows": []},
            {"last": new, "windows": [], "date": date},
            {"first": True, "windows": [], "last_date": date, "date": date},
            {"last": new, "windows": [], "date": "2026-05-01", "last_date": date},
        ):
            self.assertRaises(TypeError, cqdb.preflight, new, sheet=sheet, round=[1], **given)
        self.assertRaises(TypeError, cqdb.preflight, new, sheet="walls.sheet", round=[1], last=new)
        self.assertRaises(ValueError, cqdb.preflight, new, sheet=sheet, round=[-1], last=new)
        closed = cqdb.Catalogue(new)
        closed.close()
        self.assertRaisesRegex(ValueError, "closed", cqdb.preflight, new, sheet=sheet, round=[1], last=closed)


class Dates(unittest.TestCase):
    """Every id of the round has one window that holds both dates."""

    def asked(self, windows: Iterable[cqdb.Window], last: Optional[str], now: str) -> cqdb.Preflight:
        new = image_of([(b"crane", 1), (b"mole", 2)])
        date, before = datetime.date.fromisoformat(now), last and datetime.date.fromisoformat(last)
        given: Any = {"first": True} if before is None else {"last": new, "last_date": before}
        return cqdb.preflight(new, sheet=cqdb.Sheet((1, 2)), round=[1, 2, 1], windows=windows, date=date, **given)

    def test_windows(self) -> None:
        whole = cqdb.Window(2, datetime.date(2026, 1, 1), datetime.date(2027, 1, 1))
        spring = cqdb.Window(1, datetime.date(2026, 3, 1), datetime.date(2026, 6, 1))
        summer = cqdb.Window(1, datetime.date(2026, 6, 1), datetime.date(2026, 9, 1))
        both = [whole, spring, summer]
        for last, now in (("2026-03-01", "2026-05-31"), ("2026-06-01", "2026-06-08"), (None, "2026-06-01")):
            self.assertTrue(self.asked(both, last, now), (last, now))
        for last, now in (("2026-05-31", "2026-06-01"), ("2026-02-28", "2026-03-01"), (None, "2026-09-01")):
            answer = self.asked(both, last, now)
            self.assertEqual((bool(answer), answer.question, answer.id, answer.place), (False, 11, 1, 0))
            self.assertEqual(str(answer), "id 1 has no window that holds both dates")
        answer = self.asked([spring], "2026-03-01", "2026-03-08")
        self.assertEqual((bool(answer), answer.question, answer.id, answer.place), (False, 11, 2, 1))
        self.assertFalse(self.asked([], None, "2026-03-08"))

    def test_refusals(self) -> None:
        first, end = datetime.date(2026, 3, 1), datetime.date(2026, 6, 1)
        for windows, last, now, refusal in (
            ([cqdb.Window(1, first, end)], "1899-12-31", "2026-03-01", cqdb.Refusal.NO_SUCH_DATE),
            ([cqdb.Window(1, first, end)], "2026-03-01", "2200-01-01", cqdb.Refusal.NO_SUCH_DATE),
            ([cqdb.Window(9, end, first)], "2026-03-01", "2026-03-08", cqdb.Refusal.NOT_BEFORE_END),
        ):
            with self.assertRaises(cqdb.CQDBError) as caught:
                self.asked(windows, last, now)
            self.assertEqual(caught.exception.refusal, refusal)

    def test_a_no_comes_before_the_dates(self) -> None:
        new = image_of([(b"crane", 1)])
        date = datetime.date(2026, 3, 1)
        answer = cqdb.preflight(new, sheet=cqdb.Sheet((1,)), round=[2], first=True, windows=[], date=date)
        self.assertEqual(answer.question, 3)


if __name__ == "__main__":
    unittest.main()
