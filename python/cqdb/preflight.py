"""May this report leave?"""
from __future__ import annotations

import datetime
import json
from array import array
from dataclasses import dataclass
from typing import Any, Iterable, NamedTuple, Optional, Union

from cqdb.catalogue import Catalogue
from cqdb.dates import Window, day, lent_windows
from cqdb.library import PreflightAnswer, calls
from cqdb.memory import Image
from cqdb.names import Bytes, Text, choice, id_number, plain
from cqdb.refusal import Refusal, accept
from cqdb.sheet import Sheet


@dataclass(frozen=True)
class Preflight:
    """May the report leave? It is true where it may; otherwise it has the number of the first question that fails, and what shows
    it. As text it is a sentence."""

    question: int
    """0: the report may leave."""
    text: str
    refusal: Optional[Refusal] = None
    """Question 2: why the sheet does not read."""
    id: Optional[int] = None
    """Questions 3, 5, 6, 9 and 11: the id at the place. Question 10: the id that lost its name, sighted or not."""
    place: Optional[int] = None
    """Questions 3, 5, 6, 9, 10 and 11: the place in the round, from 0, of the id that shows it."""
    other: Optional[int] = None
    """Question 6: the first place of another id with that name."""
    compared: int = 0
    """Of a yes: how many places of the round have an id that the last report's image names; 0 for a first report."""
    added: int = 0
    """Of a yes: how many have an id that it does not name; 0 for a first report."""
    unsighted: int = 0
    """Of a yes: how many references and wall prisms of the sheet are not in the round."""

    def __bool__(self) -> bool:
        return self.question == 0

    def __str__(self) -> str:
        return self.text


def preflight(
    new: Union[Bytes, Catalogue],
    *,
    sheet: Union[Bytes, Sheet],
    round: Iterable[int],
    last: Union[Bytes, Catalogue, None] = None,
    first: bool = False,
    accepted: Iterable[int] = (),
    windows: Optional[Iterable[Window]] = None,
    last_date: Optional[datetime.date] = None,
    date: Optional[datetime.date] = None,
) -> Preflight:
    """May this report leave? The station names the sighted ids of a round by the image `new`, and engineers subtract the positions
    of the last report, which `last` named, under one name. A first report is said to be one, by `first`. These questions are
    asked in order, of a first report 1 to 6, and the first that fails is the answer:

     1. The new image is canonical and two-way.
     2. The sheet reads.
     3. Each id of the round stands once on the whole sheet, as a reference or a wall prism.
     4. The round has an id.
     5. Each id of the round has a name in the new image that is not empty.
     6. No two different ids of the round have one name there.
     7. The last image is canonical and two-way.
     8. The two images name at least one id alike, sighted or not.
     9. Each id of the round that the last image names has the same name in the new one, or is `accepted` as renamed.
    10. No id, sighted or not, has lost its old name to an id of the round.
    11. With `windows`: each id of the round has a window that holds both dates, `last_date` and `date`; of a first report `date`.

    Bytes that are no image or no sheet are an answer, and no error. CQDBError where a date is not from 1900 to 2199 (22), or a
    window does not start before its end (23).

    >>> from cqdb import build
    >>> old = build([("north wall", 14), ("crane", 15), ("east pier", 0)]).image
    >>> new = build([("crane", 14), ("north wall", 15), ("east pier", 0)]).image
    >>> sheet = Sheet(references=(0,), walls=(14, 15))
    >>> print(preflight(old, sheet=sheet, round=[0, 14], last=old))
    compared 2 of 2 sighted ids, 0 new, 1 on the sheet not sighted
    >>> answer = preflight(new, sheet=sheet, round=[0, 14, 15], last=old, accepted=[14, 15])
    >>> bool(answer), answer.question, answer.id, str(answer)
    (False, 10, 14, 'id 14 has lost its name "north wall", which id 15 has now')
    """
    if (last is None) != bool(choice("first", first)):
        raise TypeError("preflight takes either last, the image of the last report, or first=True")
    report = _Report(
        new=_image(new),
        last=None if last is None else _image(last),
        sheet=bytes(sheet) if isinstance(sheet, Sheet) else plain(sheet),
        round=array("I", map(id_number, round)),
        accepted=array("I", map(id_number, accepted)),
        text=new._text if isinstance(new, Catalogue) else Text(),
    )
    if last is None and report.accepted:
        raise TypeError("accepted is for renames since the last report, and this is the first one")
    dates = _dates(windows, last_date, date, last is None)
    answer = _answer(report, _asked(report))
    return answer if dates is None or not answer else _with_dates(answer, report, *dates)


class _Report(NamedTuple):
    """What a report rests on."""

    new: Image
    last: Optional[Image]
    sheet: bytes
    round: array
    accepted: array
    text: Text

    def name(self, image: Image, id: int) -> str:
        """The name of an id, in quotes."""
        found = calls.cqdb_to_str(image, len(image), id)
        return json.dumps(self.text.decode(image[found.start : found.start + found.len]), ensure_ascii=False)


def _image(given: Union[Bytes, Catalogue]) -> Image:
    """The bytes of an image, opened or not."""
    return given._lent() if isinstance(given, Catalogue) else plain(given)


def _asked(report: _Report) -> PreflightAnswer:
    """The library's answer to questions 1 to 10, or 1 to 6."""
    new, sheet, round = report.new, report.sheet, report.round.buffer_info()
    if report.last is None:
        return calls.cqdb_preflight_first_parts(new, len(new), sheet, len(sheet), *round)
    accepted = report.accepted.buffer_info()
    return calls.cqdb_preflight_parts(
        report.last, len(report.last), new, len(new), sheet, len(sheet), *round, *accepted
    )


def _answer(report: _Report, answer: PreflightAnswer) -> Preflight:
    """The answer with its ids and its sentence."""
    question, place, new, last = answer.question, answer.place, report.new, report.last
    if question == 0:
        return Preflight(0, _yes(report, answer), None, None, None, None, answer.compared, answer.added, answer.unsighted)
    if question in (1, 4, 7, 8):
        return Preflight(question, _ALONE[question])
    if question == 2:
        refusal = Refusal(answer.refusal)
        return Preflight(2, f"{refusal.text} (refusal {refusal.value})", refusal)
    id = report.round[place]
    if question == 10:
        text = f"id {answer.id} has lost its name {report.name(new, id)}, which id {id} has now"
        return Preflight(10, text, None, answer.id, place)
    if question == 6:
        text = f"ids {id} and {report.round[answer.other]} are both {report.name(new, id)}"
        return Preflight(6, text, None, id, place, answer.other)
    texts = {
        3: lambda: f"id {id} does not stand once on the whole sheet, as a reference or a wall",
        5: lambda: f"id {id} has no name, or the empty one",
        9: lambda: f"id {id} was {report.name(last, id)} and is {report.name(new, id)}",
    }
    return Preflight(question, texts[question](), None, id, place)


_ALONE = {
    1: "the new image is not canonical, or one-way",
    4: "the round has no id",
    7: "the old image is not canonical, or one-way",
    8: "the images name no id alike",
}


def _yes(report: _Report, answer: PreflightAnswer) -> str:
    """How much a yes is about."""
    sighted = f"{len(report.round)} sighted {'id' if len(report.round) == 1 else 'ids'}"
    if report.last is None:
        return f"first report of {sighted}, {answer.unsighted} on the sheet not sighted"
    return f"compared {answer.compared} of {sighted}, {answer.added} new, {answer.unsighted} on the sheet not sighted"


def _dates(windows: Any, last_date: Any, date: Any, first: bool) -> Optional[tuple]:
    """The windows and the two dates as the library takes them; None where no dates are asked about."""
    if windows is None:
        if date is not None or last_date is not None:
            raise TypeError("dates are asked about with windows, which are not given")
        return None
    if date is None or (last_date is None) != first:
        raise TypeError("windows go with date, and with last_date unless this is the first report")
    return lent_windows(windows), day(date if first else last_date), day(date)


def _with_dates(yes: Preflight, report: _Report, windows: Any, last_date: Any, date: Any) -> Preflight:
    """The yes to the other questions, unless question 11 fails."""
    answer = calls.cqdb_preflight_dates_words(windows, 3 * len(windows), *report.round.buffer_info(), last_date, date)
    accept(answer.refusal)
    if answer.question == 0:
        return yes
    id = report.round[answer.place]
    return Preflight(answer.question, f"id {id} has no window that holds both dates", None, id, answer.place)
