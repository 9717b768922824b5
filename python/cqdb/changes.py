"""What differs between two catalogues."""
from __future__ import annotations

from typing import Iterator, NamedTuple, Optional, Tuple

from cqdb.library import StrAnswer, calls
from cqdb.memory import Image


class Change(NamedTuple):
    """An id whose name in one catalogue is another in the second, or is missing in one of them."""

    id: int
    before: Optional[str]
    after: Optional[str]


def changed(before: Image, after: Image) -> Iterator[Tuple[int, Optional[bytes], Optional[bytes]]]:
    """Each id that the two images name differently, with both names, in rising order. The library says which is the next."""
    start = 0
    while True:
        change = calls.cqdb_next_change(before, len(before), after, len(after), start)
        if not change.found:
            return
        yield change.id, _named(before, change.before), _named(after, change.after)
        start = change.id + 1


def _named(image: Image, answer: StrAnswer) -> Optional[bytes]:
    """The name at a place of an image, or none."""
    return image[answer.start : answer.start + answer.len] if answer.found else None
