"""Whether an image can be relied on."""
from __future__ import annotations

from dataclasses import astuple, dataclass
from typing import Iterable

from cqdb.library import calls
from cqdb.memory import Image


@dataclass(frozen=True)
class Check:
    """Can an image be relied on? It is true where each answer is yes."""

    canonical: bool
    """Some list of puts makes exactly these bytes."""
    readings_agree: bool
    """No name has a zero byte, so a C string shows all of it."""
    every_name_home: bool
    """The search for each id's name meets that id."""
    one_to_one: bool
    """Each entry's name has its id, and its id has its name; Catalogue.one_to_one says which entry fails."""

    def __bool__(self) -> bool:
        return all(astuple(self))


def checked(image: Image, ids: Iterable[int]) -> Check:
    """The answers for an image and the ids that have a name in it."""
    return Check(
        canonical=calls.cqdb_canonical(image, len(image)) == 1,
        readings_agree=calls.cqdb_readings_agree(image, len(image)) == 1,
        every_name_home=all(calls.cqdb_home(image, len(image), id) == 1 for id in ids),
        one_to_one=calls.cqdb_one_to_one(image, len(image)).ok == 1,
    )
