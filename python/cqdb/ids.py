"""The ids of a catalogue that have a name."""
from __future__ import annotations

from collections.abc import Mapping
from typing import TYPE_CHECKING, Iterator, Optional, Tuple

from cqdb.library import calls
from cqdb.names import id_number
from cqdb.rounds import id_rounds, name_round, place_round
from cqdb.views import Items, Values

if TYPE_CHECKING:
    from cqdb.catalogue import Catalogue


class Ids(Mapping[int, str]):
    """Ids to names, a Mapping: the ids that have a name, in rising order, each with the name of its last put. A one-way image
    names none. What is no id, or has no name, is no key.

    >>> from cqdb import Catalogue, Writer
    >>> writer = Writer()
    >>> writer.put("north wall", 7)
    >>> writer.put("crane", 1)
    >>> ids = Catalogue(writer.close()).ids
    >>> ids[7], 7 in ids, 2 in ids, dict(ids)
    ('north wall', True, False, {1: 'crane', 7: 'north wall'})
    """

    def __init__(self, catalogue: "Catalogue") -> None:
        self._catalogue = catalogue

    def __getitem__(self, id: int) -> str:
        """The name of an id, of its last put. KeyError where it has none."""
        number = _number(id)
        name = None if number is None else self._catalogue.name(number)
        if name is None:
            raise KeyError(id)
        return name

    def __contains__(self, id: object) -> bool:
        """Has the id a name?"""
        image, number = self._catalogue._lent(), _number(id)
        return number is not None and calls.cqdb_to_str(image, len(image), number).found == 1

    def __iter__(self) -> Iterator[int]:
        image = self._catalogue._lent()
        for ids in id_rounds(image):
            for id, place in zip(ids, place_round(image, ids)):
                if place is not None:
                    yield id

    def __len__(self) -> int:
        """The number of ids that have a name: each is asked for."""
        return sum(1 for _ in self)

    def _pairs(self) -> Iterator[Tuple[int, str]]:
        image, text = self._catalogue._lent(), self._catalogue._text
        for ids in id_rounds(image):
            for id, name in zip(ids, name_round(image, ids)):
                if name is not None:
                    yield id, text.decode(name)

    def items(self) -> Items:
        """The ids with their names."""
        return Items(self)

    def values(self) -> Values:
        """The names, in the order of their ids."""
        return Values(self)

    def __repr__(self) -> str:
        return f"<ids of {self._catalogue!r}>"


def _number(key: object) -> Optional[int]:
    """The id that a key is; None where it is none."""
    try:
        return id_number(key)
    except (TypeError, ValueError):
        return None
