"""Names and ids one to one."""
from __future__ import annotations

import enum
from dataclasses import dataclass
from typing import Optional, Tuple

from cqdb.library import calls
from cqdb.memory import Image
from cqdb.refusal import accept


class Mismatch(enum.Enum):
    """How an entry fails."""

    OTHER_ID = 1
    """Its name has another id: an earlier put has this name."""
    OTHER_NAME = 2
    """Its name has its id, and its id has another name: a later put has this id."""


@dataclass(frozen=True)
class OneToOne:
    """Are names and ids one to one? It is true where they are; otherwise it has the first entry, in put order, that fails."""

    kind: Optional[Mismatch] = None
    offset: Optional[int] = None
    """Where the entry stands in the image."""
    id: Optional[int] = None
    name: Optional[str] = None

    def __bool__(self) -> bool:
        return self.kind is None


def first_mismatch(image: Image) -> Optional[Tuple[Mismatch, int, int, bytes]]:
    """The first entry that fails: how, its offset, its id and its name; none where names and ids are one to one. CQDBError where
    the image is not canonical."""
    answer = calls.cqdb_one_to_one(image, len(image))
    accept(answer.refusal)
    if answer.ok:
        return None
    entry = calls.cqdb_entry(image, len(image), answer.offset)
    return Mismatch(answer.kind), answer.offset, entry.id, image[entry.start : entry.start + entry.len]
