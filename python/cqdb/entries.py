"""The entries that lookups give: one for each name that has an id. The tables lead to them."""
from __future__ import annotations

from array import array
from typing import Iterable, Iterator, List, Set, Tuple

from cqdb.library import calls
from cqdb.memory import Image
from cqdb.rounds import ROUND, offset_round

TABLES = 256
BYTES = 1_000_000
"""So many bytes of names go into a round, or one longer name."""
Candidate = Tuple[int, int, int, int]
"""An entry: its offset, where its name begins, the name's length, and the id."""


class FirstPuts:
    """These entries, each once, in the order of their offsets: the order of the first puts, in an image of a writer. Each has 16 bytes
    here, so that a walk over the names asks the library nothing.

    A lookup finds an entry by a bucket of its name's table, so none is left out. Each name is looked up and must be found at this
    offset, so none is here that lookups do not give, however the image is damaged."""

    __slots__ = ("_starts", "_lengths", "_ids")

    def __init__(self, image: Image) -> None:
        found: Set[int] = set()
        for entries in _rounds(_candidates(image)):
            places = offset_round(image, [image[start : start + length] for _, start, length, _ in entries])
            # An entry as one number, and in the order of the offsets.
            found.update(
                start << 64 | length << 32 | id
                for (offset, start, length, id), place in zip(entries, places)
                if offset == place
            )
        self._starts, self._lengths, self._ids = array("Q"), array("I"), array("I")
        for packed in sorted(found):
            self._starts.append(packed >> 64)
            self._lengths.append(packed >> 32 & 0xFFFF_FFFF)
            self._ids.append(packed & 0xFFFF_FFFF)

    def __len__(self) -> int:
        return len(self._ids)

    def pairs(self, image: Image) -> Iterator[Tuple[bytes, int]]:
        """The names with their ids."""
        for start, length, id in zip(self._starts, self._lengths, self._ids):
            yield image[start : start + length], id


def _candidates(image: Image) -> Iterator[Candidate]:
    """The entries at the offsets in the buckets of each table, where the hash is of that table and the entry stands whole in the
    image."""
    entry_of, size = calls.cqdb_entry, len(image)
    for table in range(TABLES):
        answer = calls.cqdb_table(image, size, table)
        words = array("I", image[answer.start : answer.start + 8 * answer.buckets])
        for hash, offset in zip(words[0::2], words[1::2]):
            if offset and hash % TABLES == table:
                entry = entry_of(image, size, offset)
                if entry.found:
                    yield offset, entry.start, entry.len, entry.id


def _rounds(entries: Iterable[Candidate]) -> Iterator[List[Candidate]]:
    """The entries by rounds: up to 512, and no more than some bytes of names."""
    taken: List[Candidate] = []
    size = 0
    for entry in entries:
        length = entry[2]
        if len(taken) == ROUND or taken and size + length > BYTES:
            yield taken
            taken, size = [], 0
        taken.append(entry)
        size += length
    if taken:
        yield taken
