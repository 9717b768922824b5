"""Many names or ids in one call of the library, up to 512: a round."""
from __future__ import annotations

from array import array
from itertools import accumulate
from typing import Iterator, List, Optional, Sequence, Tuple

from cqdb.library import calls
from cqdb.memory import Image
from cqdb.refusal import accept

ROUND = 512


def _address(words: array) -> int:
    return words.buffer_info()[0]


def _lookups(image: Image, names: Sequence[bytes]) -> array:
    """The answers for up to 512 names, four words each: found or not, the id, the buckets that were read, the entry's offset."""
    joined = b"".join(names)
    ends = array("Q", accumulate(map(len, names)))
    answers = array("I", bytes(16 * len(names)))
    answer = calls.cqdb_round_words(
        image, len(image), joined, len(joined), _address(ends), len(ends), _address(answers), len(answers)
    )
    accept(answer.refusal)
    return answers


def id_round(image: Image, names: Sequence[bytes]) -> List[Optional[int]]:
    """The ids of up to 512 names; None for a name that the image lacks."""
    answers = _lookups(image, names)
    return [number if found else None for found, number in zip(answers[0::4], answers[1::4])]


def offset_round(image: Image, names: Sequence[bytes]) -> List[Optional[int]]:
    """The offsets of the entries that the lookups of up to 512 names find; None for a name that the image lacks."""
    answers = _lookups(image, names)
    return [offset if found else None for found, offset in zip(answers[0::4], answers[3::4])]


def place_round(image: Image, ids: array) -> List[Optional[Tuple[int, int]]]:
    """Where the names of up to 512 ids begin and end in the image; None for an id that has none."""
    answers = array("I", bytes(16 * len(ids)))
    accept(calls.cqdb_name_round_words(image, len(image), _address(ids), len(ids), _address(answers), len(answers)))
    places: List[Optional[Tuple[int, int]]] = []
    for found, length, low, high in zip(answers[0::4], answers[1::4], answers[2::4], answers[3::4]):
        start = low | high << 32
        places.append((start, start + length) if found else None)
    return places


def name_round(image: Image, ids: array) -> List[Optional[bytes]]:
    """The names of up to 512 ids; None for an id that has none."""
    return [None if place is None else image[place[0] : place[1]] for place in place_round(image, ids)]


def id_rounds(image: Image) -> Iterator[array]:
    """The ids that may have a name, from 0 up to the back size, by rounds."""
    end = calls.cqdb_size_hint(image, len(image), 0)
    for first in range(0, end, ROUND):
        yield array("I", range(first, min(first + ROUND, end)))
