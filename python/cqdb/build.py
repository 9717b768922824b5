"""A whole list in one call."""
from __future__ import annotations

from array import array
from typing import Any, Iterable, Iterator, List, NamedTuple, Optional, Tuple

from cqdb.library import calls
from cqdb.memory import zeros
from cqdb.names import Name, Text, choice, id_number
from cqdb.refusal import CQDBError, Refusal, accept
from cqdb.writer import LARGEST_IMAGE, Writer


class Built(NamedTuple):
    """The image of a list, and its refused puts: the place in the list, from 0, and the refusal."""

    image: bytes
    refused: List[Tuple[int, Refusal]]


def build(
    entries: Iterable[Tuple[Name, int]],
    *,
    one_way: bool = False,
    repeats: bool = False,
    encoding: str = "utf-8",
    errors: str = "surrogateescape",
) -> Built:
    """The image of names and their ids: the puts in order and one close, as Writer makes them, in time that grows with the list,
    unless repeats is true and one name comes very often.

    >>> from cqdb import Catalogue
    >>> image, refused = build([("north wall", 0), ("crane", 1), ("crane", 2)])
    >>> refused
    [(2, <Refusal.REPEATED: 16>)]
    >>> Catalogue(image)["crane"]
    1
    """
    mode, again = choice("one_way", one_way), choice("repeats", repeats)
    listed = _Listed(entries, Text(encoding, errors))
    needs = calls.cqdb_build_needs(mode, len(listed.names), *listed.ids.buffer_info())
    buffer = _room(needs.bytes)
    if buffer is None:
        return _put_one_by_one(listed, Writer(one_way=one_way, repeats=repeats))
    refusals, scratch = array("I", bytes(4 * len(listed.ids))), zeros(4 * needs.words)
    lists = [part for words in (listed.ends, listed.ids, refusals) for part in words.buffer_info()]
    answer = calls.cqdb_build_parts(
        mode, again, buffer, len(buffer), listed.names, len(listed.names), *lists, scratch, needs.words
    )
    accept(answer.refusal)
    refused = [(place, Refusal(number)) for place, number in enumerate(refusals) if number]
    return Built(buffer[: answer.size], refused)


class _Listed:
    """The packed names of a list, with their ends, and the ids."""

    def __init__(self, entries: Iterable[Tuple[Name, int]], text: Text) -> None:
        joined, self.ends, self.ids = bytearray(), array("Q"), array("I")
        for name, id in entries:
            joined += text.encode(name)
            self.ends.append(len(joined))
            self.ids.append(id_number(id))
        self.names = bytes(joined)

    def puts(self) -> Iterator[Tuple[bytes, int]]:
        """The names and their ids."""
        start = 0
        for end, id in zip(self.ends, self.ids):
            yield self.names[start:end], id
            start = end


def _room(length: int) -> Optional[Any]:
    """A buffer of this length; None where no image is so long, or memory cannot be had."""
    try:
        return zeros(length) if length <= LARGEST_IMAGE else None
    except MemoryError:
        return None


def _put_one_by_one(listed: _Listed, writer: Writer) -> Built:
    """The same answers by single puts, which take memory for accepted puts alone: a list with a put that is refused may need
    more memory as a whole than there is, as for the far id of a name that is held."""
    refused: List[Tuple[int, Refusal]] = []
    for place, (name, id) in enumerate(listed.puts()):
        try:
            writer.put(name, id)
        except CQDBError as error:
            refused.append((place, error.refusal))
    return Built(writer.close(), refused)
