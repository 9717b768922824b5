"""Refusals: why a call was turned down."""
from __future__ import annotations

import enum


class Refusal(enum.IntEnum):
    """A refusal by its number, the same in C, Rust and the tool, and its text.

    >>> Refusal(16)
    <Refusal.REPEATED: 16>
    >>> Refusal.REPEATED.text
    'the writer already holds this name, and repeats are off'
    """

    text: str

    def __new__(cls, number: int, text: str) -> "Refusal":
        member = int.__new__(cls, number)
        member._value_ = number
        member.text = text
        return member

    TOO_SHORT = 1, "invalid file format"
    UNFIT = 2, "the writer does not fit its buffer"
    NO_ROOM = 3, "no room: the image would be too large"
    INCONSISTENT = 4, "the buffer's entries are not those of the writer"
    WRONG_LETTERS = 5, "invalid file format, magic mismatch"
    WRONG_BYTE_ORDER = 6, "invalid file format, byte order mismatch"
    TABLE_LEAVES = 7, "invalid table data: out of bounds"
    BACK_LEAVES = 8, "invalid backward link data: out of bounds"
    NAME_TOO_LONG = 9, "the name is too long"
    BROKEN_BUNDLE = 10, "invalid bundle: no image begins where one should"
    NO_SUCH_IMAGE = 11, "the bundle has no image at this position"
    PAGE_TOO_LONG = 12, "the page is longer than the output"
    ZERO_BYTE = 13, "the name has a zero byte"
    ROUND_UNFIT = 14, "the round has too many names or ids, or ends that do not fit its names"
    ANSWERS_TOO_FEW = 15, "the answer list is shorter than the round"
    REPEATED = 16, "the writer already holds this name, and repeats are off"
    NOT_CANONICAL = 17, "the image is not canonical: no list of puts makes it"
    NO_ENTRIES = 18, "the image has no entry"
    TOO_FEW_BYTES = 19, "invalid round sheet, too few bytes"
    LEFT_OVER_BYTES = 20, "invalid round sheet, left-over bytes"
    SHEET_TOO_LARGE = 21, "no room: a list of the round sheet is too long, or its buffer too short"
    NO_SUCH_DATE = 22, "a date does not exist, or is out of bounds"
    NOT_BEFORE_END = 23, "a window does not start before its end"
    INDEX_FULL = 24, "the index has no free slot"


class CQDBError(Exception):
    """A call was refused, and nothing was changed. The error has the refusal, its number and its text.

    >>> error = CQDBError(5, "walls.cqdb")
    >>> str(error)
    'walls.cqdb: invalid file format, magic mismatch (refusal 5)'
    >>> error.refusal, error.number
    (<Refusal.WRONG_LETTERS: 5>, 5)
    """

    def __init__(self, number: int, where: str = "") -> None:
        super().__init__(number, where)
        self.refusal = Refusal(number)
        self.where = where

    @property
    def number(self) -> int:
        """The refusal's number."""
        return self.refusal.value

    @property
    def text(self) -> str:
        """What the number means."""
        return self.refusal.text

    def __str__(self) -> str:
        place = f"{self.where}: " if self.where else ""
        return f"{place}{self.text} (refusal {self.number})"


def accept(number: int, where: str = "") -> None:
    """Raises CQDBError unless the number is 0."""
    if number != 0:
        raise CQDBError(number, where)
