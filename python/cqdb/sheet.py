"""The round sheet."""
from __future__ import annotations

import os
from array import array
from typing import NamedTuple, Tuple

from cqdb.files import replace
from cqdb.library import calls
from cqdb.memory import Image, Path, mapped, zeros
from cqdb.names import Bytes, id_number, plain
from cqdb.refusal import accept


class Sheet(NamedTuple):
    """The ids of a round sheet: references, wall prisms and retired prisms.

    >>> sheet = Sheet(references=(1, 2), walls=(7,))
    >>> bytes(sheet).hex()
    '020001000000020000000100070000000000'
    >>> Sheet.read(bytes(sheet)) == sheet
    True
    """

    references: Tuple[int, ...] = ()
    walls: Tuple[int, ...] = ()
    retired: Tuple[int, ...] = ()

    @classmethod
    def read(cls, file: Bytes) -> "Sheet":
        """The sheet in a file's bytes. CQDBError where they end before its third section does (19), or where bytes follow it (20)."""
        return cls._in(plain(file), "")

    @classmethod
    def open(cls, path: Path) -> "Sheet":
        """The sheet in a file. OSError where the file cannot be read, CQDBError where it is no sheet."""
        return cls._in(mapped(path), os.fsdecode(path))

    @classmethod
    def _in(cls, file: Image, where: str) -> "Sheet":
        answer = calls.cqdb_sheet_read(file, len(file))
        accept(answer.refusal, where)
        parts = [file[start : start + 4 * count] for start, count in zip(answer.starts, answer.counts)]
        return cls(*(tuple(array("I", ids)) for ids in parts))

    def __bytes__(self) -> bytes:
        """The file of the sheet. CQDBError where a list has more than 65,535 ids (21)."""
        lists = [array("I", map(id_number, ids)) for ids in self]
        buffer = zeros(6 + 4 * sum(map(len, lists)))
        answer = calls.cqdb_sheet_write(buffer, len(buffer), *(part for ids in lists for part in ids.buffer_info()))
        accept(answer.refusal)
        return buffer[: answer.length]

    def write(self, path: Path) -> int:
        """Writes the sheet to a file, whose size it gives. A reader sees the old file or the new one, never a part."""
        file = bytes(self)
        replace(path, file)
        return len(file)
