"""Writing an image."""
from __future__ import annotations

import ctypes
import threading
from typing import Any, NoReturn

from cqdb.files import replace
from cqdb.library import Counts, Record, calls
from cqdb.memory import Path, zeros
from cqdb.names import Name, Text, choice, id_number
from cqdb.refusal import Refusal, accept

FIRST_LENGTH = 4_096
FIRST_NAMES = 64
LARGEST_IMAGE = 4_294_967_295


def _in_place(record: Record) -> Any:
    """A record as the library takes it: its four numbers, and its two sizes."""
    return ctypes.byref(record), ctypes.byref(record, Record.length.offset)


class _Held:
    """What a writer holds: its record, counts, buffer, and the words of its index. The library changes them in place, all of them in
    one call. A larger one takes the place of this as a whole, so an exception at any moment, as that of a signal, leaves a writer
    whose parts fit each other."""

    __slots__ = ("record", "counts", "buffer", "slots", "names", "parts")

    def __init__(self, record: Record, counts: Any, buffer: Any, slots: Any, names: int) -> None:
        self.record, self.counts, self.buffer = record, counts, buffer
        # The index is right whenever no call is under way. Half of it stays empty up to this number of names.
        self.slots, self.names = slots, names
        self.parts = (*_in_place(record), counts, buffer, len(buffer), slots, len(slots))


class Writer:
    """Builds an image in memory, name by name.

    >>> writer = Writer()
    >>> writer.put("north wall", 0)
    >>> writer.put(b"crane", 1)
    >>> len(writer), len(writer.close())
    (2, 2145)

    With `one_way` the image names no ids. With `repeats` a name may be put again, as for a prism that is renewed under another
    id; otherwise that is refused. A put takes the same time however many names the writer holds; `cqdb.build` takes a whole list
    in one call. Threads may put in turn, and the handler of a signal may close a writer, but not put. A writer is neither copied nor
    pickled: its image is what others are given.
    """

    def __init__(
        self, *, one_way: bool = False, repeats: bool = False, encoding: str = "utf-8", errors: str = "surrogateescape"
    ) -> None:
        self._text = Text(encoding, errors)
        # A signal's handler runs inside a call of its thread, so the thread may take the lock again.
        self._lock = threading.RLock()
        self._busy = False
        mode, again = choice("one_way", one_way), choice("repeats", repeats)
        # Words that are all 0 are the index of a writer without entries. With repeats a put looks for no name, and needs none.
        slots, names = ((ctypes.c_uint32 * 0)(), LARGEST_IMAGE) if again else (_words(FIRST_NAMES), FIRST_NAMES)
        self._held = _Held(Record(), Counts(), zeros(FIRST_LENGTH), slots, names)
        accept(calls.cqdb_begin_parts(mode, again, *self._held.parts[:5]))

    def __len__(self) -> int:
        """The number of names that were put."""
        return self._held.record.entries

    def __bool__(self) -> bool:
        return True

    def __reduce_ex__(self, protocol: Any) -> NoReturn:
        raise TypeError("a writer cannot be copied or pickled: its image can, which close gives")

    def put(self, name: Name, id: int) -> None:
        """Puts a name, text or any bytes but zero, under an id. A name gives the id of its first put, an id the name of its
        last. CQDBError, and nothing changes, where the name has a zero byte (13), is held and repeats are off (16), or the image
        would exceed 4,294,967,295 bytes (3); MemoryError, and nothing changes, where memory cannot be had.

        >>> Writer().put("a\\0b", 1)
        Traceback (most recent call last):
            ...
        cqdb.refusal.CQDBError: the name has a zero byte (refusal 13)
        """
        encoded, number = self._text.encode(name), id_number(id)
        with self._lock:
            if self._busy:
                raise RuntimeError("a call of this writer is under way: a signal's handler may close it, but not put")
            try:
                self._busy = True
                refusal = self._put(encoded, number)
                if refusal == Refusal.NO_ROOM and self._grow(len(encoded), number):
                    refusal = self._put(encoded, number)
            finally:
                self._busy = False
        accept(refusal)

    def _put(self, name: bytes, id: int) -> int:
        """One put of the library, and its refusal."""
        held = self._held
        if held.names <= held.record.entries:
            held = self._index(2 * held.names)
        return calls.cqdb_put_indexed_parts(*held.parts, name, len(name), id)

    def _index(self, names: int) -> _Held:
        """Makes the index anew, for so many names."""
        held, slots = self._held, _words(names)
        accept(calls.cqdb_index_parts(*held.parts[:5], slots, len(slots)))
        self._held = larger = _Held(held.record, held.counts, held.buffer, slots, names)
        return larger

    def _grow(self, name_length: int, id: int) -> bool:
        """Takes a larger buffer with the same entries, where some image can hold this put."""
        held = self._held
        needed = calls.cqdb_size_with_parts(*_in_place(held.record), name_length, id)
        if needed > LARGEST_IMAGE:
            return False
        larger = _longer(held.record.length, needed)
        ctypes.memmove(larger, held.buffer, held.record.end)
        record = Record.from_buffer_copy(held.record)
        accept(calls.cqdb_grown_parts(*_in_place(record), len(larger)))
        self._held = _Held(record, held.counts, larger, held.slots, held.names)
        return True

    def close(self) -> bytes:
        """The image of the names so far. Further names may be put, and it may be closed again."""
        with self._lock:
            busy, held = self._busy, self._held
            try:
                self._busy = True
                answer = calls.cqdb_close_parts(*held.parts[:5])
                accept(answer.refusal)
                return held.buffer[: answer.size]
            finally:
                self._busy = busy

    def write(self, path: Path) -> int:
        """Closes, and writes the image to a file, whose size it gives. A reader sees the old file or the new one, never a part;
        where it fails, OSError is raised and the old file stays.

        >>> import tempfile
        >>> with tempfile.TemporaryDirectory() as folder:
        ...     Writer().write(folder + "/empty.cqdb")
        2072
        """
        image = self.close()
        replace(path, image)
        return len(image)


def _words(names: int) -> Any:
    """The zeroed words of an index for so many names."""
    words = calls.cqdb_index_words(names)
    return (ctypes.c_uint32 * words).from_buffer(zeros(4 * words))


def _longer(length: int, needed: int) -> Any:
    """A buffer that is as long as is needed; twice as long as before, if that is more and can be had, so that few are taken."""
    try:
        return zeros(min(max(2 * length, needed), LARGEST_IMAGE))
    except MemoryError:
        return zeros(needed)
