"""Reading an image."""
from __future__ import annotations

import ctypes
import os
from array import array
from collections.abc import Mapping
from datetime import date as Date
from typing import Any, Iterable, Iterator, List, Optional, Tuple, TypeVar, Union

from cqdb.changes import Change, changed
from cqdb.check import Check, checked
from cqdb.dates import Window, day, lent_windows
from cqdb.entries import FirstPuts
from cqdb.ids import Ids
from cqdb.library import SHORT, calls, short_to_id
from cqdb.memory import Image, Path, mapped
from cqdb.names import NAMES, Bytes, Name, Text, id_number, plain
from cqdb.one_to_one import OneToOne, first_mismatch
from cqdb.pickles import digest, from_bytes, from_file
from cqdb.refusal import accept
from cqdb.rounds import ROUND, id_round, name_round
from cqdb.views import Items, Values

Default = TypeVar("Default")


class Catalogue(Mapping[str, int]):
    """An opened image, a Mapping from names to ids; `ids` is the Mapping from ids to names.

    >>> from cqdb import Writer
    >>> writer = Writer()
    >>> for id, name in enumerate(["north wall", "crane", "quay"]):
    ...     writer.put(name, id)
    >>> with Catalogue(writer.close()) as catalogue:
    ...     len(catalogue), "crane" in catalogue, catalogue["crane"], catalogue.ids[2], dict(catalogue)
    (3, True, 1, 'quay', {'north wall': 0, 'crane': 1, 'quay': 2})

    Names are asked for as str or bytes, and given as str; text becomes bytes by `encoding` and `errors`, and back. A name has the id
    of its first put, an id the name of its last. Iteration gives each name that has an id once, in the order of the first puts.
    The first iteration, and the first `len`, walk the tables and keep four bytes for each name.

    Any number of threads may read a catalogue. Every call ends and answers on damaged images too. A catalogue is pickled by its
    path where it was opened from a file, otherwise by its bytes; a file that holds another image when it is unpickled is refused.
    """

    def __init__(self, image: Bytes, *, encoding: str = "utf-8", errors: str = "surrogateescape") -> None:
        """Opens the image in these bytes, which are kept; bytes may follow it. CQDBError where they are no image."""
        self._begin(plain(image), Text(encoding, errors), "")

    @classmethod
    def open(cls, path: Path, *, encoding: str = "utf-8", errors: str = "surrogateescape") -> "Catalogue":
        """Opens the image in a file, which is mapped and not read. OSError where the file cannot be read, CQDBError where it is
        no image. A file that is replaced, as by Writer.write, stays mapped as it was; one that is written in place gives other
        answers, and one that is cut short may read as zeros, or end the process by a signal.

        >>> import tempfile, cqdb
        >>> with tempfile.TemporaryDirectory() as folder:
        ...     writer = cqdb.Writer()
        ...     writer.put("crane", 1)
        ...     size = writer.write(folder + "/walls.cqdb")
        ...     with Catalogue.open(folder + "/walls.cqdb") as catalogue:
        ...         print(catalogue["crane"])
        1
        """
        image = mapped(path)
        catalogue = cls._over(image, Text(encoding, errors), os.fsdecode(path))
        if not isinstance(image, bytes):
            catalogue._path = os.path.abspath(os.fsdecode(path))
        return catalogue

    @classmethod
    def _over(cls, image: Image, text: Text, where: str = "") -> "Catalogue":
        """A catalogue over an image that nobody changes. `where` names it in an error."""
        catalogue = cls.__new__(cls)
        catalogue._begin(image, text, where)
        return catalogue

    def _begin(self, image: Image, text: Text, where: str) -> None:
        self._image: Optional[Image] = None
        answer = calls.cqdb_open(image, len(image))
        accept(answer.refusal, where)
        self._image = image
        self._num: int = answer.num
        self._length = ctypes.c_size_t(len(image))
        self._text = text
        self._path: Optional[str] = None
        self._first_puts: Optional[FirstPuts] = None

    def _lent(self) -> Image:
        """The image, which the caller holds while the library reads it, so that a close by another thread does no harm."""
        image = self._image
        if image is None:
            raise ValueError("the catalogue is closed")
        return image

    def close(self) -> None:
        """Lets go of the image. Calls then raise ValueError; closing again does nothing."""
        self._image = self._first_puts = None

    def __enter__(self) -> "Catalogue":
        self._lent()
        return self

    def __exit__(self, *_: object) -> None:
        self.close()

    def __repr__(self) -> str:
        state = "closed" if self._image is None else f"{self._num} entries"
        return f"<cqdb.Catalogue: {state}>"

    def __bytes__(self) -> bytes:
        """The image, and the bytes that follow it."""
        return self._lent()[:]

    def __reduce__(self) -> Tuple[Any, ...]:
        image, text = self._lent(), self._text
        if self._path is None:
            return from_bytes, (type(self), image[:], text.encoding, text.errors)
        return from_file, (type(self), self._path, digest(image), text.encoding, text.errors)

    def __copy__(self) -> "Catalogue":
        """Another catalogue over the same image, which nobody changes."""
        other = self._over(self._lent(), self._text)
        other._path = self._path
        return other

    def __deepcopy__(self, memo: Any) -> "Catalogue":
        return self.__copy__()

    @property
    def num(self) -> int:
        """The number of entries by the tables' sizes. A name that was put again counts again."""
        self._lent()
        return self._num

    def _find(self, name: Any) -> Optional[int]:
        """The id of a name; None where it has none, and for what is no name."""
        image = self._lent()
        if not isinstance(name, NAMES):
            # As a dict does, which takes any key that can be hashed.
            hash(name)
            return None
        try:
            wanted = self._text.encode(name)
        except UnicodeError:
            # No bytes are this text, so no name is.
            return None
        if len(wanted) <= SHORT:
            answer = short_to_id(image, self._length, wanted, len(wanted))
        else:
            answer = calls.cqdb_to_id(image, len(image), wanted, len(wanted))
        return answer.id if answer.found else None

    def __contains__(self, name: object) -> bool:
        """Has the name an id?

        >>> catalogue = _example()
        >>> "crane" in catalogue, b"crane" in catalogue, "mole" in catalogue, 1 in catalogue, 1 in catalogue.ids
        (True, True, False, False, True)
        """
        return self._find(name) is not None

    def __getitem__(self, name: Name) -> int:
        """The id of a name, of its first put. KeyError where it has none."""
        found = self._find(name)
        if found is None:
            raise KeyError(name)
        return found

    def get(self, name: Name, default: Optional[Default] = None) -> Union[int, Optional[Default]]:  # type: ignore[override]
        """The id of a name, or the default."""
        found = self._find(name)
        return default if found is None else found

    def _entries(self, image: Image) -> FirstPuts:
        """The entries that lookups give."""
        found = self._first_puts
        if found is None:
            found = self._first_puts = FirstPuts(image)
        return found

    def __len__(self) -> int:
        """The number of names that have an id. `num` counts a name that was put again each time."""
        return len(self._entries(self._lent()))

    def __iter__(self) -> Iterator[str]:
        """The names that have an id, in the order of their first puts.

        >>> list(_example())
        ['north wall', 'crane']
        """
        return (name for name, _ in self._pairs())

    def _pairs(self) -> Iterator[Tuple[str, int]]:
        image = self._lent()
        for name, id in self._entries(image).pairs(image):
            yield self._text.decode(name), id

    def items(self) -> Items:
        """The names with their ids.

        >>> list(_example().items())
        [('north wall', 0), ('crane', 1)]
        """
        return Items(self)

    def values(self) -> Values:
        """The ids, in the order of their names."""
        return Values(self)

    @property
    def ids(self) -> Ids:
        """The ids that have a name, a Mapping from ids to names in rising order of the ids.

        >>> dict(_example().ids)
        {0: 'north wall', 1: 'crane'}
        """
        self._lent()
        return Ids(self)

    def round(self, names: Iterable[Name]) -> List[Optional[int]]:
        """The ids of several names, None for one that has none. Up to 512 are asked for in one call of the library.

        >>> _example().round(["crane", "mole", b"north wall"])
        [1, None, 0]
        """
        image = self._lent()
        if isinstance(names, NAMES):
            raise TypeError("round takes several names, not one")
        wanted = [self._text.encode(name) for name in names]
        found: List[Optional[int]] = []
        for first in range(0, len(wanted), ROUND):
            found.extend(id_round(image, wanted[first : first + ROUND]))
        return found

    def name_bytes(self, id: int) -> Optional[bytes]:
        """The name of an id, of its last put, as bytes; None where it has none, as in every one-way image."""
        image = self._lent()
        answer = calls.cqdb_to_str(image, len(image), id_number(id))
        return image[answer.start : answer.start + answer.len] if answer.found else None

    def _decoded(self, name: Optional[bytes]) -> Optional[str]:
        return None if name is None else self._text.decode(name)

    def name(self, id: int) -> Optional[str]:
        """The name of an id, of its last put; None where it has none."""
        return self._decoded(self.name_bytes(id))

    def name_round(self, ids: Iterable[int]) -> List[Optional[str]]:
        """The names of several ids, None for one that has none.

        >>> _example().name_round([1, 7, 0])
        ['crane', None, 'north wall']
        """
        image = self._lent()
        wanted = array("I", map(id_number, ids))
        found: List[Optional[str]] = []
        for first in range(0, len(wanted), ROUND):
            found.extend(map(self._decoded, name_round(image, wanted[first : first + ROUND])))
        return found

    def name_on(self, id: int, date: Date, windows: Iterable[Window]) -> Optional[str]:
        """The name of an id on a date: its name where some of the windows has this id and holds the date, otherwise None. CQDBError
        where a date is not from 1900 to 2199 (22), or a window does not start before its end (23).

        >>> season = [Window(1, Date(2026, 4, 1), Date(2026, 10, 1))]
        >>> _example().name_on(1, Date(2026, 4, 1), season), _example().name_on(1, Date(2026, 10, 1), season)
        ('crane', None)
        """
        image, lent = self._lent(), lent_windows(windows)
        answer = calls.cqdb_name_on(image, len(image), id_number(id), day(date), lent, len(lent))
        accept(answer.refusal)
        return self._text.decode(image[answer.start : answer.start + answer.len]) if answer.found else None

    @property
    def back_size(self) -> int:
        """The largest id that was put, plus 1; 0 where no id can have a name, as in a one-way image."""
        image = self._lent()
        return calls.cqdb_size_hint(image, len(image), 0)

    def changes(self, other: "Catalogue") -> Iterator[Change]:
        """Each id that has another name in the other catalogue, or a name in one of the two only, in rising order.

        >>> from cqdb import Writer
        >>> writer = Writer()
        >>> writer.put("north wall", 0)
        >>> writer.put("mole", 2)
        >>> for change in _example().changes(Catalogue(writer.close())):
        ...     print(change)
        Change(id=1, before='crane', after=None)
        Change(id=2, before=None, after='mole')
        """
        before, after = self._lent(), _catalogue(other)._lent()
        found = changed(before, after)
        return (Change(id, self._decoded(old), other._decoded(new)) for id, old, new in found)

    def moved(self, other: "Catalogue", id: int) -> Optional[int]:
        """The other id that the name of this id has in the other catalogue; None where the id has no name here, or its name has the
        same id there, or none. Two ids that exchanged names have both moved, unless a name was put twice.

        >>> from cqdb import Writer
        >>> writer = Writer()
        >>> writer.put("north wall", 1)
        >>> writer.put("crane", 0)
        >>> after = Catalogue(writer.close())
        >>> _example().moved(after, 0), _example().moved(after, 1), _example().moved(_example(), 0)
        (1, 0, None)
        """
        before, after = self._lent(), _catalogue(other)._lent()
        answer = calls.cqdb_moved(before, len(before), after, len(after), id_number(id))
        return answer.id if answer.found else None

    def one_to_one(self) -> OneToOne:
        """Are names and ids one to one? They are where the name of every entry has its id and, in a two-way image, its id has its
        name. CQDBError where the image is not canonical, which no list of puts makes (17).

        >>> bool(_example().one_to_one())
        True
        >>> from cqdb import Writer
        >>> writer = Writer()
        >>> writer.put("crane", 0)
        >>> writer.put("mole", 0)
        >>> Catalogue(writer.close()).one_to_one()
        OneToOne(kind=<Mismatch.OTHER_NAME: 2>, offset=2072, id=0, name='crane')
        """
        found = first_mismatch(self._lent())
        if found is None:
            return OneToOne()
        kind, offset, id, name = found
        return OneToOne(kind, offset, id, self._text.decode(name))

    def check(self) -> Check:
        """Says of each question whether the image can be relied on.

        >>> _example().check()
        Check(canonical=True, readings_agree=True, every_name_home=True, one_to_one=True)
        """
        return checked(self._lent(), self.ids)


def _catalogue(other: Any) -> Catalogue:
    """What is given, where it is a catalogue."""
    if not isinstance(other, Catalogue):
        raise TypeError(f"a catalogue is compared with a cqdb.Catalogue, not {type(other).__name__}")
    return other


def _example() -> Catalogue:
    """A catalogue of two names, for the examples above."""
    from cqdb.writer import Writer

    writer = Writer()
    writer.put("north wall", 0)
    writer.put("crane", 1)
    return Catalogue(writer.close())
