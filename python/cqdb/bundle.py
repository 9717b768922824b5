"""Several walls in a file."""
from __future__ import annotations

import ctypes
import operator
import os
from collections.abc import Sequence
from typing import Any, List, Optional, Union, overload

from cqdb.catalogue import Catalogue
from cqdb.files import replace
from cqdb.library import calls
from cqdb.memory import Image, Path, mapped, part, zeros
from cqdb.names import Bytes, Text, plain
from cqdb.pickles import from_bytes
from cqdb.refusal import Refusal, accept


class Bundle(Sequence[Catalogue]):
    """The catalogues of a file that holds images back to back; an empty file holds none.

    >>> from cqdb import build
    >>> bundle = Bundle()
    >>> for wall in ("north wall", "quay"):
    ...     bundle.append(build([(wall, 0)]).image)
    >>> len(bundle), bundle[1]["quay"], [catalogue.name(0) for catalogue in bundle]
    (2, 0, ['north wall', 'quay'])
    """

    def __init__(self, file: Bytes = b"", *, encoding: str = "utf-8", errors: str = "surrogateescape") -> None:
        """The bundle in these bytes, whatever they are."""
        self._file: Optional[Image] = plain(file)
        self._text, self._where = Text(encoding, errors), ""

    @classmethod
    def open(cls, path: Path, *, encoding: str = "utf-8", errors: str = "surrogateescape") -> "Bundle":
        """The bundle in a file, which is mapped and not read, as Catalogue.open does. OSError where it cannot be read."""
        return cls._over(mapped(path), Text(encoding, errors), os.fsdecode(path))

    @classmethod
    def _over(cls, file: Image, text: Text, where: str = "") -> "Bundle":
        """A bundle over a file that nobody changes. `where` names it in an error."""
        bundle = cls.__new__(cls)
        bundle._file, bundle._text, bundle._where = file, text, where
        return bundle

    def _lent(self) -> Image:
        file = self._file
        if file is None:
            raise ValueError("the bundle is closed")
        return file

    def close(self) -> None:
        """Lets go of the file; catalogues that were opened stay open. Calls then raise ValueError."""
        self._file = None

    def __enter__(self) -> "Bundle":
        self._lent()
        return self

    def __exit__(self, *_: object) -> None:
        self.close()

    def __repr__(self) -> str:
        state = "closed" if self._file is None else f"{len(self._file)} bytes"
        return f"<cqdb.Bundle: {state}>"

    def __len__(self) -> int:
        """The number of images. CQDBError where they do not lie back to back (10)."""
        file = self._lent()
        answer = calls.cqdb_bundle_count(file, len(file))
        accept(answer.refusal, self._where)
        return answer.images

    @overload
    def __getitem__(self, position: int) -> Catalogue: ...

    @overload
    def __getitem__(self, position: slice) -> List[Catalogue]: ...

    def __getitem__(self, position: Union[int, slice]) -> Union[Catalogue, List[Catalogue]]:
        """The catalogue at a position, from 0; of a slice a list of them. IndexError where there is none, CQDBError where the images up
        to it do not lie back to back (10) or where it does not open (5 to 8)."""
        if isinstance(position, slice):
            return [self._at(place) for place in range(len(self))[position]]
        place = operator.index(position)
        return self._at(place + len(self) if place < 0 else place)

    def _at(self, position: int) -> Catalogue:
        file = self._lent()
        # A file has more bytes than images, so its length is a position behind all of them.
        answer = calls.cqdb_bundle_open(file, len(file), min(max(position, 0), len(file)))
        if position < 0 or answer.refusal == Refusal.NO_SUCH_IMAGE:
            raise IndexError(f"the bundle has no image at position {position}")
        where = f"{self._where}: image {position}" if self._where else f"image {position}"
        accept(answer.refusal, where)
        return Catalogue._over(part(file, answer.start, answer.size), self._text, where)

    def append(self, image: Union[Bytes, Catalogue]) -> None:
        """Appends an image to the bundle in memory; `write` writes it to a file. CQDBError, and nothing changes, where the images do
        not lie back to back, or the new one is not as long as its size word says (10)."""
        file, added = self._lent(), bytes(image) if isinstance(image, Catalogue) else plain(image)
        longer: Any = zeros(len(file) + len(added))
        ctypes.memmove(longer, file, len(file))
        answer = calls.cqdb_bundle_append(longer, len(longer), len(file), added, len(added))
        accept(answer.refusal, self._where)
        self._file = longer

    def __bytes__(self) -> bytes:
        """The file."""
        return self._lent()[:]

    def write(self, path: Path) -> int:
        """Writes the bundle to a file, whose size it gives. A reader sees the old file or the new one, never a part."""
        file = bytes(self)
        replace(path, file)
        return len(file)

    def __reduce__(self) -> Any:
        return from_bytes, (type(self), bytes(self), self._text.encoding, self._text.errors)
