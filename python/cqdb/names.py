"""Names, ids and choices as the library takes them: a name is bytes, an id a number below 2^32, a choice 0 or 1."""
from __future__ import annotations

import codecs
import operator
from typing import Any, Union

Bytes = Union[bytes, bytearray, memoryview]
Name = Union[str, bytes, bytearray, memoryview]
NAMES = (str, bytes, bytearray, memoryview)

LAST_ID = 4_294_967_295


def plain(content: Bytes) -> bytes:
    """The content as bytes themselves. A subclass may say that it is longer than it is, and the library is lent the length.

    >>> class Longer(bytes):
    ...     def __len__(self):
    ...         return 1_000_000
    >>> len(plain(Longer(b"crane")))
    5
    """
    return content if type(content) is bytes else bytes(memoryview(content))


class Text:
    """How a name that is text becomes bytes, and back. With surrogateescape bytes that are no text survive.

    >>> text = Text()
    >>> text.encode("Kai")
    b'Kai'
    >>> text.decode(b"Kai\\xff")
    'Kai\\udcff'
    >>> text.encode('Kai\\udcff')
    b'Kai\\xff'
    """

    def __init__(self, encoding: str = "utf-8", errors: str = "surrogateescape") -> None:
        codecs.lookup(encoding)
        codecs.lookup_error(errors)
        self.encoding = encoding
        self.errors = errors

    def encode(self, name: Name) -> bytes:
        """The bytes of a name that is text or bytes."""
        if isinstance(name, str):
            name = str.encode(name, self.encoding, self.errors)
        elif not isinstance(name, NAMES):
            raise TypeError(f"a name is str or bytes, not {type(name).__name__}")
        return name if type(name) is bytes else plain(name)

    def decode(self, name: bytes) -> str:
        """The text of a name's bytes."""
        return name.decode(self.encoding, self.errors)


def id_number(number: Any) -> int:
    """The number, where it is an id.

    >>> id_number(4294967296)
    Traceback (most recent call last):
        ...
    ValueError: an id is a number from 0 to 4294967295, not 4294967296
    """
    number = int.__index__(operator.index(number))
    if not 0 <= number <= LAST_ID:
        raise ValueError(f"an id is a number from 0 to {LAST_ID}, not {number}")
    return number


def choice(name: str, value: Any) -> int:
    """The number of a choice that is True or False.

    >>> choice("one_way", True)
    1
    >>> choice("one_way", 1.5)
    Traceback (most recent call last):
        ...
    TypeError: one_way is True or False, not 1.5
    """
    if not isinstance(value, int) or value not in (0, 1):
        raise TypeError(f"{name} is True or False, not {value!r}")
    return int(value == 1)
