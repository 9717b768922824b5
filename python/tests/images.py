"""Images for the tests, and a second reading of them in plain Python, by the layout of docs/FORMAT.md."""
from __future__ import annotations

import struct
from typing import Dict, List, Tuple

import cqdb

Entries = List[Tuple[bytes, int]]

PRISMS: Entries = [(b"north wall", 0), (b"crane", 1), ("Gr\u00fc\u00dfe".encode(), 2), (b"", 4), (b"mole \xff", 5), (b"quay", 700)]


def many(count: int) -> Entries:
    """Entries with every third id left out."""
    return [(f"prism {i}".encode(), i + i // 2) for i in range(count)]


def image_of(entries: Entries, **choices: bool) -> bytes:
    writer = cqdb.Writer(**choices)
    for name, id in entries:
        writer.put(name, id)
    return writer.close()


def word(image: bytes, at: int) -> int:
    return struct.unpack_from("<I", image, at)[0]


def with_word(image: bytes, at: int, value: int) -> bytes:
    changed = bytearray(image)
    struct.pack_into("<I", changed, at, value)
    return bytes(changed)


def names_by_id(image: bytes) -> Dict[int, bytes]:
    """The names that the back array of a whole image leads to."""
    size, offset = word(image, 16), word(image, 20)
    names = {}
    for id in range(size):
        entry = word(image, offset + 4 * id)
        if entry:
            names[id] = image[entry + 8 : entry + 8 + word(image, entry + 4) - 1]
    return names
