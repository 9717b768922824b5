"""How catalogues are pickled: one from a file by its path, any other by its bytes."""
from __future__ import annotations

import hashlib
from typing import Any

from cqdb.memory import Image
from cqdb.names import Text


def digest(image: Image) -> bytes:
    """What tells an image from others: its BLAKE2b."""
    return hashlib.blake2b(image, digest_size=32).digest()


def from_bytes(kind: Any, image: bytes, encoding: str, errors: str) -> Any:
    """A catalogue that was pickled by its bytes."""
    return kind._over(image, Text(encoding, errors))


def from_file(kind: Any, path: str, expected: bytes, encoding: str, errors: str) -> Any:
    """A catalogue that was pickled by its path. ValueError where the file has another image by now, whose names may be others."""
    catalogue = kind.open(path, encoding=encoding, errors=errors)
    if digest(catalogue._lent()) != expected:
        raise ValueError(f"{path} holds another image than the catalogue that was pickled")
    return catalogue
