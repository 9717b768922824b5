"""Memory that the library is lent."""
from __future__ import annotations

import ctypes
import mmap
import os
import stat
from typing import Any, Union

# An image is bytes, or a ctypes array of c_char over memory or a mapped file: both are lent by their address, have a length, and
# give bytes for a slice.
Image = Any
Path = Union[str, bytes, "os.PathLike[str]", "os.PathLike[bytes]"]


def zeros(length: int) -> Any:
    """So many zero bytes as a ctypes array. A part takes memory once it is written, so that a far id does not take gigabytes
    before the image is closed. MemoryError where there is no room.

    >>> lent = zeros(4)
    >>> len(lent), lent.raw
    (4, b'\\x00\\x00\\x00\\x00')
    """
    try:
        whole = mmap.mmap(-1, max(length, 1), flags=mmap.MAP_PRIVATE | mmap.MAP_ANONYMOUS)
    except OSError as error:
        raise MemoryError(f"{length} bytes: {error.strerror}") from error
    return (ctypes.c_char * length).from_buffer(whole)


def mapped(path: Path) -> Image:
    """The bytes of a file, mapped; read where it is no regular file or is empty, which cannot be mapped. The map is private and
    is let go with the array over it. TypeError where the path is a number: a descriptor stays its owner's."""
    with open(os.fspath(path), "rb") as file:
        status = os.fstat(file.fileno())
        if not stat.S_ISREG(status.st_mode) or status.st_size == 0:
            return file.read()
        whole = mmap.mmap(file.fileno(), 0, access=mmap.ACCESS_COPY)
    return (ctypes.c_char * len(whole)).from_buffer(whole)


def part(image: Image, start: int, size: int) -> Image:
    """Some bytes of an image; those of a mapped file are not copied."""
    if isinstance(image, bytes):
        return image[start : start + size]
    return (ctypes.c_char * size).from_buffer(image, start)
