"""Files that are written beside their place and moved there."""
from __future__ import annotations

import contextlib
import errno
import os
import secrets
import stat
from typing import Optional, Tuple

from cqdb.memory import Path

BEGINNING = 200
"""So many bytes of a file's name begin the name of the new file, which may not be longer than a name may be."""


def replace(path: Path, content: bytes) -> None:
    """Writes a file beside its place and moves it there: a reader sees the old file or the new one, never a part. Where that
    fails, OSError is raised and the old file stays. Of a symbolic link the file behind it is replaced. Owner, group and mode of
    the old file are kept, as far as the user may."""
    place = _place(path)
    old = _status(place)
    file, beside = _beside(place)
    try:
        with os.fdopen(file, "wb") as stream:
            if old is not None:
                _keep_rights(stream.fileno(), old)
            stream.write(content)
            stream.flush()
            os.fsync(stream.fileno())
        os.replace(beside, place)
    except BaseException:
        with contextlib.suppress(FileNotFoundError):
            os.unlink(beside)
        raise
    _sync(os.path.dirname(place))


def _place(path: Path) -> bytes:
    """Where the file is to stand. A path without a last name names no file."""
    given = os.fsencode(path)
    if not given:
        raise FileNotFoundError(errno.ENOENT, os.strerror(errno.ENOENT), os.fsdecode(given))
    if not os.path.basename(given):
        raise IsADirectoryError(errno.EISDIR, os.strerror(errno.EISDIR), os.fsdecode(given))
    return os.path.realpath(given)


def _beside(place: bytes) -> Tuple[int, bytes]:
    """A new file beside the place, under a name that no other thread has, nor a file that was left behind."""
    while True:
        folder, name = os.path.split(place)
        beside = os.path.join(folder, name[:BEGINNING] + f".{secrets.token_hex(8)}.new".encode())
        with contextlib.suppress(FileExistsError):
            return os.open(beside, os.O_WRONLY | os.O_CREAT | os.O_EXCL | os.O_CLOEXEC, 0o666), beside


def _status(place: bytes) -> Optional[os.stat_result]:
    """About the file that stands there; None where there is none."""
    try:
        status = os.stat(place)
    except FileNotFoundError:
        return None
    if not stat.S_ISREG(status.st_mode):
        raise OSError(f"{os.fsdecode(place)} is no regular file")
    return status


def _keep_rights(file: int, old: os.stat_result) -> None:
    """Gives a new file owner, group and mode of the old one. Where the user may not give it the owner, the group alone."""
    new = os.fstat(file)
    if (new.st_uid, new.st_gid) != (old.st_uid, old.st_gid):
        try:
            os.fchown(file, old.st_uid, old.st_gid)
        except OSError:
            with contextlib.suppress(OSError):
                os.fchown(file, -1, old.st_gid)
    os.fchmod(file, stat.S_IMODE(old.st_mode))


def _sync(folder: bytes) -> None:
    """The move itself is on the disk once the folder is. The file has been moved, so a folder that may not be read is no failure."""
    with contextlib.suppress(OSError):
        file = os.open(folder, os.O_RDONLY | os.O_DIRECTORY | os.O_CLOEXEC)
        try:
            os.fsync(file)
        finally:
            os.close(file)
