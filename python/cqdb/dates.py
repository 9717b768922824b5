"""Dates and windows: some prisms stand only between two dates."""
from __future__ import annotations

import ctypes
import datetime
from typing import Any, Iterable, NamedTuple

from cqdb import library
from cqdb.names import id_number


class Window(NamedTuple):
    """The id's prism stands from the first date on; on the end date it stands no longer."""

    id: int
    first: datetime.date
    end: datetime.date


def day(date: datetime.date) -> library.Date:
    """A date as the library takes it."""
    if not isinstance(date, datetime.date):
        raise TypeError(f"a date is a datetime.date, not {type(date).__name__}")
    return library.Date(date.year, date.month, date.day)


def lent_windows(windows: Iterable[Window]) -> Any:
    """Windows as the library takes them: a ctypes array."""
    lent = [library.Window(id_number(id), day(first), day(end)) for id, first, end in windows]
    return (library.Window * len(lent))(*lent)
