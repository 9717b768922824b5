"""The shared library: where it stands, and its structs and functions as include/cqdb.h declares them."""
from __future__ import annotations

import ctypes
import os
import pathlib
from ctypes import Structure, c_size_t, c_uint8, c_uint16, c_uint32, c_uint64, c_void_p
from typing import Any, List, Tuple

from cqdb.version import __version__

FILE = "libcqdb.so.0"
VERSION = tuple(map(int, __version__.split(".")[:2]))
"""Major and minor of the version whose structs and functions stand below."""


class OpenAnswer(Structure):
    _fields_ = [("refusal", c_uint32), ("num", c_uint32)]


class IdAnswer(Structure):
    _fields_ = [("found", c_uint32), ("id", c_uint32), ("buckets", c_uint32), ("offset", c_uint32)]


class StrAnswer(Structure):
    _fields_ = [("found", c_uint32), ("len", c_uint32), ("start", c_uint64)]


class EntryAnswer(Structure):
    _fields_ = [("found", c_uint32), ("id", c_uint32), ("len", c_uint32), ("start", c_uint64)]


class TableAnswer(Structure):
    _fields_ = [("buckets", c_uint32), ("start", c_uint32)]


class ChangeAnswer(Structure):
    _fields_ = [("found", c_uint32), ("id", c_uint32), ("before", StrAnswer), ("after", StrAnswer)]


class MovedAnswer(Structure):
    _fields_ = [("found", c_uint32), ("id", c_uint32)]


class OneToOneAnswer(Structure):
    _fields_ = [("refusal", c_uint32), ("ok", c_uint32), ("kind", c_uint32), ("offset", c_uint32)]


class RoundAnswer(Structure):
    _fields_ = [("refusal", c_uint32), ("buckets", c_uint64)]


class Record(Structure):
    """A writer without its 256 counts."""

    _fields_ = [
        ("mode", c_uint32),
        ("repeats", c_uint32),
        ("entries", c_uint32),
        ("back", c_uint32),
        ("length", c_uint64),
        ("end", c_uint64),
    ]


class CloseAnswer(Structure):
    _fields_ = [("refusal", c_uint32), ("size", c_uint32)]


class BuildAnswer(Structure):
    _fields_ = [("refusal", c_uint32), ("size", c_uint32), ("accepted", c_uint32)]


class BuildNeeds(Structure):
    _fields_ = [("bytes", c_uint64), ("words", c_uint64)]


class SheetAnswer(Structure):
    _fields_ = [("refusal", c_uint32), ("counts", c_uint32 * 3), ("starts", c_uint64 * 3)]


class LengthAnswer(Structure):
    """What sheet_write and bundle_append answer."""

    _fields_ = [("refusal", c_uint32), ("length", c_uint64)]


class BundleOpenAnswer(Structure):
    _fields_ = [("refusal", c_uint32), ("num", c_uint32), ("start", c_uint64), ("size", c_uint64)]


class BundleCountAnswer(Structure):
    _fields_ = [("refusal", c_uint32), ("images", c_uint64)]


class Date(Structure):
    _fields_ = [("year", c_uint16), ("month", c_uint8), ("day", c_uint8)]


class Window(Structure):
    _fields_ = [("id", c_uint32), ("first", Date), ("end", Date)]


class OnAnswer(Structure):
    _fields_ = [("refusal", c_uint32), ("found", c_uint32), ("len", c_uint32), ("start", c_uint64)]


class PreflightAnswer(Structure):
    _fields_ = [
        ("question", c_uint32),
        ("refusal", c_uint32),
        ("id", c_uint32),
        ("place", c_uint64),
        ("other", c_uint64),
        ("compared", c_uint64),
        ("added", c_uint64),
        ("unsighted", c_uint64),
    ]


class PreflightDatesAnswer(Structure):
    _fields_ = [("question", c_uint32), ("refusal", c_uint32), ("place", c_uint64)]


Counts = c_uint32 * 256

# Bytes and lists are lent as an address and a length.
_LENT = [c_void_p, c_size_t]
_FUNCTIONS: List[Tuple[str, Any, List[Any]]] = [
    ("cqdb_version_number", c_uint32, []),
    ("cqdb_open", OpenAnswer, _LENT),
    ("cqdb_to_id", IdAnswer, _LENT + _LENT),
    ("cqdb_to_str", StrAnswer, _LENT + [c_uint32]),
    ("cqdb_size_hint", c_uint32, _LENT + [c_uint32]),
    ("cqdb_home", c_uint32, _LENT + [c_uint32]),
    ("cqdb_entry", EntryAnswer, _LENT + [c_uint32]),
    ("cqdb_table", TableAnswer, _LENT + [c_uint32]),
    ("cqdb_canonical", c_uint32, _LENT),
    ("cqdb_one_to_one", OneToOneAnswer, _LENT),
    ("cqdb_readings_agree", c_uint32, _LENT),
    ("cqdb_next_change", ChangeAnswer, _LENT + _LENT + [c_uint64]),
    ("cqdb_moved", MovedAnswer, _LENT + _LENT + [c_uint32]),
    ("cqdb_name_on", OnAnswer, _LENT + [c_uint32, Date] + _LENT),
    ("cqdb_preflight_parts", PreflightAnswer, _LENT * 5),
    ("cqdb_preflight_first_parts", PreflightAnswer, _LENT * 3),
    ("cqdb_preflight_dates_words", PreflightDatesAnswer, _LENT * 2 + [Date, Date]),
    ("cqdb_round_words", RoundAnswer, _LENT * 4),
    ("cqdb_name_round_words", c_uint32, _LENT * 3),
    ("cqdb_begin_parts", c_uint32, [c_uint32, c_uint32, c_void_p, c_void_p, c_void_p] + _LENT),
    ("cqdb_index_words", c_size_t, [c_size_t]),
    ("cqdb_index_parts", c_uint32, [c_void_p, c_void_p, c_void_p] + _LENT * 2),
    ("cqdb_put_indexed_parts", c_uint32, [c_void_p, c_void_p, c_void_p] + _LENT * 3 + [c_uint32]),
    ("cqdb_close_parts", CloseAnswer, [c_void_p, c_void_p, c_void_p] + _LENT),
    ("cqdb_grown_parts", c_uint32, [c_void_p, c_void_p, c_uint64]),
    ("cqdb_size_with_parts", c_uint64, [c_void_p, c_void_p, c_size_t, c_uint32]),
    ("cqdb_build_needs", BuildNeeds, [c_uint32, c_size_t] + _LENT),
    ("cqdb_build_parts", BuildAnswer, [c_uint32, c_uint32] + _LENT * 6),
    ("cqdb_sheet_read", SheetAnswer, _LENT),
    ("cqdb_sheet_write", LengthAnswer, _LENT * 4),
    ("cqdb_bundle_open", BundleOpenAnswer, _LENT + [c_uint64]),
    ("cqdb_bundle_append", LengthAnswer, _LENT + [c_uint64] + _LENT),
    ("cqdb_bundle_count", BundleCountAnswer, _LENT),
]


def place() -> str:
    """The library's path: what CQDB_LIBRARY names; else the one in this package; else, in a clone, the one that
    ./make-shared makes; else the loader looks for an installed one."""
    named = os.environ.get("CQDB_LIBRARY")
    if named:
        return named
    here = pathlib.Path(__file__).resolve()
    clone = here.parents[2]
    built = clone / "target" / "staticlib" / FILE
    if here.with_name(FILE).is_file():
        return str(here.with_name(FILE))
    if (clone / "make-shared").is_file() and built.is_file():
        return str(built)
    return FILE


def load(path: str) -> ctypes.CDLL:
    """The library at a path, its functions declared. ImportError where it is missing, of another version or for another
    machine."""
    try:
        library = ctypes.CDLL(path)
    except OSError as error:
        advice = "run ./make-shared in a clone, ./install PREFIX, or name the file by CQDB_LIBRARY; it is for x86-64 Linux"
        raise ImportError(f"cqdb: cannot load {path}: {error}: {advice}") from error
    for name, result, arguments in _FUNCTIONS:
        if not hasattr(library, name):
            raise ImportError(f"cqdb: {path} has no function {name}: it is no {FILE} of version {VERSION[0]}.{VERSION[1]}")
        function = getattr(library, name)
        function.restype, function.argtypes = result, arguments
    number = library.cqdb_version_number()
    if (number >> 16, number >> 8 & 255) != VERSION:
        found = f"{number >> 16}.{number >> 8 & 255}.{number & 255}"
        raise ImportError(f"cqdb: {path} has version {found}; this module needs {VERSION[0]}.{VERSION[1]}")
    return library


calls: Any = load(place())
"""The functions."""

# To convert declared arguments takes as long as all else of a lookup's call. So a lookup of a name below 2^31 bytes has a second form
# whose arguments ctypes takes as they are: bytes or an array, the image's length as a c_size_t, the name, and a number as a C int.
SHORT = 2**31 - 1
short_to_id: Any = calls["cqdb_to_id"]
short_to_id.restype = IdAnswer
