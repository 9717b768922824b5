"""The module beside the header: its structs are the header's, and a library that cannot be used is named."""
import ctypes
import os
import pathlib
import re
import subprocess
import sys
import tempfile
import unittest
from typing import Any, Tuple
from unittest import mock

import cqdb
from cqdb import library

ROOT = pathlib.Path(__file__).resolve().parents[2]
HEADER = (ROOT / "include" / "cqdb.h").read_text()
STRUCTS = {
    "cqdb_open_answer": library.OpenAnswer,
    "cqdb_id_answer": library.IdAnswer,
    "cqdb_str_answer": library.StrAnswer,
    "cqdb_entry_answer": library.EntryAnswer,
    "cqdb_table_answer": library.TableAnswer,
    "cqdb_change_answer": library.ChangeAnswer,
    "cqdb_moved_answer": library.MovedAnswer,
    "cqdb_one_to_one_answer": library.OneToOneAnswer,
    "cqdb_round_answer": library.RoundAnswer,
    "cqdb_close_answer": library.CloseAnswer,
    "cqdb_build_answer": library.BuildAnswer,
    "cqdb_build_needs_answer": library.BuildNeeds,
    "cqdb_sheet_answer": library.SheetAnswer,
    "cqdb_sheet_length_answer": library.LengthAnswer,
    "cqdb_bundle_append_answer": library.LengthAnswer,
    "cqdb_bundle_open_answer": library.BundleOpenAnswer,
    "cqdb_bundle_count_answer": library.BundleCountAnswer,
    "cqdb_date": library.Date,
    "cqdb_window": library.Window,
    "cqdb_on_answer": library.OnAnswer,
    "cqdb_preflight_answer": library.PreflightAnswer,
    "cqdb_preflight_dates_answer": library.PreflightDatesAnswer,
}
TYPES = {
    ctypes.c_uint8: "uint8_t",
    ctypes.c_uint16: "uint16_t",
    ctypes.c_uint32: "uint32_t",
    ctypes.c_uint64: "uint64_t",
    library.StrAnswer: "cqdb_str_answer",
    library.Date: "cqdb_date",
}


def declared(kind: Any) -> Tuple[str, str]:
    """A field's type in C, and its length where it is an array."""
    return (TYPES[kind._type_], f"[{kind._length_}]") if hasattr(kind, "_length_") else (TYPES[kind], "")


class Header(unittest.TestCase):
    def test_structs(self) -> None:
        for name, struct in STRUCTS.items():
            found = re.search(r"typedef struct \{([^}]*)\} " + name + ";", HEADER)
            assert found is not None, name
            fields = re.findall(r"^ *(\w+) (\w+)(\[\d+\])?;", found.group(1), re.MULTILINE)
            expected = [(declared(kind)[0], field, declared(kind)[1]) for field, kind in struct._fields_]
            self.assertEqual(expected, fields, name)

    def test_a_record_is_the_beginning_of_a_writer(self) -> None:
        found = re.search(r"typedef struct \{([^}]*)\} cqdb_writer;", HEADER)
        assert found is not None
        fields = re.findall(r"^ *(\w+) (\w+)(\[\d+\])?;", found.group(1), re.MULTILINE)
        record = [(TYPES[kind], field, "") for field, kind in library.Record._fields_]
        self.assertEqual(record + [("uint32_t", "counts", f"[{library.Counts._length_}]")], fields)
        self.assertEqual((library.Record.back.offset, library.Record.length.offset, library.Record.end.offset), (12, 16, 24))

    def test_functions(self) -> None:
        plain = re.sub(r"/\*.*?\*/", "", HEADER, flags=re.DOTALL)
        for name, result, arguments in library._FUNCTIONS:
            found = re.search(r"^(\w+) " + name + r"\(([^)]*)\);", plain, re.MULTILINE)
            assert found is not None, name
            given = [] if found.group(2) == "void" else found.group(2).split(",")
            kinds = ["pointer" if "*" in part else part.split()[0] for part in given]
            known = {ctypes.c_void_p: "pointer", ctypes.c_size_t: "size_t", **TYPES}
            # c_size_t and c_uint64 are one type of ctypes on x86-64
            words = [kind.replace("uint64_t", "size_t") for kind in kinds]
            self.assertEqual([known[kind].replace("uint64_t", "size_t") for kind in arguments], words, name)
            answer = found.group(1).replace("size_t", "uint64_t")
            self.assertTrue(answer == TYPES.get(result) or STRUCTS.get(answer) is result, name)


class Loading(unittest.TestCase):
    def message(self, path: str) -> str:
        ran = subprocess.run(
            [sys.executable, "-c", "import cqdb"],
            env={**os.environ, "CQDB_LIBRARY": path, "PYTHONPATH": str(ROOT / "python")},
            capture_output=True,
            text=True,
        )
        self.assertNotEqual(ran.returncode, 0)
        return ran.stderr.splitlines()[-1]

    def test_a_library_that_is_not_there(self) -> None:
        self.assertRegex(self.message("/no/such/libcqdb.so.0"), "ImportError: cqdb: cannot load /no/such/.*make-shared.*CQDB_LIBRARY")

    def test_a_file_that_is_no_library(self) -> None:
        with tempfile.NamedTemporaryFile() as file:
            self.assertIn("ImportError: cqdb: cannot load", self.message(file.name))

    def test_another_library(self) -> None:
        self.assertRegex(self.message("libc.so.6"), "ImportError: cqdb: libc.so.6 has no function cqdb_version_number")

    def test_versions(self) -> None:
        number = library.calls.cqdb_version_number()
        self.assertEqual(cqdb.__version__, f"{number >> 16}.{number >> 8 & 255}.{number & 255}")

    def test_a_library_of_another_version(self) -> None:
        with mock.patch.object(library, "VERSION", (9, 1)):
            with self.assertRaisesRegex(ImportError, f"has version {cqdb.__version__}; this module needs 9.1"):
                library.load(library.place())


if __name__ == "__main__":
    unittest.main()
