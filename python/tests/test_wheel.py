"""What `pip install .` makes before the wheel: the archive where a source is newer, and the shared library."""
import os
import pathlib
import tempfile
import unittest
from typing import List
from unittest import mock

import cqdb_wheel


class Library(unittest.TestCase):
    def setUp(self) -> None:
        folder = tempfile.TemporaryDirectory()
        self.addCleanup(folder.cleanup)
        self.root = pathlib.Path(folder.name)
        self.archive = self.root / "target" / "staticlib" / "libcqdb_c.a"
        for path in ("crates/index/src/lib.rt", "crates/index/proofs/Index.antt", "crates/index/must-fail/one.edit", "KIT", "crates.txt"):
            self.file(path, "", 1_000)
        for script in ("make-archive", "make-shared"):
            self.file(script, f'#!/bin/sh\necho {script} >>"$(dirname "$0")/ran"\n', 1_000).chmod(0o755)

    def file(self, path: str, text: str, changed: int) -> pathlib.Path:
        file = self.root / path
        file.parent.mkdir(parents=True, exist_ok=True)
        file.write_text(text)
        os.utime(file, (changed, changed))
        return file

    def ran(self, rt: bool = True) -> List[str]:
        (self.root / "ran").unlink(missing_ok=True)
        with mock.patch.multiple(cqdb_wheel, ROOT=self.root, ARCHIVE=self.archive):
            with mock.patch("shutil.which", lambda name: "/kit/rt" if rt else None):
                cqdb_wheel._make_library()
        return (self.root / "ran").read_text().split()

    def test_where_there_is_no_archive(self) -> None:
        self.assertEqual(self.ran(), ["make-archive", "make-shared"])

    def test_an_archive_of_these_sources(self) -> None:
        self.file("target/staticlib/libcqdb_c.a", "", 2_000)
        self.file("crates/index/must-fail/one.edit", "", 3_000)
        for rt in (True, False):
            self.assertEqual(self.ran(rt), ["make-shared"])

    def test_a_source_that_is_newer(self) -> None:
        self.file("target/staticlib/libcqdb_c.a", "", 2_000)
        for path in ("crates/index/src/lib.rt", "crates/index/proofs/Index.antt", "KIT"):
            self.file(path, "", 3_000)
            self.assertEqual(self.ran(), ["make-archive", "make-shared"])
            with self.assertRaisesRegex(SystemExit, f"{path} is newer than target/staticlib/libcqdb_c.a.*run ./make-archive"):
                self.ran(rt=False)
            self.file(path, "", 1_000)

    def test_a_script_that_fails_is_named(self) -> None:
        self.file("make-shared", "#!/bin/sh\nexit 1\n", 1_000).chmod(0o755)
        self.assertRaisesRegex(SystemExit, "./make-shared says above", self.ran)


if __name__ == "__main__":
    unittest.main()
