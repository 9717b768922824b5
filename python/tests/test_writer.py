"""Writing: single puts, whole lists, and files."""
import os
import pathlib
import pickle
import resource
import stat
import tempfile
import threading
import unittest
from typing import List
from unittest import mock

import cqdb
from tests.images import PRISMS, image_of, many


class Puts(unittest.TestCase):
    def refused(self, writer: cqdb.Writer, name: bytes, id: int) -> cqdb.Refusal:
        before = writer.close()
        with self.assertRaises(cqdb.CQDBError) as caught:
            writer.put(name, id)
        self.assertEqual(writer.close(), before, "a refused put changes nothing")
        self.assertIn(str(caught.exception.number), str(caught.exception))
        return caught.exception.refusal

    def test_refusals(self) -> None:
        writer = cqdb.Writer()
        writer.put("crane", 1)
        self.assertEqual(self.refused(writer, b"a\0b", 2), cqdb.Refusal.ZERO_BYTE)
        self.assertEqual(self.refused(writer, b"crane", 2), cqdb.Refusal.REPEATED)
        self.assertEqual(self.refused(writer, b"far", 4_294_967_295), cqdb.Refusal.NO_ROOM)
        self.assertEqual(len(writer), 1)

    def test_repeats(self) -> None:
        writer = cqdb.Writer(repeats=True)
        writer.put("crane", 5)
        writer.put("crane", 9)
        catalogue = cqdb.Catalogue(writer.close())
        self.assertEqual((catalogue.num, catalogue, catalogue.name(9)), (2, {"crane": 5}, "crane"))

    def test_arguments(self) -> None:
        writer = cqdb.Writer()
        for wrong in (-1, 2**32):
            self.assertRaises(ValueError, writer.put, "crane", wrong)
        self.assertRaises(TypeError, writer.put, "crane", "1")
        self.assertRaises(TypeError, writer.put, 1, 1)
        self.assertRaises(UnicodeEncodeError, writer.put, "\ud800", 1)
        self.assertEqual(len(writer), 0)

    def test_puts_after_a_close(self) -> None:
        writer = cqdb.Writer()
        writer.put("crane", 1)
        first = writer.close()
        writer.put("mole", 2)
        self.assertEqual(cqdb.Catalogue(first).get("mole"), None)
        self.assertEqual(writer.close(), image_of([(b"crane", 1), (b"mole", 2)]))

    def test_long_names_and_far_ids_grow_the_buffer(self) -> None:
        entries = [(b"x" * 100_000, 3), (b"y", 50_000), (b"z" * 9_000, 1)]
        image = image_of(entries)
        self.assertEqual(len(image), 2_072 + sum(len(name) + 25 for name, _ in entries) + 4 * 50_001)
        self.assertEqual([cqdb.Catalogue(image)[name] for name, _ in entries], [id for _, id in entries])

    def test_a_far_id_takes_no_memory_before_the_close(self) -> None:
        before = resource.getrusage(resource.RUSAGE_SELF).ru_maxrss
        writer = cqdb.Writer()
        writer.put("far", 300_000_000)
        self.assertLess(resource.getrusage(resource.RUSAGE_SELF).ru_maxrss - before, 100_000)
        self.assertEqual(len(writer), 1)

    def test_no_memory(self) -> None:
        writer = cqdb.Writer()
        writer.put("crane", 1)
        limits = resource.getrlimit(resource.RLIMIT_AS)
        resource.setrlimit(resource.RLIMIT_AS, (2_000_000_000, limits[1]))
        try:
            self.assertRaises(MemoryError, writer.put, "far", 900_000_000)
        finally:
            resource.setrlimit(resource.RLIMIT_AS, limits)
        writer.put("mole", 2)
        self.assertEqual(writer.close(), image_of([(b"crane", 1), (b"mole", 2)]))

    def test_threads_put_in_turn(self) -> None:
        writer = cqdb.Writer(repeats=True)
        threads = [
            threading.Thread(target=lambda first=first: [writer.put(f"name {i}", i) for i in range(first, first + 500)])
            for first in range(0, 2_000, 500)
        ]
        for thread in threads:
            thread.start()
        for thread in threads:
            thread.join()
        catalogue = cqdb.Catalogue(writer.close())
        self.assertEqual(len(catalogue), 2_000)
        self.assertTrue(catalogue.check())
        self.assertEqual(catalogue.round(f"name {i}" for i in range(2_000)), list(range(2_000)))

    def test_an_error_can_be_sent_to_another_process(self) -> None:
        error = pickle.loads(pickle.dumps(cqdb.CQDBError(16, "walls.cqdb")))
        self.assertEqual((error.number, error.where), (16, "walls.cqdb"))


class Lists(unittest.TestCase):
    def test_a_list_is_its_single_puts(self) -> None:
        for entries in ([], PRISMS, many(3_000)):
            for choices in ({}, {"one_way": True}, {"repeats": True}, {"one_way": True, "repeats": True}):
                built = cqdb.build(entries, **choices)
                self.assertEqual(built, (image_of(entries, **choices), []))

    def test_refused_puts_of_a_list(self) -> None:
        entries = [("crane", 1), ("crane", 2), ("a\0b", 3), ("mole", 4), ("far", 4_294_967_295)]
        built = cqdb.build(entries[:4])
        self.assertEqual(built.refused, [(1, cqdb.Refusal.REPEATED), (2, cqdb.Refusal.ZERO_BYTE)])
        self.assertEqual(built.image, image_of([(b"crane", 1), (b"mole", 4)]))
        self.assertEqual(cqdb.build(entries[:4], repeats=True).refused, [(2, cqdb.Refusal.ZERO_BYTE)])
        self.assertRaises(ValueError, cqdb.build, [("crane", -1)])
        self.assertRaises(TypeError, cqdb.build, [(7, 1)])


class Files(unittest.TestCase):
    def setUp(self) -> None:
        folder = tempfile.TemporaryDirectory()
        self.addCleanup(folder.cleanup)
        self.folder = pathlib.Path(folder.name)
        self.path = self.folder / "walls.cqdb"
        self.writer = cqdb.Writer()
        self.writer.put("crane", 1)

    def test_a_file_is_the_image_and_nothing_else_is_left(self) -> None:
        self.assertEqual(self.writer.write(self.path), len(self.writer.close()))
        self.assertEqual(self.path.read_bytes(), self.writer.close())
        self.assertEqual(os.listdir(self.folder), ["walls.cqdb"])
        mask = os.umask(0)
        os.umask(mask)
        self.assertEqual(stat.S_IMODE(self.path.stat().st_mode), 0o666 & ~mask)

    def test_permissions_and_links_stay(self) -> None:
        self.path.write_bytes(b"old")
        self.path.chmod(0o640)
        link = self.folder / "link"
        link.symlink_to("walls.cqdb")
        self.writer.write(str(link))
        self.assertTrue(link.is_symlink())
        self.assertEqual((self.path.read_bytes(), stat.S_IMODE(self.path.stat().st_mode)), (self.writer.close(), 0o640))

    def test_where_it_fails_the_old_file_stays(self) -> None:
        self.path.write_bytes(b"old")
        with mock.patch("os.fsync", side_effect=OSError("no space")):
            self.assertRaisesRegex(OSError, "no space", self.writer.write, self.path)
        self.assertEqual((self.path.read_bytes(), os.listdir(self.folder)), (b"old", ["walls.cqdb"]))
        self.assertRaises(OSError, self.writer.write, self.folder)
        self.assertRaises(FileNotFoundError, self.writer.write, self.folder / "no such" / "walls.cqdb")

    def test_a_path_that_names_no_file(self) -> None:
        before = os.listdir()
        self.assertRaises(FileNotFoundError, self.writer.write, "")
        self.assertRaises(IsADirectoryError, self.writer.write, str(self.path) + "/")
        self.assertRaises(TypeError, self.writer.write, 1)
        self.assertEqual((os.listdir(self.folder), os.listdir()), ([], before))

    def test_a_path_of_bytes_and_a_name_as_long_as_a_name_may_be(self) -> None:
        for name in (b"walls.cqdb", b"w" * 255):
            self.writer.write(bytes(self.folder) + b"/" + name)
        self.assertEqual(sorted(os.listdir(self.folder)), ["walls.cqdb", "w" * 255])

    def test_a_file_that_was_left_behind_is_not_in_the_way(self) -> None:
        drawn = iter(["left", "left", "new"])
        (self.folder / "walls.cqdb.left.new").write_bytes(b"left behind")
        with mock.patch("secrets.token_hex", lambda size: next(drawn)):
            self.writer.write(self.path)
        self.assertEqual(self.path.read_bytes(), self.writer.close())
        self.assertEqual((self.folder / "walls.cqdb.left.new").read_bytes(), b"left behind")

    def test_threads_write_to_one_place(self) -> None:
        failed: List[BaseException] = []

        def write() -> None:
            try:
                for _ in range(20):
                    self.writer.write(self.path)
            except BaseException as error:
                failed.append(error)

        threads = [threading.Thread(target=write) for _ in range(4)]
        for thread in threads:
            thread.start()
        for thread in threads:
            thread.join()
        self.assertEqual((failed, os.listdir(self.folder), self.path.read_bytes()), ([], ["walls.cqdb"], self.writer.close()))

    def test_a_folder_that_may_not_be_read_is_no_failure(self) -> None:
        opened = os.open

        def no_folder(path: bytes, flags: int, *rest: int) -> int:
            return opened(path if flags & os.O_CREAT else "/no such", flags, *rest)

        with mock.patch("os.open", no_folder):
            self.assertEqual(self.writer.write(self.path), len(self.writer.close()))
        self.assertEqual(self.path.read_bytes(), self.writer.close())


if __name__ == "__main__":
    unittest.main()
