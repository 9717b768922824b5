"""Bundles and round sheets, in memory and in files."""
import copy
import pathlib
import pickle
import tempfile
import unittest
from typing import Any, List

import cqdb
from tests.images import PRISMS, image_of, many, with_word

WALLS: List[bytes] = [image_of(PRISMS), image_of([]), image_of(many(900)), image_of(PRISMS, one_way=True)]


class InAFolder(unittest.TestCase):
    def setUp(self) -> None:
        folder = tempfile.TemporaryDirectory()
        self.addCleanup(folder.cleanup)
        self.path = pathlib.Path(folder.name) / "walls"

    def refused(self, call: Any, *given: Any) -> cqdb.Refusal:
        with self.assertRaises(cqdb.CQDBError) as caught:
            call(*given)
        return caught.exception.refusal


class Bundles(InAFolder):
    def test_appended_images_open_at_their_positions(self) -> None:
        bundle = cqdb.Bundle()
        self.assertEqual((len(bundle), list(bundle)), (0, []))
        for place, image in enumerate(WALLS):
            bundle.append(image if place % 2 else cqdb.Catalogue(image))
            self.assertEqual([bytes(catalogue) for catalogue in bundle], WALLS[: place + 1])
        self.assertEqual(bytes(bundle), b"".join(WALLS))
        self.assertEqual((bytes(bundle[-1]), [bytes(wall) for wall in bundle[1:3]]), (WALLS[3], WALLS[1:3]))
        for wrong in (4, -5, 2**64):
            self.assertRaises(IndexError, bundle.__getitem__, wrong)
        self.assertRaises(TypeError, bundle.__getitem__, "north wall")

    def test_files(self) -> None:
        bundle = cqdb.Bundle(b"".join(WALLS[:2]))
        self.assertEqual(bundle.write(self.path), len(WALLS[0] + WALLS[1]))
        with cqdb.Bundle.open(self.path) as opened:
            first = opened[0]
            opened.append(WALLS[2])
            self.assertEqual([bytes(catalogue) for catalogue in opened], WALLS[:3])
            self.assertEqual(self.path.read_bytes(), bytes(bundle))
            opened.write(self.path)
        self.assertEqual((first["crane"], len(cqdb.Bundle.open(self.path))), (1, 3))
        self.assertRaisesRegex(ValueError, "closed", len, opened)
        self.assertRaisesRegex(ValueError, "closed", opened.append, WALLS[0])
        self.assertEqual(pickle.loads(pickle.dumps(first)), first)

    def test_what_is_no_bundle(self) -> None:
        broken = cqdb.Bundle(WALLS[0] + b"1234567")
        self.assertEqual(self.refused(len, broken), cqdb.Refusal.BROKEN_BUNDLE)
        self.assertEqual(broken[0]["crane"], 1)
        for position in (1, 2**40):
            self.assertEqual(self.refused(broken.__getitem__, position), cqdb.Refusal.BROKEN_BUNDLE)
        self.assertEqual(self.refused(broken.append, WALLS[0]), cqdb.Refusal.BROKEN_BUNDLE)
        self.assertEqual(bytes(broken), WALLS[0] + b"1234567")
        whole = cqdb.Bundle(WALLS[0])
        for image in (b"", WALLS[0] + b"behind", WALLS[0][:-1]):
            self.assertEqual(self.refused(whole.append, image), cqdb.Refusal.BROKEN_BUNDLE)
        self.assertEqual(bytes(whole), WALLS[0])
        self.path.write_bytes(with_word(WALLS[0], 0, 0) + WALLS[1])
        with self.assertRaisesRegex(cqdb.CQDBError, r"walls: image 0: .*\(refusal 5\)"):
            cqdb.Bundle.open(self.path)[0]
        self.assertEqual(len(cqdb.Bundle.open(self.path)[1]), 0)
        self.assertRaises(TypeError, cqdb.Bundle, 4_096)
        self.assertRaises(TypeError, cqdb.Bundle.open, 0)

    def test_a_copy_is_a_bundle_of_its_own(self) -> None:
        bundle = cqdb.Bundle(WALLS[0])
        for other in (copy.copy(bundle), copy.deepcopy(bundle), pickle.loads(pickle.dumps(bundle))):
            other.append(WALLS[1])
            self.assertEqual((len(bundle), len(other)), (1, 2))


class Sheets(InAFolder):
    SHEET = cqdb.Sheet((1, 2, 4_294_967_295), (7,), ())
    FILE = bytes.fromhex("0300 01000000 02000000 ffffffff 0100 07000000 0000")

    def test_a_sheet_and_its_file(self) -> None:
        self.assertEqual((bytes(self.SHEET), cqdb.Sheet.read(self.FILE)), (self.FILE, self.SHEET))
        self.assertEqual(cqdb.Sheet.read(bytearray(self.FILE)), self.SHEET)
        self.assertEqual(self.SHEET.write(self.path), len(self.FILE))
        self.assertEqual((self.path.read_bytes(), cqdb.Sheet.open(self.path)), (self.FILE, self.SHEET))
        self.assertEqual(cqdb.Sheet.read(bytes(6)), cqdb.Sheet())
        self.assertEqual(bytes(cqdb.Sheet(range(3), walls=[7])), bytes(cqdb.Sheet((0, 1, 2), (7,))))

    def test_every_shorter_file_and_bytes_behind(self) -> None:
        for length in range(len(self.FILE)):
            self.assertEqual(self.refused(cqdb.Sheet.read, self.FILE[:length]), cqdb.Refusal.TOO_FEW_BYTES)
        self.assertEqual(self.refused(cqdb.Sheet.read, self.FILE + b"\0"), cqdb.Refusal.LEFT_OVER_BYTES)
        self.path.write_bytes(b"")
        self.assertRaisesRegex(cqdb.CQDBError, "walls: .*too few bytes", cqdb.Sheet.open, self.path)

    def test_lists_that_are_too_long(self) -> None:
        self.assertEqual(len(bytes(cqdb.Sheet(range(65_535)))), 6 + 4 * 65_535)
        self.assertEqual(self.refused(bytes, cqdb.Sheet((), range(65_536))), cqdb.Refusal.SHEET_TOO_LARGE)
        self.assertRaises(ValueError, bytes, cqdb.Sheet((-1,)))
        self.assertRaises(TypeError, bytes, cqdb.Sheet(("crane",)))


if __name__ == "__main__":
    unittest.main()
