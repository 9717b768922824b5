"""Reading: names to ids and ids to names, from bytes and from files."""
import datetime
import os
import pathlib
import tempfile
import threading
import unittest
from typing import Any
from unittest import mock

import cqdb
from cqdb.library import short_to_id
from tests.images import PRISMS, image_of, many, names_by_id


def short_to_id_of_short_names(*given: Any) -> Any:
    assert given[3] <= 4
    return short_to_id(*given)


class Reading(unittest.TestCase):
    def test_each_name_gives_its_id_and_each_id_its_name(self) -> None:
        for entries in (PRISMS, many(2_000)):
            catalogue = cqdb.Catalogue(image_of(entries))
            self.assertEqual(len(catalogue), len(entries))
            for name, id in entries:
                self.assertEqual(catalogue[name], id)
                self.assertEqual(catalogue.name_bytes(id), name)
                self.assertIn(name, catalogue)
                self.assertIn(id, catalogue.ids)

    def test_both_forms_of_a_lookup(self) -> None:
        catalogue = cqdb.Catalogue(image_of(PRISMS + [(b"x" * 100_000, 9)]))
        asked = [name for name, _ in PRISMS] + [b"x" * 100_000, b"nobody", b"x" * 99_999]
        answers = [catalogue.get(name) for name in asked]
        with mock.patch("cqdb.catalogue.SHORT", 4), mock.patch("cqdb.catalogue.short_to_id", short_to_id_of_short_names):
            self.assertEqual([catalogue.get(name) for name in asked], answers)
        self.assertEqual(answers, [id for _, id in PRISMS] + [9, None, None])

    def test_rounds_are_the_single_answers(self) -> None:
        entries = many(2_000)
        catalogue = cqdb.Catalogue(image_of(entries))
        asked = [name for name, _ in entries] + [b"nobody", b"", b"prism 7"]
        self.assertEqual(catalogue.round(asked), [catalogue.get(name) for name in asked])
        ids = list(range(3_100)) + [4_294_967_295]
        self.assertEqual(catalogue.name_round(ids), [catalogue.name(id) for id in ids])
        self.assertEqual(catalogue.round([]), [])
        self.assertEqual(catalogue.name_round([]), [])
        self.assertIsNone(catalogue.name_round([4_294_967_295])[0])

    def test_the_ids_pass_gaps(self) -> None:
        for entries in (PRISMS, many(2_000), []):
            image = image_of(entries)
            catalogue = cqdb.Catalogue(image)
            expected = names_by_id(image)
            self.assertEqual(list(catalogue.ids), sorted(expected))
            self.assertEqual({id: name.encode("utf-8", "surrogateescape") for id, name in catalogue.ids.items()}, expected)
            self.assertEqual(catalogue.back_size, max(expected, default=-1) + 1)

    def test_text_and_bytes(self) -> None:
        catalogue = cqdb.Catalogue(image_of(PRISMS))
        self.assertEqual(catalogue["Grüße"], 2)
        self.assertEqual(catalogue.name(2), "Grüße")
        self.assertEqual(catalogue.name(5), "mole \udcff")
        self.assertEqual(catalogue["mole \udcff"], 5)
        self.assertEqual(catalogue[bytearray(b"crane")], catalogue[memoryview(b"crane")])
        strict = cqdb.Catalogue(image_of(PRISMS), errors="strict")
        self.assertRaises(UnicodeDecodeError, strict.name, 5)
        latin = cqdb.Catalogue(image_of([("Gr\xfc\xdfe".encode("latin-1"), 3)]), encoding="latin-1")
        self.assertEqual((latin["Grüße"], latin.name(3)), (3, "Grüße"))
        self.assertRaises(LookupError, cqdb.Catalogue, image_of([]), encoding="no such")

    def test_one_to_one(self) -> None:
        for entries in ([], PRISMS, many(2_000), PRISMS + PRISMS):
            for one_way in (False, True):
                catalogue = cqdb.Catalogue(image_of(entries, one_way=one_way, repeats=True))
                self.assertEqual((catalogue.one_to_one(), bool(catalogue.check())), (cqdb.OneToOne(), True))
                self.assertTrue(catalogue.one_to_one())

    def test_the_first_entry_that_is_not_one_to_one(self) -> None:
        end = 2_072 + sum(len(name) + 9 for name, _ in PRISMS)
        cases = [
            (PRISMS + [(b"crane", 9)], cqdb.Mismatch.OTHER_ID, end, 9, "crane"),
            (PRISMS + [(b"pier", 5)], cqdb.Mismatch.OTHER_NAME, end - 28, 5, "mole \udcff"),
            ([(b"a", 1), (b"a", 2), (b"b", 2)], cqdb.Mismatch.OTHER_ID, 2_082, 2, "a"),
        ]
        for entries, kind, offset, id, name in cases:
            catalogue = cqdb.Catalogue(image_of(entries, repeats=True))
            self.assertEqual(catalogue.one_to_one(), cqdb.OneToOne(kind, offset, id, name))
            self.assertFalse(catalogue.one_to_one())
            self.assertFalse(catalogue.check().one_to_one)
        with tempfile.TemporaryDirectory() as folder:
            path = pathlib.Path(folder, "image")
            path.write_bytes(image_of(cases[1][0], repeats=True))
            with cqdb.Catalogue.open(path) as mapped:
                self.assertEqual(mapped.one_to_one().name, "mole \udcff")

    def test_one_to_one_of_an_image_that_is_not_canonical(self) -> None:
        catalogue = cqdb.Catalogue(image_of(PRISMS) + b"behind")
        with self.assertRaises(cqdb.CQDBError) as raised:
            catalogue.one_to_one()
        self.assertEqual(raised.exception.refusal, cqdb.Refusal.NOT_CANONICAL)

    def test_what_is_not_there(self) -> None:
        catalogue = cqdb.Catalogue(image_of(PRISMS))
        with self.assertRaises(KeyError):
            catalogue["nobody"]
        self.assertEqual((catalogue.get("nobody"), catalogue.get("nobody", 7), catalogue.get("crane", 7)), (None, 7, 1))
        self.assertIsNone(catalogue.name(3))

    def test_other_types_are_refused(self) -> None:
        catalogue = cqdb.Catalogue(image_of(PRISMS))
        for wrong in (-1, 2**32):
            self.assertRaises(ValueError, catalogue.name, wrong)
            self.assertRaises(ValueError, catalogue.name_round, [wrong])
        self.assertRaises(TypeError, catalogue.name, "crane")
        self.assertRaises(TypeError, catalogue.round, "crane")
        self.assertRaises(TypeError, catalogue.round, [7])
        self.assertRaises(TypeError, cqdb.Catalogue, "text")
        self.assertRaises(TypeError, cqdb.Catalogue, 4_096)

    def test_a_one_way_image_names_no_id(self) -> None:
        catalogue = cqdb.Catalogue(image_of(PRISMS, one_way=True))
        self.assertEqual((catalogue["crane"], catalogue.name(1), list(catalogue.ids), catalogue.back_size), (1, None, [], 0))

    def test_a_closed_catalogue_says_so(self) -> None:
        with cqdb.Catalogue(image_of(PRISMS)) as catalogue:
            self.assertEqual(catalogue["crane"], 1)
        asks = [
            lambda: catalogue["crane"],
            lambda: catalogue.name(1),
            lambda: list(catalogue),
            lambda: len(catalogue),
            lambda: bool(catalogue),
            lambda: catalogue.ids,
            lambda: catalogue.num,
            lambda: bytes(catalogue),
            lambda: "crane" in catalogue,
            catalogue.check,
            catalogue.__enter__,
        ]
        for call in asks:
            self.assertRaisesRegex(ValueError, "closed", call)
        catalogue.close()
        self.assertIn("closed", repr(catalogue))

    def test_changes(self) -> None:
        before, after = cqdb.Catalogue(image_of(many(900))), cqdb.Catalogue(image_of(many(900)[:-1] + [(b"mole", 2), (b"", 5_000)]))
        last = many(900)[-1][1]
        self.assertEqual(
            list(before.changes(after)), [(2, None, "mole"), (last, "prism 899", None), (5_000, None, "")]
        )
        self.assertEqual([(id, new, old) for id, old, new in before.changes(after)], list(after.changes(before)))
        self.assertEqual(list(before.changes(before)), [])

    def test_moved(self) -> None:
        before, after = cqdb.Catalogue(image_of(PRISMS)), cqdb.Catalogue(image_of([(b"crane", 0), (b"north wall", 1), (b"quay", 9)]))
        self.assertEqual([before.moved(after, id) for id in (0, 1, 2, 3, 700)], [1, 0, None, None, 9])
        self.assertEqual([before.moved(before, id) for id in before.ids], [None] * len(before.ids))

    def test_a_comparison_takes_catalogues(self) -> None:
        catalogue, closed = cqdb.Catalogue(image_of(PRISMS)), cqdb.Catalogue(image_of(PRISMS))
        closed.close()
        for wrong in (5, None, "walls.cqdb", image_of(PRISMS), {"crane": 1}):
            self.assertRaisesRegex(TypeError, "cqdb.Catalogue", catalogue.changes, wrong)
            self.assertRaisesRegex(TypeError, "cqdb.Catalogue", catalogue.moved, wrong, 0)
        self.assertRaisesRegex(ValueError, "closed", catalogue.changes, closed)
        self.assertRaisesRegex(ValueError, "closed", closed.moved, catalogue, 0)
        self.assertRaises(ValueError, catalogue.moved, catalogue, -1)

    def test_a_name_on_a_date(self) -> None:
        catalogue = cqdb.Catalogue(image_of(PRISMS))
        first, end = datetime.date(2026, 4, 1), datetime.date(2026, 10, 1)
        season = [cqdb.Window(1, first, end), cqdb.Window(3, first, end)]
        last = end - datetime.timedelta(days=1)
        self.assertEqual([catalogue.name_on(1, date, season) for date in (first, last, end)], ["crane", "crane", None])
        self.assertEqual([catalogue.name_on(id, first, season) for id in (0, 3)], [None, None])
        for refusal, date, windows in (
            (cqdb.Refusal.NO_SUCH_DATE, datetime.date(1899, 12, 31), season),
            (cqdb.Refusal.NO_SUCH_DATE, first, [cqdb.Window(9, first, datetime.date(2201, 1, 1))]),
            (cqdb.Refusal.NOT_BEFORE_END, first, [cqdb.Window(9, first, first)]),
        ):
            with self.assertRaises(cqdb.CQDBError) as caught:
                catalogue.name_on(1, date, windows)
            self.assertEqual(caught.exception.refusal, refusal)
        self.assertRaises(TypeError, catalogue.name_on, 1, "2026-04-01", season)
        self.assertRaises(ValueError, catalogue.name_on, 1, first, [(-1, first, end)])


class Files(unittest.TestCase):
    def setUp(self) -> None:
        folder = tempfile.TemporaryDirectory()
        self.addCleanup(folder.cleanup)
        self.path = pathlib.Path(folder.name) / "walls.cqdb"
        self.path.write_bytes(image_of(PRISMS))

    def test_a_mapped_file_answers_as_its_bytes(self) -> None:
        for path in (self.path, str(self.path), bytes(self.path)):
            with cqdb.Catalogue.open(path) as catalogue:
                self.assertEqual(catalogue, cqdb.Catalogue(self.path.read_bytes()))
                self.assertEqual(catalogue.ids, cqdb.Catalogue(self.path.read_bytes()).ids)
                self.assertEqual(catalogue.name_bytes(5), b"mole \xff")
                self.assertEqual(catalogue.round(name for name, _ in PRISMS), [id for _, id in PRISMS])
                self.assertTrue(catalogue.check())

    def test_a_replaced_file_stays_as_it_was(self) -> None:
        with cqdb.Catalogue.open(self.path) as before:
            cqdb.Writer().write(self.path)
            self.assertEqual((before["crane"], len(cqdb.Catalogue.open(self.path))), (1, 0))

    def test_a_file_that_is_no_image_is_named(self) -> None:
        for content, number in ((b"", 1), (bytes(2_071), 1), (bytes(2_072), 5), (image_of(PRISMS)[:2_071], 1)):
            self.path.write_bytes(content)
            with self.assertRaises(cqdb.CQDBError) as caught:
                cqdb.Catalogue.open(self.path)
            self.assertEqual((caught.exception.number, caught.exception.refusal), (number, cqdb.Refusal(number)))
            self.assertTrue(str(caught.exception).startswith(str(self.path)), caught.exception)

    def test_a_file_that_cannot_be_read(self) -> None:
        self.assertRaises(FileNotFoundError, cqdb.Catalogue.open, self.path.with_name("other"))
        self.assertRaises(IsADirectoryError, cqdb.Catalogue.open, self.path.parent)

    def test_no_file_stays_open(self) -> None:
        before = len(os.listdir("/proc/self/fd"))
        for _ in range(50):
            with cqdb.Catalogue.open(self.path) as catalogue:
                self.assertEqual(catalogue["crane"], 1)
        self.assertEqual(len(os.listdir("/proc/self/fd")), before)

    def test_a_close_while_others_read(self) -> None:
        self.path.write_bytes(image_of(many(2_000), repeats=True))
        for _ in range(20):
            catalogue = cqdb.Catalogue.open(self.path)
            wrong = []

            def read() -> None:
                try:
                    while True:
                        if catalogue["prism 1999"] != 2_998 or catalogue.round(["prism 3"] * 512)[511] != 4:
                            wrong.append("another answer")
                except ValueError:
                    pass

            threads = [threading.Thread(target=read) for _ in range(3)]
            for thread in threads:
                thread.start()
            catalogue.close()
            for thread in threads:
                thread.join()
            self.assertEqual(wrong, [])


if __name__ == "__main__":
    unittest.main()
