"""A catalogue as a Mapping from names to ids, and its `ids` as a Mapping from ids to names, beside dicts of the same pairs."""
import copy
import pathlib
import pickle
import tempfile
import unittest
from collections.abc import Mapping
from typing import Any, Dict, List

import cqdb
from tests.images import PRISMS, Entries, image_of, many

RENEWED: Entries = [(b"crane", 5), (b"mole", 2), (b"crane", 9), (b"pier", 2), (b"crane", 5)]


def text(name: bytes) -> str:
    return name.decode("utf-8", "surrogateescape")


def by_name(entries: Entries) -> Dict[str, int]:
    """The first put of each name."""
    found: Dict[str, int] = {}
    for name, id in entries:
        found.setdefault(text(name), id)
    return found


def by_id(entries: Entries) -> Dict[int, str]:
    """The last put of each id, in rising order."""
    return dict(sorted({id: text(name) for name, id in entries}.items()))


class Beside(unittest.TestCase):
    """Every question to a dict has the same answer."""

    def same(self, mapping: Any, expected: Dict[Any, Any], absent: List[Any]) -> None:
        self.assertIsInstance(mapping, Mapping)
        self.assertEqual((len(mapping), bool(mapping)), (len(expected), bool(expected)))
        for take in (list, tuple, sorted, set, dict):
            self.assertEqual(take(mapping), take(expected), take)
        self.assertEqual(list(mapping.keys()), list(expected.keys()))
        self.assertEqual(list(mapping.items()), list(expected.items()))
        self.assertEqual(list(mapping.values()), list(expected.values()))
        self.assertEqual((len(mapping.keys()), len(mapping.items()), len(mapping.values())), (len(expected),) * 3)
        for key, value in expected.items():
            self.assertEqual((mapping[key], mapping.get(key), mapping.get(key, "none")), (value, value, value))
            self.assertTrue(key in mapping and key in mapping.keys() and (key, value) in mapping.items())
            self.assertFalse((key, None) in mapping.items() or key not in mapping)
            self.assertIn(value, mapping.values())
        for key in absent:
            self.assertTrue(key not in mapping and key not in mapping.keys() and (key, 1) not in mapping.items())
            self.assertEqual((mapping.get(key), mapping.get(key, "none")), (None, "none"))
            with self.assertRaises(KeyError) as caught:
                mapping[key]
            self.assertEqual(caught.exception.args, (key,))
            self.assertNotIn(object(), mapping.values())

    def equal(self, mapping: Any, expected: Dict[Any, Any]) -> None:
        self.assertTrue(mapping == expected and expected == mapping and not mapping != expected)
        self.assertFalse(mapping == {**expected, "other": 1} or mapping == 5 or mapping == list(expected))
        self.assertEqual(mapping.keys(), expected.keys())
        self.assertEqual(mapping.items(), expected.items())
        self.assertEqual(mapping.keys() & {"crane", 5}, expected.keys() & {"crane", 5})
        self.assertEqual(mapping.keys() | {"x"}, expected.keys() | {"x"})
        self.assertEqual(mapping.items() - set(expected.items()), set())
        self.assertEqual({**mapping}, expected)
        self.assertRaises(TypeError, hash, mapping)

    def test_names_and_ids(self) -> None:
        for entries in ([], PRISMS, many(2_000), RENEWED):
            catalogue = cqdb.Catalogue(image_of(entries, repeats=True))
            self.same(catalogue, by_name(entries), ["nobody", b"nobody", "\ud800", 1, None, 2.5, (1, 2)])
            self.equal(catalogue, by_name(entries))
            self.same(catalogue.ids, by_id(entries), ["crane", -1, 5_000, 2**32, 2**40, None, 2.5])
            self.equal(catalogue.ids, by_id(entries))
            self.assertEqual(catalogue.num, len(entries))

    def test_a_one_way_image_has_names_alone(self) -> None:
        catalogue = cqdb.Catalogue(image_of(RENEWED, one_way=True, repeats=True))
        self.same(catalogue, by_name(RENEWED), [])
        self.same(catalogue.ids, {}, [5, 2])

    def test_names_may_be_asked_for_as_bytes(self) -> None:
        catalogue = cqdb.Catalogue(image_of(PRISMS))
        for name, id in PRISMS:
            for asked in (name, bytearray(name), memoryview(name)):
                self.assertTrue(catalogue[asked] == catalogue.get(asked) == id and asked in catalogue)
        self.assertRaises(TypeError, catalogue.__getitem__, ["crane"])
        self.assertRaises(TypeError, catalogue.__contains__, {"crane": 1})

    def test_an_update_and_keywords(self) -> None:
        catalogue = cqdb.Catalogue(image_of([(b"crane", 1), (b"mole", 2)]))
        held = {"quay": 3}
        held.update(catalogue)
        self.assertEqual(held, {"quay": 3, "crane": 1, "mole": 2})
        self.assertEqual(dict(**catalogue), {"crane": 1, "mole": 2})

    def test_two_catalogues_are_equal_by_names(self) -> None:
        one, other = (cqdb.Catalogue(image_of(entries, repeats=True)) for entries in (RENEWED, RENEWED[:2] + RENEWED[3:4]))
        self.assertEqual(one, other)
        self.assertNotEqual(one.ids, other.ids)

    def test_long_names(self) -> None:
        entries = [(b"x" * 700_000 + bytes([65 + i]), i) for i in range(5)]
        self.same(cqdb.Catalogue(image_of(entries)), by_name(entries), [])


class Pickled(unittest.TestCase):
    def setUp(self) -> None:
        folder = tempfile.TemporaryDirectory()
        self.addCleanup(folder.cleanup)
        self.path = pathlib.Path(folder.name) / "walls.cqdb"
        self.path.write_bytes(image_of(many(2_000)))

    def test_by_bytes(self) -> None:
        catalogue = cqdb.Catalogue(image_of([("Gr\xfc\xdfe".encode("latin-1"), 3)]), encoding="latin-1")
        for again in (pickle.loads(pickle.dumps(catalogue)), copy.copy(catalogue), copy.deepcopy(catalogue)):
            self.assertEqual((again, again.ids, bytes(again)), ({"Gr\xfc\xdfe": 3}, {3: "Gr\xfc\xdfe"}, bytes(catalogue)))
            self.assertIsNot(again, catalogue)
            again.close()
        self.assertEqual(pickle.loads(pickle.dumps(catalogue.ids)), catalogue.ids)

    def test_by_the_path(self) -> None:
        with cqdb.Catalogue.open(self.path) as catalogue:
            pickled = pickle.dumps(catalogue)
            self.assertLess(len(pickled), 1_000)
            self.assertEqual(pickle.loads(pickled), catalogue)
            self.assertEqual(pickle.loads(pickle.dumps(copy.copy(catalogue))), catalogue)

    def test_a_file_that_has_changed_is_refused(self) -> None:
        pickled = pickle.dumps(cqdb.Catalogue.open(self.path))
        swapped = many(2_000)
        swapped[7:9] = [(swapped[8][0], swapped[7][1]), (swapped[7][0], swapped[8][1])]
        cqdb.Catalogue.open(self.path)
        self.path.write_bytes(image_of(swapped))
        self.assertRaisesRegex(ValueError, "walls.cqdb holds another image", pickle.loads, pickled)
        self.path.unlink()
        self.assertRaises(FileNotFoundError, pickle.loads, pickled)

    def test_a_closed_catalogue(self) -> None:
        catalogue = cqdb.Catalogue.open(self.path)
        catalogue.close()
        self.assertRaisesRegex(ValueError, "closed", pickle.dumps, catalogue)
        self.assertRaisesRegex(ValueError, "closed", copy.copy, catalogue)


if __name__ == "__main__":
    unittest.main()
