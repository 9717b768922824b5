"""Damaged images: each call answers or is refused, and none of them reads outside. What a damaged image answers is compared
between the calls."""
import random
import unittest
from typing import List

import cqdb
from tests.images import PRISMS, image_of, many, with_word, word

BACK_SIZE, BACK_OFFSET, TABLES, HEAD = 16, 20, 24, 2_072


def ask_all(test: unittest.TestCase, image: bytes) -> bool:
    """Asks everything of an image; False where it does not open."""
    try:
        catalogue = cqdb.Catalogue(image)
    except cqdb.CQDBError as error:
        test.assertIn(error.number, (1, 5, 6, 7, 8))
        return False
    names: List[bytes] = [name for name, _ in PRISMS] + [b"nobody"]
    test.assertEqual(catalogue.round(names), [catalogue.get(name) for name in names])
    ids = [0, 1, 2, 3, 4, 5, 699, 700, 701, 4_294_967_295]
    test.assertEqual(catalogue.name_round(ids), [catalogue.name(id) for id in ids])
    ask_as_mappings(test, catalogue, names)
    return True


def ask_as_mappings(test: unittest.TestCase, catalogue: cqdb.Catalogue, names: List[bytes]) -> None:
    """Keys, pairs and lengths are those of the single answers."""
    listed = list(catalogue)
    test.assertEqual((len(catalogue), len(set(listed))), (len(listed), len(listed)))
    test.assertEqual(dict(catalogue.items()), {name: catalogue[name] for name in listed})
    held = {name.decode("utf-8", "surrogateescape") for name in names if name in catalogue}
    test.assertLessEqual(held, set(listed), "every name that a lookup finds")
    named = dict(catalogue.ids.items())
    test.assertEqual((list(catalogue.ids), len(catalogue.ids)), (list(named), len(named)))
    test.assertEqual([catalogue.name(id) for id in named], list(named.values()))
    test.assertEqual(len(list(catalogue.changes(cqdb.Catalogue(image_of([]))))), len(named))
    catalogue.check()


class Damaged(unittest.TestCase):
    def refused(self, image: bytes) -> int:
        with self.assertRaises(cqdb.CQDBError) as caught:
            cqdb.Catalogue(image)
        return caught.exception.number

    def test_each_refusal_of_open(self) -> None:
        image = image_of(PRISMS)
        self.assertEqual(self.refused(image[: HEAD - 1]), cqdb.Refusal.TOO_SHORT)
        self.assertEqual(self.refused(with_word(image, 0, 0)), cqdb.Refusal.WRONG_LETTERS)
        self.assertEqual(self.refused(with_word(image, 12, 0)), cqdb.Refusal.WRONG_BYTE_ORDER)
        self.assertEqual(self.refused(with_word(image, TABLES, 2**32 - 1)), cqdb.Refusal.TABLE_LEAVES)
        self.assertEqual(self.refused(with_word(image, BACK_OFFSET, 2**32 - 1)), cqdb.Refusal.BACK_LEAVES)
        self.assertEqual(self.refused(with_word(image, BACK_SIZE, 2**32 - 1)), cqdb.Refusal.BACK_LEAVES)

    def test_every_shorter_image(self) -> None:
        image = image_of(PRISMS[:4])
        for length in range(len(image)):
            self.assertFalse(ask_all(self, image[:length]), length)

    def test_every_byte_changed_is_noticed(self) -> None:
        image = image_of(PRISMS[:4])
        opened = 0
        for at in range(len(image)):
            changed = bytearray(image)
            changed[at] ^= 0x41
            if ask_all(self, bytes(changed)):
                opened += 1
                self.assertFalse(cqdb.Catalogue(changed).check().canonical, at)
        self.assertGreater(opened, 50)

    def test_words_changed_at_random(self) -> None:
        rolls = random.Random(7)
        image = image_of(PRISMS + many(300)[3:])
        values = [0, 1, 8, 24, HEAD, len(image) - 1, len(image), 2**31, 2**32 - 1]
        opened = 0
        for _ in range(400):
            changed = image
            for _ in range(rolls.randrange(1, 6)):
                at = rolls.randrange(HEAD, len(image) - 3) if rolls.random() < 0.8 else rolls.randrange(4, 24)
                changed = with_word(changed, at, rolls.choice(values + [word(image, rolls.randrange(len(image) - 3))]))
            opened += ask_all(self, changed)
        self.assertGreater(opened, 200)

    def test_no_memory_for_a_length_that_the_image_claims(self) -> None:
        image = image_of([])
        for table in range(256):
            image = with_word(image, TABLES + 8 * table + 4, 2**25 - 2)
        catalogue = cqdb.Catalogue(image)
        self.assertGreater(catalogue.num, 2**31)
        for take in (list, sorted, tuple, set, dict):
            self.assertEqual(len(take(catalogue)), 0)
            self.assertEqual(len(take(catalogue.ids)), 0)
        self.assertEqual((len(catalogue), catalogue.num), (0, 256 * (2**24 - 1)))

    def test_tables_that_lie_over_each_other(self) -> None:
        image = image_of(many(300))
        tables = [(word(image, TABLES + 8 * t), word(image, TABLES + 8 * t + 4)) for t in range(256)]
        first = min(offset for offset, _ in tables if offset)
        for t in range(256):
            image = with_word(with_word(image, TABLES + 8 * t, first), TABLES + 8 * t + 4, 600)
        catalogue = cqdb.Catalogue(image)
        ask_as_mappings(self, catalogue, [name for name, _ in many(300)])
        self.assertEqual(catalogue, {name.decode(): id for name, id in many(300) if name in catalogue})

    def test_bytes_behind_an_image_do_not_matter_to_reading(self) -> None:
        catalogue = cqdb.Catalogue(image_of(PRISMS) + b"behind")
        self.assertEqual((catalogue["quay"], catalogue.name(700), catalogue.check().canonical), (700, "quay", False))

    def test_a_name_with_a_zero_byte_is_noticed(self) -> None:
        image = image_of(PRISMS)
        at = image.index(b"crane")
        catalogue = cqdb.Catalogue(image[:at] + b"cr\0ne" + image[at + 5 :])
        self.assertEqual(catalogue.name(1), "cr\0ne")
        self.assertEqual(
            catalogue.check(),
            cqdb.Check(canonical=False, readings_agree=False, every_name_home=False, one_to_one=False),
        )


if __name__ == "__main__":
    unittest.main()
