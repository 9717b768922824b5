"""What a caller may do to the module: whatever it is, the answer is right or a clear error, and nothing is lost."""
import contextlib
import copy
import gc
import os
import pickle
import resource
import signal
import sys
import time
import unittest
from typing import Any, Iterator

import cqdb
from cqdb.memory import zeros
from tests.images import PRISMS, image_of, many

GIB = 1 << 30


def available() -> int:
    """The bytes of memory that can be had, by Linux."""
    with open("/proc/meminfo") as lines:
        return next(int(line.split()[1]) * 1_024 for line in lines if line.startswith("MemAvailable:"))


@contextlib.contextmanager
def little_memory(length: int) -> Iterator[None]:
    limits = resource.getrlimit(resource.RLIMIT_AS)
    resource.setrlimit(resource.RLIMIT_AS, (length, limits[1]))
    try:
        yield
    finally:
        resource.setrlimit(resource.RLIMIT_AS, limits)


class Large(unittest.TestCase):
    """Images above 2 GiB, and memory that cannot be had."""

    def large(self, image: bytes) -> None:
        self.assertEqual(len(image), 2_072 + 1 + 25 + 4 * 600_000_001)
        catalogue = cqdb.Catalogue(image)
        self.assertEqual((catalogue["a"], catalogue.name(600_000_000), len(catalogue)), (600_000_000, "a", 1))

    @unittest.skipIf(available() < 8 * GIB, "an image above 2 GiB needs 8 GiB of memory")
    def test_an_image_above_2_gib(self) -> None:
        writer = cqdb.Writer()
        writer.put("a", 600_000_000)
        self.large(writer.close())
        del writer
        gc.collect()
        image, refused = cqdb.build([("a", 600_000_000)])
        self.assertEqual(refused, [])
        self.large(image)

    def test_an_id_that_fits_no_image_needs_no_memory(self) -> None:
        entries = [("crane", 1), ("a", 4_294_967_295), ("crane", 900_000_000), ("b\0", 900_000_000), ("mole", 2)]
        expected = [(1, cqdb.Refusal.NO_ROOM), (2, cqdb.Refusal.REPEATED), (3, cqdb.Refusal.ZERO_BYTE)]
        with little_memory(2 * GIB):
            alone = cqdb.build([("a", 4_294_967_295)])
            built = cqdb.build(entries)
            one_way = cqdb.build(entries, one_way=True, repeats=True)
        self.assertEqual(alone, (image_of([]), [(0, cqdb.Refusal.NO_ROOM)]))
        self.assertEqual(built, (image_of([(b"crane", 1), (b"mole", 2)]), expected))
        self.assertEqual(one_way.refused, [(3, cqdb.Refusal.ZERO_BYTE)])

    def test_memory_that_cannot_be_had(self) -> None:
        writer = cqdb.Writer()
        writer.put("crane", 1)
        with little_memory(2 * GIB):
            self.assertRaises(MemoryError, writer.put, "far", 900_000_000)
            self.assertRaises(MemoryError, cqdb.build, [("far", 900_000_000)])
        writer.put("mole", 2)
        self.assertEqual(writer.close(), image_of([(b"crane", 1), (b"mole", 2)]))

    def test_a_buffer_grows_by_what_is_needed_where_twice_cannot_be_had(self) -> None:
        writer = cqdb.Writer()
        writer.put("far", 300_000_000)
        with open("/proc/self/statm") as numbers:
            used = int(numbers.read().split()[0]) * resource.getpagesize()
        with little_memory(used + 1_400_000_000):
            self.assertRaises(MemoryError, zeros, 2_400_000_000)
            for name, id in many(300):
                writer.put(name, id)
        self.assertEqual(len(writer), 301)


class Interrupted(unittest.TestCase):
    """An exception during a put leaves a writer that can be closed and goes on."""

    def whole(self, writer: cqdb.Writer, tried: int) -> None:
        catalogue = cqdb.Catalogue(writer.close())
        self.assertTrue(catalogue.check())
        self.assertEqual(len(catalogue), len(writer))
        self.assertIn(len(writer), (tried, tried + 1))

    def test_by_a_signal(self) -> None:
        class Stopped(Exception):
            pass

        def stop(*_: Any) -> None:
            raise Stopped

        before = signal.signal(signal.SIGALRM, stop)
        self.addCleanup(signal.signal, signal.SIGALRM, before)
        stopped, writer = 0, cqdb.Writer()
        for number in range(1_500):
            held = len(writer)
            try:
                signal.setitimer(signal.ITIMER_REAL, 1e-6 + number % 40 * 1e-6)
                for step in range(1_000):
                    writer.put(f"prism {number} {step}", number * 1_000 + step)
            except Stopped:
                stopped += 1
            signal.setitimer(signal.ITIMER_REAL, 0)
            self.assertGreaterEqual(len(writer), held)
            self.assertLessEqual(2_072, len(writer.close()))
            if len(writer) > 500:
                self.assertTrue(cqdb.Catalogue(writer.close()).check())
                writer = cqdb.Writer(repeats=number % 2 == 1)
        self.assertGreater(stopped, 500)

    def test_a_handler_that_closes_or_puts(self) -> None:
        saved, refused = [], 0
        writer = cqdb.Writer()

        def save(*_: Any) -> None:
            nonlocal refused
            saved.append(writer.close())
            try:
                writer.put(b"handler %d" % len(saved), 7)
            except RuntimeError as error:
                self.assertIn("under way", str(error))
                refused += 1

        before = signal.signal(signal.SIGALRM, save)
        self.addCleanup(signal.signal, signal.SIGALRM, before)
        signal.setitimer(signal.ITIMER_REAL, 1e-4, 1e-4)
        number, end = 0, time.monotonic() + 20
        while (refused < 5 or len(saved) < 50) and time.monotonic() < end:
            writer.put(f"prism {number}", number % 4_000)
            number += 1
            if number % 50 == 0:
                self.assertTrue(cqdb.Catalogue(writer.close()).check().canonical)
        signal.setitimer(signal.ITIMER_REAL, 0)
        self.assertGreater(refused, 0)
        self.assertTrue(all(cqdb.Catalogue(image).check().canonical for image in saved[-50:]))
        self.assertEqual(len(writer), number + len(saved) - refused)

    def test_at_every_line(self) -> None:
        """Line by line of the functions that change the writer, with a put that makes buffer and index anew."""

        class Stopped(Exception):
            pass

        def puts(writer: cqdb.Writer) -> None:
            for name, id in many(64):
                writer.put(name, id)

        within = ("_put", "_index", "_grow", "_words", "_longer", "zeros", "__init__")
        for stop_at in range(200):
            writer = cqdb.Writer()
            puts(writer)
            lines = 0

            def trace(frame: Any, event: str, _: Any) -> Any:
                nonlocal lines
                if frame.f_code.co_name not in within or "cqdb" not in frame.f_code.co_filename:
                    return trace if event == "call" else None
                if event == "line":
                    lines += 1
                    if lines > stop_at:
                        raise Stopped
                return trace

            sys.settrace(trace)
            try:
                writer.put("x" * 10_000, 50_000)
            except Stopped:
                sys.settrace(None)
                self.whole(writer, 64)
                writer.put("y", 7_000)
                self.assertEqual(cqdb.Catalogue(writer.close())["y"], 7_000)
            else:
                sys.settrace(None)
                self.assertGreater(stop_at, 15)
                return
        self.fail("the put never ended")


class Long(bytes):
    """Says that it is longer than it is."""

    def __len__(self) -> int:
        return 1 << 40

    def __bytes__(self) -> bytes:
        return self


class LongText(str):
    def __len__(self) -> int:
        return 1 << 40

    def encode(self, *_: Any, **__: Any) -> bytes:
        return Long(b"another name")


class LongArray(bytearray):
    def __len__(self) -> int:
        return 1 << 40

    def __bytes__(self) -> bytes:
        return Long(b"another name")


class Number(int):
    """Says that it is an id."""

    def __ge__(self, other: Any) -> bool:
        return True

    def __le__(self, other: Any) -> bool:
        return True

    def __index__(self) -> int:
        return self


class Lies(unittest.TestCase):
    """Subclasses that say other things than they are."""

    def test_names(self) -> None:
        for name in (Long(b"crane"), LongText("crane"), LongArray(b"crane")):
            writer = cqdb.Writer()
            writer.put(name, 1)
            self.assertEqual(writer.close(), image_of([(b"crane", 1)]))
            self.assertEqual(cqdb.build([(name, 1)]).image, image_of([(b"crane", 1)]))
            catalogue = cqdb.Catalogue(image_of(PRISMS))
            self.assertEqual((catalogue[name], name in catalogue, catalogue.round([name, name])), (1, True, [1, 1]))

    def test_images(self) -> None:
        image = image_of(PRISMS)
        for given in (Long(image), LongArray(image)):
            self.assertEqual(cqdb.Catalogue(given), cqdb.Catalogue(image))
            bundle = cqdb.Bundle(given)
            bundle.append(given)
            self.assertEqual((len(bundle), bundle[1]["crane"]), (2, 1))
        self.assertEqual(cqdb.Sheet.read(Long(bytes(6))), cqdb.Sheet())

    def test_ids(self) -> None:
        catalogue = cqdb.Catalogue(image_of(PRISMS))
        for wrong in (Number(-1), Number(2**32 + 1)):
            self.assertRaises(ValueError, catalogue.name, wrong)
            self.assertRaises(ValueError, cqdb.Writer().put, "crane", wrong)
            self.assertNotIn(wrong, catalogue.ids)
        self.assertEqual((catalogue.name(Number(1)), catalogue.name(True)), ("crane", "crane"))


class Arguments(unittest.TestCase):
    def test_choices(self) -> None:
        for wrong in (2**32, 2, -1, 1.5, None, "yes", b""):
            for name in ("one_way", "repeats"):
                self.assertRaisesRegex(TypeError, f"{name} is True or False", cqdb.Writer, **{name: wrong})
                self.assertRaisesRegex(TypeError, f"{name} is True or False", cqdb.build, [], **{name: wrong})
        self.assertEqual(cqdb.build(PRISMS, one_way=1).image, image_of(PRISMS, one_way=True))

    def test_a_descriptor_stays_its_owners(self) -> None:
        reading, writing = os.pipe()
        try:
            for opens in (cqdb.Catalogue.open, cqdb.Bundle.open, cqdb.Sheet.open):
                self.assertRaises(TypeError, opens, reading)
            self.assertRaises(TypeError, cqdb.Writer().write, writing)
            os.fstat(reading)
            os.fstat(writing)
        finally:
            os.close(reading)
            os.close(writing)

    def test_a_writer_is_not_copied(self) -> None:
        writer = cqdb.Writer()
        writer.put("crane", 1)
        for taken in (copy.copy, copy.deepcopy, pickle.dumps):
            self.assertRaisesRegex(TypeError, "cannot be copied or pickled", taken, writer)
        writer.put("mole", 2)
        self.assertEqual(writer.close(), image_of([(b"crane", 1), (b"mole", 2)]))

    def test_a_long_list_of_puts(self) -> None:
        """A put does not look at all earlier names: that would take half a minute."""
        start, writer = time.monotonic(), cqdb.Writer()
        for number in range(100_000):
            writer.put(b"%d" % number, number)
        self.assertLess(time.monotonic() - start, 10)
        self.assertEqual(writer.close(), cqdb.build((b"%d" % number, number) for number in range(100_000)).image)


if __name__ == "__main__":
    unittest.main()
