"""The examples in the module's documentation."""
import doctest
import importlib
import pathlib
import unittest

import cqdb

MODULES = sorted(file.stem for file in pathlib.Path(cqdb.__file__).parent.glob("*.py"))


def load_tests(loader: unittest.TestLoader, tests: unittest.TestSuite, pattern: object) -> unittest.TestSuite:
    for name in MODULES:
        module = cqdb if name == "__init__" else importlib.import_module(f"cqdb.{name}")
        suite = doctest.DocTestSuite(module) if name in WITH_EXAMPLES else unittest.TestSuite()
        tests.addTest(suite)
    return tests


WITH_EXAMPLES = {"__init__", "build", "bundle", "catalogue", "ids", "memory", "names", "preflight", "refusal", "sheet", "writer"}


class Modules(unittest.TestCase):
    def test_no_module_with_examples_is_left_out(self) -> None:
        finder = doctest.DocTestFinder(exclude_empty=True)
        for name in MODULES:
            module = cqdb if name == "__init__" else importlib.import_module(f"cqdb.{name}")
            examples = sum(len(test.examples) for test in finder.find(module))
            self.assertEqual(examples > 0, name in WITH_EXAMPLES, name)
