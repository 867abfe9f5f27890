"""The examples of the docstrings, and names that are promised."""

import doctest
import importlib
import pkgutil
import unittest

from tests.support import ltl2ba

MODULES = sorted(it.name for it in pkgutil.iter_modules(ltl2ba.__path__, "ltl2ba."))


class TestDocstrings(unittest.TestCase):
    def test_examples(self):
        attempted = 0
        for name in ["ltl2ba", *MODULES]:
            result = doctest.testmod(importlib.import_module(name), verbose=False)
            self.assertEqual(result.failed, 0, name)
            attempted += result.attempted
        self.assertGreater(attempted, 40)

    def test_names(self):
        for name in ltl2ba.__all__:
            self.assertTrue((getattr(ltl2ba, name).__doc__ or "").strip(), name)
        for name in ["ltl2ba", *MODULES]:
            self.assertTrue(importlib.import_module(name).__doc__, name)


if __name__ == "__main__":
    unittest.main()
