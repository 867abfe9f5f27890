"""What the tests share: the programs of the repository, and formulas and words at random."""

import os
import random
import runpy
import subprocess
import sys
import unittest
from pathlib import Path

try:
    import ltl2ba
except ImportError as fault:
    raise unittest.SkipTest(str(fault)) from None

TOP = Path(__file__).resolve().parent.parent.parent
# The folder of programs, or nothing for those of ./build.
FOLDER = os.environ.get("LTL2BA_PROGRAMS")
SECONDS = 600
NAMES = "p", "q", "r", "s"


def program(name):
    """A program, or a test that is skipped."""
    place = Path(FOLDER or TOP / "crates" / name / "out", name)
    if not os.access(place, os.X_OK):
        raise unittest.SkipTest(f"{name} isn't built")
    return str(place)


def ran(name, *words, given=""):
    """The output, the messages and the status of a program."""
    it = subprocess.run([program(name), *words], input=given, capture_output=True, text=True, timeout=SECONDS, check=False)
    return it.stdout, it.stderr, it.returncode


def formulas(count, seed):
    """Texts of formulas at random, as tests/c_library.py makes them."""
    sys.path.insert(0, str(TOP / "tests"))
    try:
        make = runpy.run_path(str(TOP / "tests/c_library.py"))["random_formula"]
    finally:
        sys.path.pop(0)
    chance = random.Random(seed)
    return [make(chance, chance.choice([1, 2, 3, 4])) for _ in range(count)]


def letters(chance, count):
    return [{name for name in NAMES if chance.random() < 0.5} for _ in range(count)]


def words(count, seed):
    """Words at random."""
    chance = random.Random(seed)
    return [ltl2ba.Word(letters(chance, chance.randrange(4)), letters(chance, chance.randrange(1, 4))) for _ in range(count)]
