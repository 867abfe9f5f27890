#!/usr/bin/env python3
"""Runs the tests of the module for Python, python/tests, in Python's development mode, in which a warning is a fault. Installs the wheel that ./package makes
in a new virtual environment, and the sources by `pip install ./python`, and tries both there. Has mypy read the types, if it is installed.

Usage: tests/python_module.py [FOLDER]; the programs are those of the folder, or those that the gate built. What isn't run, as everything is without the shared
library for C, is reported in a line that begins with 'skipped: '. The last line is 'N passed, M failed'."""

import os
import re
import shutil
import subprocess
import sys
import tempfile
import venv
from importlib.machinery import SourceFileLoader
from importlib.util import module_from_spec, spec_from_loader
from pathlib import Path

TOP = Path(__file__).resolve().parent.parent
SECONDS = 1800
# What the installed module is asked, far from the repository, and what it shows.
TRIAL = """
import ltl2ba
from ltl2ba import *
print(ltl2ba.__file__.startswith(__import__("sys").prefix), ltl2ba._calls.LIBRARY._name.startswith(__import__("sys").prefix))
print(check(translate("<>p"), "[]<>p"))
print(holds(G(proposition("Req") >> F("p")), Word([], [{"Req"}])))
print(translate("[]<>p").to_claim() == CLAIM)
"""
SHOWN = "True True\nviolated\n{p}; cycle {}\nFalse\nTrue\n"


class Count:
    """Counts what was as expected."""

    def __init__(self):
        self.passed = self.failed = 0

    def expect(self, about, seen, wanted):
        self.passed, self.failed = self.passed + (seen == wanted), self.failed + (seen != wanted)
        if seen != wanted:
            print(f"{about}: {seen}, and not {wanted}")


def ran(*words, folder=None, **around):
    kept = {name: it for name, it in os.environ.items() if name not in ("PYTHONPATH", "LTL2BA_LIBRARY")}
    how = {"env": {**kept, **around}, "stdin": subprocess.DEVNULL, "capture_output": True, "text": True, "timeout": SECONDS, "check": False}
    return subprocess.run([str(it) for it in words], cwd=folder, **how)


def try_tests(count, programs):
    around = {"LTL2BA_PROGRAMS": programs} if programs else {}
    told = ran(sys.executable, "-X", "dev", "-W", "error", "-m", "unittest", "-v", folder=TOP / "python", PYTHONDONTWRITEBYTECODE="1", **around)
    total = re.search(r"^Ran (\d+) tests? in ", told.stderr, re.M)
    skipped = re.findall(r"^(.*) \.\.\. skipped ['\"](.*)['\"]$", told.stderr, re.M)
    for name, why in skipped:
        print(f"skipped: {name.split(' ')[0] or 'a test'} of python/tests: {why}")
    failed = sum(map(int, re.findall(r"(?:failures|errors)=(\d+)", told.stderr.rpartition("\nFAILED")[2])))
    right = total is not None and (told.returncode == 0) == (failed == 0)
    if failed or not right:
        print(told.stdout, told.stderr, sep="\n")
    count.failed += failed or not right
    count.passed += int(total[1]) - failed - len(skipped) if right else 0


def maker():
    """The functions of ./package, as a module."""
    loader = SourceFileLoader("package", str(TOP / "package"))
    module = module_from_spec(spec_from_loader("package", loader))
    loader.exec_module(module)
    return module


def wheel_in(room):
    """A wheel of the shared library that is built here."""
    made = maker()
    files, built = made.collected()
    return next(made.put_wheel(files, lambda found: made.proved("of a test", "unknown", built, found), room, 1_000_000_000))


def try_installed(count, room, what, claim):
    """Installs the module in the environment of the folder, without a network, asks it there, and removes it."""
    here = room / "environment"
    installed = ran(here / "bin/python", "-m", "pip", "install", "--no-index", "--disable-pip-version-check", what, folder=room)
    count.expect(f"pip install {what.name}", (installed.returncode, installed.stderr), (0, ""))
    tried = ran(here / "bin/python", "-X", "dev", "-W", "error", "-c", TRIAL.replace("CLAIM", repr(claim)), folder=room)
    count.expect(f"the module that {what.name} installed", (tried.stdout, tried.stderr), (SHOWN, ""))
    checked = ran(here / "bin/python", "-m", "pip", "check", folder=room)
    count.expect("pip check", checked.returncode, 0)
    removed = ran(here / "bin/python", "-m", "pip", "uninstall", "-y", "ltl2ba", folder=room)
    left = [str(it) for it in here.rglob("*ltl2ba*")]
    count.expect("what is left", (removed.returncode, left), (0, []))


def try_types(count):
    if ran(sys.executable, "-c", "import mypy").returncode:
        print("skipped: the types of the module for Python, for want of mypy")
        return
    told = ran(sys.executable, "-m", "mypy", "--strict", "--cache-dir", os.devnull, "ltl2ba", folder=TOP / "python")
    count.expect("mypy --strict", (told.returncode, told.stdout if told.returncode else ""), (0, ""))


def main(words):
    if words[:1] in (["-h"], ["--help"]):
        print(__doc__)
        return 0
    programs, count = Path(words[0]).resolve() if words else None, Count()
    sys.dont_write_bytecode = True
    if not list((TOP / "crates/ltl_c/out").glob("libltl2ba.so.*")):
        print("skipped: the module for Python, for want of the shared library for C, which ./build ltl_c makes where there is a C compiler")
        print("0 passed, 0 failed")
        return 0
    try_tests(count, str(programs or ""))
    try_types(count)
    missing = [it for it in ("strip", "objcopy", "objdump") if not shutil.which(it)]
    if missing:
        print(f"skipped: the wheel for Python, for want of {missing[0]}")
    else:
        claim = ran(Path(programs or TOP / "crates/ltl2ba/out", "ltl2ba"), "-f", "[]<>p").stdout
        with tempfile.TemporaryDirectory() as room:
            venv.create(Path(room, "environment"), with_pip=True)
            try_installed(count, Path(room), wheel_in(Path(room)), claim)
            try_installed(count, Path(room), TOP / "python", claim)
    print(f"{count.passed} passed, {count.failed} failed")
    return 1 if count.failed or not count.passed else 0


if __name__ == "__main__":
    sys.exit(main(sys.argv[1:]))
