"""Each allocation of the library is refused in turn. Then the answer is MemoryError, and the next call answers as before."""

import os
import shlex
import shutil
import subprocess
import sys
import tempfile
import unittest
from pathlib import Path

from tests.support import TOP

COMPILER = shlex.split(os.environ.get("CC", "cc"))
ARCHIVE = TOP / "crates/ltl_c/out/libltl2ba.a"
CODE = """
import sys
sys.path.insert(0, sys.argv[1])
from ltl2ba import _calls, check, claim_to_hoa, compare, holds, timeline, translate
from ltl2ba._calls import LIBRARY

whole = translate("[]<>p")
many = " && ".join(f"<>p{i}" for i in range(3))
calls = [
    lambda: translate("[](p -> <>q)").edges,
    lambda: translate(many).to_claim(),
    lambda: translate(many, generalized=True).to_hoa(),
    lambda: holds("[](p -> X q)", "{p}; cycle {q}; {}"),
    lambda: check(whole, "[]p"),
    lambda: check(whole.to_hoa(), "[]<>p"),
    lambda: compare("p U q", "[]p"),
    lambda: _calls.names(b"p U (q || r)"),
    lambda: claim_to_hoa(whole.to_claim()),
    lambda: str(timeline("p U q", "cycle {p}; {q}")),
]
refused = 0
for number, call in enumerate(calls):
    right = call()
    nth = 1
    while True:
        LIBRARY.refuse(nth)
        try:
            seen = call()
        except MemoryError:
            seen = MemoryError
        was_met = LIBRARY.refuse(0) == 0
        assert (seen is MemoryError) if was_met else seen == right, (number, nth, seen)
        assert call() == right, (number, nth)
        if not was_met:
            break
        refused, nth = refused + 1, nth + 1
print(refused)
"""


class TestMemory(unittest.TestCase):
    def test_each_allocation_is_refused(self):
        if not shutil.which(COMPILER[0]) or not ARCHIVE.exists():
            self.skipTest(f"refused allocations, for want of {COMPILER[0] if ARCHIVE.exists() else ARCHIVE.name}")
        with tempfile.TemporaryDirectory() as folder:
            library = Path(folder, "refusing.so")
            flags = ["-shared", "-fPIC", "-Wl,--wrap=malloc,--wrap=realloc", "-Wl,--whole-archive", ARCHIVE, "-Wl,--no-whole-archive"]
            subprocess.run([*COMPILER, "-o", library, TOP / "python/tests/refusing.c", *flags], check=True)
            words = [sys.executable, "-X", "dev", "-W", "error", "-c", CODE, str(TOP / "python")]
            ran = subprocess.run(words, env={**os.environ, "LTL2BA_LIBRARY": str(library)}, capture_output=True, text=True, timeout=600, check=False)
        self.assertEqual((ran.stderr, ran.returncode), ("", 0))
        self.assertGreater(int(ran.stdout), 300)


if __name__ == "__main__":
    unittest.main()
