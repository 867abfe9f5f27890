#!/usr/bin/env python3
"""Bounds the work of the built ltl2ba on formulas that were chosen so that a lost optimisation shows. The work is counted in calls of malloc and realloc, and
in the bytes for which they ask, less those of the formula `p`. They depend on no machine: what is made twice, or made and thrown away, is asked for. Work that
asks for no memory, as comparisons do, isn't seen; bench/families.py shows that. A formula may take three times what it took when its row was written.

Usage: tests/work.py [-p FOLDER]      the program is that of the folder, or that which the gate built; the last line is 'N passed, M failed'
       tests/work.py measure          prints the rows as they are now

Where a change takes less, write its row anew, so that it isn't lost again. Needs a C compiler, and says so where there is none."""

import os
import shutil
import subprocess
import sys
import tempfile
from pathlib import Path

TOP = Path(__file__).resolve().parent.parent
COMPILER = os.environ.get("CC", "cc")
# So many times the counts of a row are allowed, and this many seconds.
MOST, SECONDS = 3, 60


def each(count, part, between=" && "):
    """A formula for each number below the count; in it, {0} is the number and {1} the next one."""
    return between.join("(" + part.format(i, i + 1) + ")" for i in range(count))


# What shows where a row takes more; the formula; the calls, and the bytes that they ask for. How much more it takes without what is named was measured with
# that switched off: the counts grow from 5 to over 1,000 times. The last four rows are bounds alone.
ROWS = (
    ("sets of rows with the same successors are explored once", each(9, "[]<>p{0}"), 2_823, 2_815_400),
    ("too many transitions are refused before they are made", each(13, "<>p{0}"), 15_547, 11_635_590),
    ("joins of conjuncts are remembered", each(14, "[](p{0} U p{1})"), 7_835, 25_529_351),
    ("independent conjuncts of responses are joined apart", each(6, "[](p{0} -> <>q{0})"), 3_318, 11_457_636),
    ("independent conjuncts of releases are joined apart", each(6, "p{0} V (q{0} U r{0})"), 5_367, 2_872_316),
    ("independent conjuncts of fairness are joined apart", each(6, "[]<>p{0} -> []<>q{0}"), 51_390, 25_242_300),
    ("pairs below an until are pruned by what they lack", f"<>({each(16, 'a{0} || q')})", 413, 157_233),
    ("pairs of a conjunction are pruned while they are joined", each(40, "a{0} || q"), 1_004, 368_173),
    ("pairs of linked conjuncts are pruned while they are joined", each(24, "a{0} || a{1}"), 932, 5_110_543),
    ("only the lists that are needed are made", " && ".join(f"(p{i} || p{j})" for i in range(40) for j in range(i)), 17_362, 19_912_183),
    ("transitions of many components", each(10, "<>p{0}"), 20_688, 34_371_887),
    ("equivalences of eventualities", " <-> ".join(f"<>p{i}" for i in range(6)), 11_292, 7_986_103),
    ("untils within untils", " U ".join(f"p{i}" for i in range(8)), 11_486, 17_147_170),
    ("many states that are merged", f"[](p -> {'X ' * 12}q)", 63_141, 9_187_651),
)


class Counter:
    """Runs the program with each growth of memory counted."""

    def __init__(self, room, program):
        self.room, self.program = Path(room), program
        subprocess.run([COMPILER, "-O2", "-shared", "-fPIC", "-o", f"{room}/faults.so", f"{TOP}/tools/faults.c", "-ldl"], check=True)
        self.least = self.run("p")

    def count(self, formula):
        """The calls and the bytes of a run beyond those of `p`, and its status, or None if it takes too long."""
        counts = self.run(formula)
        return counts and (*(max(0, it - least) for it, least in zip(counts[:2], self.least)), counts[2])

    def run(self, formula):
        around = {"LD_PRELOAD": f"{self.room}/faults.so", "COUNTED": f"{self.room}/calls", "ASKED": f"{self.room}/bytes"}
        try:
            ran = subprocess.run([self.program, "-f", formula], env=around, stdout=subprocess.DEVNULL, stderr=subprocess.DEVNULL, timeout=SECONDS, check=False)
        except subprocess.TimeoutExpired:
            return None
        return *(int((self.room / it).read_text(encoding="ascii")) for it in ("calls", "bytes")), ran.returncode


def fault(counted, calls, asked):
    """What is wrong with the counts of a run, if something is."""
    if counted is None:
        return f"takes more than {SECONDS} seconds"
    if counted[2] not in (0, 3):
        return f"ends with status {counted[2]}"
    if counted[0] > MOST * calls or counted[1] > MOST * asked:
        return f"takes {counted[0]:,} calls and {counted[1]:,} bytes, where {calls:,} and {asked:,} were enough"
    return None


def main(words):
    program = (Path(words[1]) if words[:1] == ["-p"] else TOP / "crates/ltl2ba/out").resolve() / "ltl2ba"
    if not program.exists():
        print(f"{program} isn't there: ./build ltl2ba makes it\n0 passed, 1 failed")
        return 1
    if not shutil.which(COMPILER):
        print("skipped: tests/work.py, for want of a C compiler\n0 passed, 0 failed")
        return 0
    failed = 0
    with tempfile.TemporaryDirectory() as room:
        counter = Counter(room, program)
        for about, formula, calls, asked in ROWS:
            counted = counter.count(formula)
            why = fault(counted, calls, asked)
            failed += bool(why)
            if words == ["measure"]:
                print(f"{about}: {counted}")
            elif why:
                print(f"{about}: {formula[:60]} {why}")
    print(f"{len(ROWS) - failed} passed, {failed} failed")
    return 1 if failed else 0


sys.exit(main(sys.argv[1:]))
