#!/usr/bin/env python3
"""Measures the module for Python: how long its import takes, how many calls it makes in a second, and how many with several threads at a time.

Usage: PYTHONPATH=python bench/python.py. The import is measured in new processes, beside that of ctypes alone; the seconds of calls are those of the processor,
and those of threads are those of a clock."""

import subprocess
import sys
import time
from concurrent.futures import ThreadPoolExecutor

import ltl2ba

FORMULA, LONG = "[](p -> <>q)", "!([]<>p -> ([](q -> <>r) && (s U (t || []u))))"
CALLS = {
    "translate": lambda: ltl2ba.translate(FORMULA),
    "translate, with its edges": lambda: ltl2ba.translate(FORMULA).edges,
    "translate, with its text": lambda: ltl2ba.translate(FORMULA).to_hoa(),
    "translate an object": lambda it=ltl2ba.Formula.parse(FORMULA): ltl2ba.translate(it),
    "read a formula as Spot does": lambda: ltl2ba.Formula.parse(FORMULA, dialect="spot"),
    "holds": lambda: ltl2ba.holds(FORMULA, "{p}; cycle {q}; {}"),
    "equivalent": lambda: ltl2ba.equivalent("p U q || []p", "q V (p || q)"),
}
THREADS, SECONDS = (1, 2, 4), 1.0


def import_seconds(name):
    """The least processor time of ten imports."""
    code = f"import time; begun = time.process_time(); import {name}; print(time.process_time() - begun)"
    return min(float(subprocess.run([sys.executable, "-c", code], stdout=subprocess.PIPE, check=True).stdout) for _ in range(10))


def rate(call):
    """The calls in a second, the best of five parts of a second."""
    best = 0.0
    for _ in range(5):
        count, begun = 0, time.process_time()
        while time.process_time() - begun < SECONDS / 5:
            call()
            count += 1
        best = max(best, count / (time.process_time() - begun))
    return best


def together(threads):
    """The calls in a second on a clock, of so many threads at a time."""
    end = time.monotonic() + SECONDS

    def work(_):
        count = 0
        while time.monotonic() < end:
            ltl2ba.translate(LONG)
            count += 1
        return count

    with ThreadPoolExecutor(threads) as pool:
        return sum(pool.map(work, range(threads))) / SECONDS


def main():
    print(f"import ltl2ba: {1000 * import_seconds('ltl2ba'):.0f} ms, of these ctypes: {1000 * import_seconds('ctypes'):.0f} ms")
    for name, call in CALLS.items():
        print(f"{name}: {rate(call):,.0f} a second")
    for threads in THREADS:
        print(f"{threads} threads: {together(threads):,.0f} a second")


if __name__ == "__main__":
    main()
