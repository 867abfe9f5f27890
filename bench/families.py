#!/usr/bin/env python3
"""Times ltl2ba on families of formulas, beside `spin -f` if that is installed.

Usage: bench/families.py [-s SECONDS] [-c] [FAMILY..]

It prints for each formula how long each program took as a whole, with the output thrown away, and how much it printed. A program that takes longer than
SECONDS (10, if not given) is stopped. The last line has the geometric mean of the ratios of both times, over the formulas that both translate. Nothing
checks the numbers: they depend on the machine.

With -c it has ltlclaim read the claim of each formula back, and ltlcheck say whether that is contained in the formula, with the times of both."""
import math
import shutil
import subprocess
import sys
import time
from pathlib import Path

CRATES = Path(__file__).resolve().parent.parent / "crates"
PROGRAM, READER, CHECKER = (CRATES / it / "out" / it for it in ("ltl2ba", "ltlclaim", "ltlcheck"))


def all_of(count, formula):
    return " && ".join("(" + formula.format(i, i + 1) + ")" for i in range(count))


FAMILIES = {
    "always eventually": [all_of(n, "[]<>p{0}") for n in (4, 6, 9)],
    "eventually": [all_of(n, "<>p{0}") for n in (6, 9, 12)],
    "response": [all_of(n, "[](p{0} -> <>q{0})") for n in (3, 5, 7)],
    "next": [all_of(n, "[](p{0} -> X q{0})") for n in (3, 6, 9)],
    "until chain": [all_of(n, "[](p{0} U p{1})") for n in (6, 9, 12)],
    "strong fairness": [all_of(n, "[]<>p{0} -> []<>q{0}") for n in (2, 4, 6)],
    "nested until": [" U ".join(f"p{i}" for i in range(n)) for n in (4, 6, 10)],
    "parity": [" <-> ".join(f"p{i}" for i in range(n)) for n in (4, 8, 16)],
    "eventual parity": [" <-> ".join(f"<>p{i}" for i in range(n)) for n in (2, 4, 8)],
    "clauses": [f"<>({all_of(n, 'a{0} || b{0}')})" for n in (5, 10, 15)],
    "delay": [f"[](p -> {'X ' * n}q)" for n in (4, 8, 16)],
}


def timed(words, most):
    """A text with the time of the program and the number of bytes that it printed; and the seconds, or None if it was stopped or refused."""
    began = time.monotonic()
    try:
        run = subprocess.run(words, stdout=subprocess.PIPE, stderr=subprocess.DEVNULL, timeout=most)
    except subprocess.TimeoutExpired:
        return f"over {most:g} s", None
    took = time.monotonic() - began
    said = f"{took:8.3f} s {len(run.stdout):10} bytes"
    return (f"{said}, status {run.returncode}", None) if run.returncode else (said, took)


def answered(words, given, most):
    """A text with the time of the program and the first line that it printed, and all that it printed, or nothing if it was stopped or refused."""
    began = time.monotonic()
    try:
        run = subprocess.run(words, input=given, capture_output=True, timeout=most)
    except subprocess.TimeoutExpired:
        return f"over {most:g} s", b""
    took, told = time.monotonic() - began, run.stderr if run.returncode > 1 else run.stdout
    line = told.decode().split("\n")[0]
    return f"{took:8.3f} s {line}", run.stdout


def read_back(formula, most):
    """Has the claim of the formula read back, and the automaton checked."""
    try:
        claim = subprocess.run([PROGRAM, "-f", formula], capture_output=True, timeout=most).stdout
    except subprocess.TimeoutExpired:
        claim = b""
    if not claim:
        print("  no claim")
        return
    said, automaton = answered([READER], claim, most)
    print(f"  ltlclaim {said}, a claim of {len(claim)} bytes")
    if automaton:
        print(f"  ltlcheck {answered([CHECKER, '-f', formula], automaton, most)[0]}", flush=True)


def main(words):
    most, is_read_back = 10.0, False
    if words[:1] == ["-s"]:
        most, words = float(words[1]), words[2:]
    if words[:1] == ["-c"]:
        is_read_back, words = True, words[1:]
    if not PROGRAM.exists():
        sys.exit("bench/families.py: build ltl2ba first: ./run ltl2ba -f p")
    spin = not is_read_back and shutil.which("spin")
    logarithms = []
    for family in words or FAMILIES:
        for formula in FAMILIES[family]:
            shown = formula if len(formula) < 60 else formula[:57] + "..."
            if is_read_back:
                print(f"{family}: {shown}")
                read_back(formula, most)
                continue
            said, ours = timed([PROGRAM, "-f", formula], most)
            print(f"{family}: {shown}\n  ltl2ba   {said}")
            if spin:
                said, theirs = timed([spin, "-f", formula], most)
                print(f"  spin -f  {said}", flush=True)
                logarithms += [math.log(ours / theirs)] if ours and theirs else []
    if logarithms:
        print(f"geometric mean of ltl2ba / spin -f over {len(logarithms)} formulas: {math.exp(sum(logarithms) / len(logarithms)):.2f}")


main(sys.argv[1:])
