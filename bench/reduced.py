#!/usr/bin/env python3
"""Counts the states and edges of automata before and after ltlreduce, beside the states of the claims of `spin -f`: for the formulas of docs/PATTERNS.md that
have no X and their negations, and for random formulas over p and q with 4 to 12 operators and their negations.

Usage: bench/reduced.py [-n COUNT] [-s SEED] [-p FOLDER]; COUNT is 300 and SEED 1, if not given. FOLDER has the programs, by default those that ./build made.
The automata are those of `ltl2ba -H`, and of `ltl2ba -G` (generalized, reduced as it is). A formula is left out if ltl2ba refuses it, if its text in HOA has
more than 60,000 bytes, or if spin takes longer than 20 seconds; how many are left out is printed. Nothing depends on the machine but that."""

import argparse
import random
import re
import subprocess
from pathlib import Path

from sizes import patterns, states as labels

TOP = Path(__file__).resolve().parent.parent
SECONDS, BYTES = 20, 60_000


def draw(dice, size):
    """A random formula with so many operators."""
    if size == 0:
        return dice.choice("pq")
    if dice.random() < 0.45:
        return f"{dice.choice(('!', '[]', '<>', 'X'))}({draw(dice, size - 1)})"
    left = dice.randrange(size)
    return f"({draw(dice, left)}) {dice.choice(('&&', '||', '->', 'U', 'V'))} ({draw(dice, size - 1 - left)})"


def program(folder, name):
    return folder / name if folder else TOP / "crates" / name / "out" / name


def ran(*words, given=""):
    return subprocess.run([str(it) for it in words], input=given, capture_output=True, text=True, timeout=SECONDS, check=False).stdout


def counts(text):
    return int(re.search(r"^States: (\d+)$", text, re.M)[1]), len(re.findall(r"^\[", text, re.M))


def sizes(folder, formula):
    """The states of spin's claim, and the states and edges of the four automata; `None` where a program refuses."""
    try:
        claim, *texts = (ran(program(folder, "ltl2ba"), *options, "-f", formula) for options in ((), ("-H",), ("-G",)))
        if not claim or max(map(len, texts)) > BYTES:
            return None
        spin = ran("spin", "-f", re.search(r"/\* (.*) \*/", claim)[1])
    except subprocess.TimeoutExpired:
        return None
    reduced = [ran(program(folder, "ltlreduce"), given=it) for it in texts]
    return (labels(spin), *counts(texts[0]), *counts(reduced[0]), *counts(texts[1]), *counts(reduced[1])) if labels(spin) else None


def row(folder, title, formulas):
    found = [sizes(folder, it) for it in formulas]
    kept = [it for it in found if it]
    print(f"| {title} | {len(kept)} | " + " | ".join(f"{sum(it):,}" for it in zip(*kept)) + f" | {len(found) - len(kept)} |", flush=True)


def main():
    parser = argparse.ArgumentParser(allow_abbrev=False)
    parser.add_argument("-n", type=int, default=300)
    parser.add_argument("-s", type=int, default=1)
    parser.add_argument("-p", type=Path)
    options = parser.parse_args()
    print("| formulas | number | states of `spin -f` | of `ltl2ba -H` | edges | reduced | edges | states of `ltl2ba -G` | edges | reduced | edges | left out |")
    print("|---" * 12 + "|")
    common = [it for _, part in patterns() for it in part]
    row(options.p, "patterns", common)
    row(options.p, "negated patterns", [f"!({it})" for it in common])
    dice = random.Random(options.s)
    drawn = [draw(dice, dice.randint(4, 12)) for _ in range(options.n)]
    row(options.p, "random", drawn)
    row(options.p, "negated random", [f"!({it})" for it in drawn])


if __name__ == "__main__":
    main()
