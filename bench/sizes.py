#!/usr/bin/env python3
"""Counts the states of the claims that ltl2ba and `spin -f` print, for the formulas of docs/PATTERNS.md that have no X, each negated as for a check.

Usage: bench/sizes.py [-p PROGRAM] [-t]; PROGRAM is ltl2ba, by default the one that ./build made. With -t it prints the table of docs/SPIN.md: the sums for
each part of docs/PATTERNS.md. Otherwise it prints a line for each formula before that: the states of spin's claim, those of ltl2ba's, those of the
generalized automaton that `ltl2ba -G` prints, and the formula.

A state is a place of the claim with a label; several labels in a row are one place. So `accept_all` counts, to which spin's claim doesn't go: in its place it
stops at once, by an assertion. Spin gets the formula with all brackets, as ltl2ba prints it, since both read formulas without them differently."""

import re
import shutil
import subprocess
import sys
from pathlib import Path

TOP = Path(__file__).resolve().parent.parent
SECONDS = 300


def patterns():
    """The parts of docs/PATTERNS.md, each with the formulas of its table that have no X. A formula counts once."""
    seen = set()
    for part in re.split(r"^## ", (TOP / "docs/PATTERNS.md").read_text(encoding="utf-8"), flags=re.M)[1:]:
        title, _, rest = part.partition("\n")
        rows = [re.split(r"(?<!\\)\|", it)[2].strip(" `").replace("\\|", "|") for it in rest.split("\n") if it.startswith("| ")]
        formulas = [it for it in dict.fromkeys(rows[1:]) if "X" not in it and it not in seen]
        seen.update(formulas)
        yield title.partition(":")[0], formulas


def claim_of(*words):
    return subprocess.run(words, stdout=subprocess.PIPE, stdin=subprocess.DEVNULL, text=True, check=True, timeout=SECONDS).stdout


def states(claim):
    return len(re.findall(r"^(?:\w+:\n)+", claim, re.M))


def sizes(program, formula):
    own = claim_of(program, "-f", f"!({formula})")
    with_brackets = re.search(r"/\* (.*) \*/", own)[1]
    generalized = claim_of(program, "-G", "-f", f"!({formula})")
    return states(claim_of("spin", "-f", with_brackets)), states(own), int(re.search(r"^States: (\d+)$", generalized, re.M)[1])


def row(title, counts):
    spin, own, generalized = (sum(it) for it in zip(*counts))
    more, less = sum(own > spin for spin, own, _ in counts), sum(own < spin for spin, own, _ in counts)
    return f"| {title} | {len(counts)} | {spin} | {own} | {more} | {len(counts) - more - less} | {less} | {generalized} |"


def main(words):
    program = words[words.index("-p") + 1] if "-p" in words else str(TOP / "crates/ltl2ba/out/ltl2ba")
    for needed in program, "spin":
        if not shutil.which(needed):
            sys.exit(f"bench/sizes.py: {needed} is not there")
    counted = {title: {it: sizes(program, it) for it in formulas} for title, formulas in patterns()}
    if "-t" not in words:
        for formula, (spin, own, generalized) in (it for part in counted.values() for it in part.items()):
            print(f"{spin:4} {own:4} {generalized:4}  !({formula})")
    print("| formulas of | number | `spin -f` | `ltl2ba -f` | larger | equal | smaller | `ltl2ba -G` |\n|---|---|---|---|---|---|---|---|")
    for title, part in counted.items():
        print(row(title, list(part.values())))
    print(row("all", [counts for part in counted.values() for counts in part.values()]))


if __name__ == "__main__":
    main(sys.argv[1:])
