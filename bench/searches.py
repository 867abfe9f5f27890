#!/usr/bin/env python3
"""What reduced claims are worth to Spin: checks models against formulas, once with the claim of `ltl2ba` and once with that of `ltl2ba -H | ltlreduce -c`, and
prints the states and transitions of both claims and of both searches, and their seconds, the least of three runs each.

Usage: bench/searches.py [-p FOLDER]; FOLDER has the programs, by default those that ./build made. The models are those of docs/tutorial and of bench/models: the
election of a leader among five processes, and a sliding window of three messages over channels that lose some. The claim is that of the formula's negation, as a
user checks it; a search ends at the first violation. It needs Spin and a C compiler. Only the seconds depend on the machine."""

import argparse
import re
import subprocess
import tempfile
from pathlib import Path

TOP = Path(__file__).resolve().parent.parent
SECONDS, RUNS = 600, 3
CHECKS = {
    "docs/tutorial/light.pml": ["[]<>red", "[](red -> <>green)", "[]<>red && []<>green && []<>off", "[](green -> ((green || off) U red))"],
    "docs/tutorial/mutex.pml": ["[](wants -> <>has)", "[]<>has -> []<>wants", "[](wants -> (!has U has)) || <>[]lock"],
    "docs/tutorial/turns.pml": ["[](wants -> <>has)", "[]<>lock -> []<>has"],
    "bench/models/election.pml": ["[]!many", "<>all -> <>[]one", "!one U one -> [](one -> []one)", "[](all -> one) && [](one -> !many U all)", "[]!many && (<>all -> (!all U one))"],
    "bench/models/window.pml": [
        "[](full -> <>!full)",
        "[]<>!lost -> [](full -> <>got)",
        "([]<>got && []<>!lost) -> []<>idle",
        "[](full -> (!idle U (got || lost))) || []<>lost",
        "([]<>idle -> []<>full) && ([]<>full -> []<>idle)",
        "[]((full && <>idle) -> (!idle U (got || lost)))",
    ],
}


def ran(*words, folder=None, given=""):
    made = subprocess.run([str(it) for it in words], input=given, cwd=folder, capture_output=True, text=True, timeout=SECONDS, check=False)
    if made.returncode:
        raise SystemExit(f"{' '.join(map(str, words))}: {made.stderr or made.stdout}")
    return made.stdout


def claims(folder, formula):
    """The claim of `ltl2ba` and the reduced one."""
    translator, reducer = (folder / it if folder else TOP / "crates" / it / "out" / it for it in ("ltl2ba", "ltlreduce"))
    return ran(translator, "-f", f"!({formula})"), ran(reducer, "-c", given=ran(translator, "-H", "-f", f"!({formula})"))


def size(claim):
    """The states and the transitions of a claim of `ltl2ba`; one line `skip` is a transition."""
    return len(re.findall(r"^\w+:", claim, re.M)), len(re.findall(r"-> goto|^\tskip$", claim, re.M))


def search(room, model, claim):
    """The states and transitions of the search, its seconds, and whether it found a violation."""
    (room / "claim").write_text(claim)
    (room / "model.pml").write_text(model.read_text())
    ran("spin", "-a", "-N", "claim", "model.pml", folder=room)
    ran("cc", "-O2", "-w", "-DNOREDUCE", "-o", "pan", "pan.c", folder=room)
    told = [subprocess.run(["./pan", "-a", "-n", "-m1000000"], cwd=room, capture_output=True, text=True, timeout=SECONDS, check=False).stdout for _ in range(RUNS)]
    counts = [int(re.search(rf"^\s*(\d+) {it}", told[0], re.M)[1]) for it in ("states, stored", "transitions")]
    seconds = min(float((re.search(r"elapsed time ([0-9.]+) seconds", it) or ["", "0"])[1]) for it in told)
    return *counts, seconds, re.search(r"errors: (\d+)", told[0])[1] != "0"


def main():
    parser = argparse.ArgumentParser(allow_abbrev=False)
    parser.add_argument("-p", type=Path)
    folder = parser.parse_args().p
    folder = folder and folder.resolve()
    print("| model | formula | | claim: states | transitions | search: states | transitions | seconds | claim, reduced: states | transitions | search: states | transitions | seconds |")
    print("|---" * 13 + "|")
    whole = [0] * 10
    for model, formulas in CHECKS.items():
        for formula in formulas:
            with tempfile.TemporaryDirectory() as room:
                both = [(*size(it), *search(Path(room), TOP / model, it)) for it in claims(folder, formula)]
            (*plain, violated), (*reduced, same) = both
            if violated != same:
                raise SystemExit(f"{model}: {formula}: only one of the claims is violated")
            whole = [one + other for one, other in zip(whole, [*plain, *reduced])]
            shown = formula.replace("|", "\\|")
            print(f"| {Path(model).stem} | `{shown}` | {'violated' if violated else 'holds'} | " + " | ".join(f"{it:,}" for it in [*plain, *reduced]) + " |", flush=True)
    print("| all | | | " + " | ".join(f"{round(it, 2):,}" for it in whole) + " |")


if __name__ == "__main__":
    main()
