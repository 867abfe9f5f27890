#!/usr/bin/env python3
"""Runs ltlreduce on random automata, and compares what it prints with what it was given: the propositions, the counts of states, edges and sets, and for each
short word whether both accept it. The reader of both texts and the search for an accepting cycle are in this file. What `ltlreduce -c` prints is given to
ltlclaim, whose automaton has to accept the same words; for n sets the claim has at most n + 1 labels for each state.

Usage: tests/reductions.py [-p FOLDER] [COUNT]; the programs are those of the folder, or those that the gate built. The last line is 'N passed, M failed'."""

import os
import random
import re
import subprocess
import sys
from itertools import combinations, product
from pathlib import Path

TOP = Path(__file__).resolve().parent.parent
SEED, COUNT, SECONDS = 11, 120, 60
# The most letters of a stem and of a cycle.
STEM, CYCLE = 1, 3
LINE = re.compile(r"State: (\d+)(?: \{([^}]*)\})?|\[([^\]]*)\] (\d+)(?: \{([^}]*)\})?")


def made(random_of):
    """The text of a random automaton."""
    states, names, sets = random_of.randint(1, 7), ["p", "q"][: random_of.randint(0, 2)], random_of.randint(0, 3)
    on_states = random_of.random() < 0.4
    lines = ["HOA: v1", f"States: {states}", f"Start: {random_of.randrange(states)}", f"AP: {len(names)}" + "".join(f' "{it}"' for it in names)]
    lines += [f"Acceptance: {sets} " + ("&".join(f"Inf({it})" for it in range(sets)) or "t"), "--BODY--"]

    def marks():
        return "".join(f" {{{' '.join(it)}}}" for it in [[str(it) for it in range(sets) if random_of.random() < 0.4]] if it)

    def label():
        literals = [random_of.choice(("", "!")) + str(it) for it in range(len(names)) if random_of.random() < 0.6]
        other = " | " + random_of.choice(("0", "!0")) if names and random_of.random() < 0.15 else ""
        return ("&".join(literals) or "t") + other

    for state in range(states):
        lines.append(f"State: {state}" + (marks() if on_states else ""))
        lines += [f"[{label()}] {random_of.randrange(states)}" + ("" if on_states else marks()) for _ in range(random_of.randint(0, 4))]
    return "\n".join([*lines, "--END--", ""])


def cubes(label):
    """The least cubes of a label without brackets, as sets of a number and a sign."""
    parts = [[it.strip() for it in part.split("&") if it.strip() != "t"] for part in label.split("|")]
    found = {frozenset((int(it.lstrip("!")), it[0] != "!") for it in part) for part in parts if "f" not in part}
    found = {it for it in found if not any((number, not sign) in it for number, sign in it)}
    return [it for it in found if not any(other < it for other in found)]


class Automaton:
    def __init__(self, text):
        head, body = text.split("--BODY--")
        self.states, self.start, self.sets = (int(re.search(rf"{it}: (\d+)", head)[1]) for it in ("States", "Start", "Acceptance"))
        self.names = re.findall(r'"([^"]*)"', re.search(r"AP: .*", head)[0])
        self.edges, sets_of = [[] for _ in range(self.states)], lambda text: set(map(int, (text or "").split()))
        for number, on_state, label, target, on_edge in (it.groups() for it in LINE.finditer(body)):
            if number:
                state, shared = int(number), sets_of(on_state)
            else:
                self.edges[state] += [(it, int(target), shared | sets_of(on_edge)) for it in cubes(label)]

    def counts(self):
        return self.states, sum(map(len, self.edges)), self.sets

    def steps(self, word, back):
        """The places that are reached, as pairs of a state and a position, with the steps from each."""
        found, left = {}, [(self.start, 0)]
        while left:
            state, at = place = left.pop()
            if place not in found:
                behind = at + 1 if at + 1 < len(word) else back
                fits = ((target, marks) for cube, target, marks in self.edges[state] if all((self.names[it] in word[at]) == sign for it, sign in cube))
                found[place] = [((target, behind), marks) for target, marks in fits]
                left += [it for it, _ in found[place]]
        return found

    def accepts(self, stem, cycle):
        """Whether steps within one strongly connected part have all sets."""
        found = self.steps(stem + cycle, len(stem))
        part, seen = parts(found), {}
        for place, steps in found.items():
            for behind, marks in steps:
                if part[place] == part[behind]:
                    seen.setdefault(part[place], set()).update(marks)
        return any(len(it) == self.sets for it in seen.values())


def parts(graph):
    """The strongly connected part of each place, by two walks."""
    order, seen, back, part = [], set(), {it: [] for it in graph}, {}
    for first in graph:
        left = [(first, False)]
        while left:
            place, is_left = left.pop()
            if is_left:
                order.append(place)
            elif place not in seen:
                seen.add(place)
                left += [(place, True)] + [(it, False) for it, _ in graph[place]]
    for place, steps in graph.items():
        for behind, _ in steps:
            back[behind].append(place)
    for first in reversed(order):
        left = [first]
        while left:
            place = left.pop()
            if place not in part:
                part[place] = first
                left += back[place]
    return part


def words(names):
    letters = [frozenset(it) for count in range(len(names) + 1) for it in combinations(names, count)]
    return [(list(stem), list(cycle)) for a in range(STEM + 1) for b in range(1, CYCLE + 1) for stem in product(letters, repeat=a) for cycle in product(letters, repeat=b)]


def fault(given, text):
    """What is wrong with the text that was printed for an automaton, if anything is."""
    a, b = Automaton(given), Automaton(text)
    if a.names != b.names or any(y > x for x, y in zip(a.counts(), b.counts())):
        return f"{b.names}, {b.counts()} of {a.names}, {a.counts()}"
    return next((f"{it}" for it in words(a.names) if a.accepts(*it) != b.accepts(*it)), None)


def claim_fault(given, claim, text):
    """What is wrong with the claim that was printed for an automaton, if anything is. The text is that of the claim's automaton."""
    a, b = Automaton(given), Automaton(text)
    labels = len(re.findall(r"(?m)^\w+:$", claim))
    if not set(b.names) <= set(a.names) or labels > a.states * (a.sets + 1):
        return f"claim: {b.names}, {labels} labels of {a.names}, {a.counts()}"
    return next((f"claim: {it}" for it in words(a.names) if a.accepts(*it) != b.accepts(*it)), None)


def run(program, *options, given):
    """What a program prints, and what was wrong with its run, if anything was."""
    ran = subprocess.run([program, *options], input=given, capture_output=True, text=True, timeout=SECONDS, check=False)
    return ran.stdout, None if (ran.returncode, ran.stderr) == (0, "") else f"{program}: status {ran.returncode}, {ran.stderr}"


def judged(place_of, given):
    """What is wrong with what ltlreduce prints for an automaton, without -c and with it, if anything is."""
    text, wrong = run(place_of("ltlreduce"), given=given)
    if wrong or fault(given, text):
        return wrong or fault(given, text)
    claim, wrong = run(place_of("ltlreduce"), "-c", given=given)
    if wrong:
        return wrong
    read, wrong = run(place_of("ltlclaim"), given=claim)
    return wrong or claim_fault(given, claim, read)


def main(options):
    folder = options[1] if options[:1] == ["-p"] else None

    def place_of(name):
        return os.path.join(folder, name) if folder else TOP / f"crates/{name}/out/{name}"

    count = int(options[-1]) if options and options[-1].isdigit() else COUNT
    random_of, failed = random.Random(SEED), 0
    for number in range(count):
        wrong = judged(place_of, made(random_of))
        if wrong:
            failed += 1
            print(f"automaton {number} of seed {SEED}: {wrong}")
    print(f"{count - failed} passed, {failed} failed")
    return failed != 0


if __name__ == "__main__":
    sys.exit(main(sys.argv[1:]))
