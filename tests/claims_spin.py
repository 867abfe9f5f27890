#!/usr/bin/env python3
"""Tests what ltlclaim reads in never claims against Spin: random claims, claims of ltl2ba, and claims of `spin -f`.

A claim matches a word, by Spin, if `pan -a -DNOREDUCE` finds an error for a model that steps through the word, a step a letter. The model is compiled once for
a claim; the word is put into its initial values when it runs. The automaton that ltlclaim prints for the claim has to accept exactly the words that match:

- random claims of the form that ltlclaim reads;
- claims that ltl2ba prints for random formulas, for which ltleval has to say the same;
- claims that `spin -f` prints for random formulas. For these pan isn't run: ltlcheck has to say that the automaton is contained in the formula, and ltleval has
  to say `true` on exactly those words that the automaton accepts.

Each claim gets 20 words over p and q. Whether an automaton accepts a word is decided here.

Usage: tests/claims_spin.py [-p FOLDER] [-s SEED] [CLAIMS FORMULAS]; the programs are those of the folder, or those that the gate built. So many random claims
are tried, and so many formulas for `spin -f`, and half as many for ltl2ba (30 and 40, if not given). The same seed draws the same. Without spin or a C compiler
nothing is tested, and a line that begins with 'skipped: ' says so. The last line is 'N passed, M failed', where each pair of claim and word, and each answer of
ltlcheck, is one."""

import argparse
import itertools
import os
import random
import re
import shutil
import subprocess
import sys
import tempfile
from concurrent.futures import ThreadPoolExecutor
from pathlib import Path

TOP = Path(__file__).resolve().parent.parent
COMPILER = os.environ.get("CC", "cc")
WORDS, SECONDS = 20, 600
# `spin -f` takes minutes for some formulas. Those that take so many seconds are drawn anew.
SECONDS_OF_SPIN = 10
# A letter is a digit with a bit for each of the propositions p and q.
PARTS = ["".join(it) for size in range(3) for it in itertools.product("0123", repeat=size)]
ALL_WORDS = [(stem, cycle) for stem in PARTS for cycle in PARTS if cycle]
MODEL = """bool p, q;
byte at, last, back;
byte letters[4];
active proctype word() {
    do
    :: d_step { at = (at == last -> back : at + 1); p = letters[at] & 1; q = letters[at] >> 1 }
    od
}
"""
# The initial values of these variables, as pan reads them from the environment.
FROM_WORD = {
    "p": 'getenv("WORD")[0] & 1',
    "q": 'getenv("WORD")[0] >> 1 & 1',
    "last": 'strlen(getenv("WORD")) - 1',
    "back": 'strlen(getenv("STEM"))',
    "letters[l_in]": 'l_in < strlen(getenv("WORD")) ? getenv("WORD")[l_in] - 48 : 0',
}
# What stands in a label, as Python has it.
SIGNS = {"t": "1", "f": "0", "!": " not ", "&": " and ", "|": " or "}
ERRORS = "acceptance cycle", "end state in claim reached", "assertion violated"


class Failed(Exception):
    """A program gave no answer that counts."""


class Draw:
    """Draws claims, formulas and words."""

    def __init__(self, seed):
        self.dice = random.Random(seed)

    def often(self, percent):
        return self.dice.random() * 100 < percent

    def blank(self):
        return self.dice.choice([" ", " ", "\n", "\t", " /* :: fi */ "])

    def guard(self, depth):
        kind = self.dice.choice(["name", "name", "name", "constant", "not", "both", "either", "brackets"]) if depth else "name"
        if kind == "name":
            return self.dice.choice("pq")
        if kind == "constant":
            return self.dice.choice(["true", "false", "skip", "1", "0", "1"])
        if kind == "brackets":
            return f"({self.guard(depth - 1)})"
        if kind == "not":
            inner = self.guard(depth - 1)
            return f"!{inner}" if re.fullmatch(r"\w+|\(.*\)", inner) and self.often(70) else f"!({inner})"
        return self.guard(depth - 1) + f" {'&&' if kind == 'both' else '||'} " + self.guard(depth - 1)

    def head(self):
        kind = self.dice.choices(["guard", "assert", "atomic"], [70, 12, 18])[0]
        if kind == "guard":
            return self.guard(3)
        if kind == "assert":
            return f"assert({self.guard(2)})"
        return f"atomic {{ {self.guard(2)}{self.separator()}assert({self.guard(2)}) }}"

    def separator(self):
        return self.dice.choice([";", " ->", ";", " ->", ";", ";;", " ->;"]) + self.blank()

    def jump(self, in_loop):
        return "break" if in_loop and self.often(40) else "goto ?"

    def statement(self, depth, in_loop):
        kind = self.dice.choices(["head", "if", "do"], [50, 20, 30])[0] if depth else "head"
        return self.head() if kind == "head" else self.selection(kind, depth - 1, in_loop)

    def selection(self, kind, depth, in_loop):
        options, in_loop = [], in_loop or kind == "do"
        for _ in range(self.dice.randint(1, 3)):
            is_last = self.often(75)
            first = self.dice.choices(["head", "else", "jump"], [75, 12, 13])[0]
            if first == "else" and any(it.startswith("else") for it in options):
                first = "head"
            first = {"head": self.head, "else": lambda: "else", "jump": lambda: self.jump(in_loop)}[first]()
            rest = "" if is_last and self.often(30) else self.separator() + self.items(depth, in_loop, 1 if is_last else 2)
            options.append(first + rest)
        ends = "fi" if kind == "if" else "od"
        return f"{kind}\n" + "".join(f":: {it}\n" for it in options) + ends

    def items(self, depth, in_loop, most):
        """A list of statements and jumps, each @ a place where labels may stand, and each ? the label of a goto."""
        found = []
        for _ in range(self.dice.randint(1, most)):
            found.append(self.jump(in_loop) if self.often(35) else "@" + self.statement(depth, in_loop))
        text = found[0]
        for it in found[1:]:
            text += self.separator() + it
        return text + self.dice.choice(["", "", ";", "; ->"])

    def claim(self):
        text = self.items(3, False, 4)
        if self.often(70):
            text += "; @" + self.selection("do", 2, False)
        if self.often(70):
            text += "; goto ?"
        if "@" not in text:
            text += "; @" + self.head()
        names, placed = ["accept_all", "accept", "accept_S1", "acceptor", "T0_init", "S1", "Accept", "L2"], []
        self.dice.shuffle(names)
        first, *rest = text.split("@")
        sure = self.dice.randrange(len(rest))
        for k, it in enumerate(rest):
            count = max(self.dice.choices([0, 1, 2], [45, 40, 15])[0], int(k == sure and not placed))
            taken = [names.pop() for _ in range(min(count, len(names)))]
            placed += taken
            first += "".join(f"{name}:{self.blank()}" for name in taken) + it
        return f"never{self.dice.choice([' ', ' it '])}{{\n" + re.sub(r"\?", lambda _: self.dice.choice(placed), first) + "\n}\n"

    def formula(self, size, with_next):
        if size == 0:
            return self.dice.choice(["p", "q", "p", "q", "p", "q", "true", "false"])
        if self.often(45):
            return f"{self.dice.choice(['!', '[]', '<>'] + ['X'] * with_next)} ({self.formula(size - 1, with_next)})"
        left = self.dice.randrange(size)
        operator = self.dice.choice(["&&", "||", "->", "<->", "U", "V", "U", "V"])
        return f"({self.formula(left, with_next)}) {operator} ({self.formula(size - 1 - left, with_next)})"

    def words(self):
        return self.dice.sample(ALL_WORDS, WORDS)


def ran(words, given=None, folder=None, seconds=SECONDS, **around):
    how = {"capture_output": True, "text": True, "timeout": seconds, "check": False, "cwd": folder, "env": {**os.environ, **around}}
    stdin = {"input": given} if given is not None else {"stdin": subprocess.DEVNULL}
    return subprocess.run([str(it) for it in words], **stdin, **how)


def answer(words, given=None, statuses=(0,)):
    it = ran(words, given)
    if it.returncode not in statuses or it.stderr:
        raise Failed(f"{Path(words[0]).name} ends with status {it.returncode}: {it.stderr}")
    return it.stdout


class Automaton:
    """An automaton that ltlclaim prints."""

    def __init__(self, text):
        head, body = text.split("--BODY--\n")
        self.start, self.accepting, self.edges = int(re.search(r"^Start: (\d+)$", head, re.M)[1]), set(), {}
        names = re.findall(r'"(\w+)"', head)
        for line in body.removesuffix("--END--\n").splitlines():
            if state := re.fullmatch(r"State: (\d+)( \{0\})?", line):
                edges = self.edges[int(state[1])] = []
                if state[2]:
                    self.accepting.add(int(state[1]))
            else:
                label, target = re.fullmatch(r"\[([0-9tf!&|()]+)\] (\d+)", line).groups()
                edges.append((self.truths(label, names), int(target)))

    @staticmethod
    def truths(label, names):
        """The letters under which a label holds."""
        found = set()
        for letter in "0123":
            holds = {str(k): str(int(letter) >> "pq".index(it) & 1) for k, it in enumerate(names)} | SIGNS
            if eval(re.sub(r"\d+|[tf!&|]", lambda it: holds[it[0]], label)):
                found.add(letter)
        return found

    def accepts(self, stem, cycle):
        letters = stem + cycle

        def after(place):
            state, at = place
            return [(target, at + 1 if at + 1 < len(letters) else len(stem)) for truths, target in self.edges[state] if letters[at] in truths]

        def reached(places):
            seen, left = set(places), list(places)
            while left:
                new = [it for it in after(left.pop()) if it not in seen]
                seen.update(new)
                left += new
            return seen

        return any(it[0] in self.accepting and it in reached(after(it)) for it in reached([(self.start, 0)]))


class Checker:
    """What Spin makes of a claim, in a folder: a program that says whether the claim matches a word."""

    def __init__(self, folder, claim):
        self.folder = Path(folder)
        (self.folder / "claim").write_text(claim, encoding="ascii")
        (self.folder / "word.pml").write_text(MODEL, encoding="ascii")
        self.make("spin", "-a", "-N", "claim", "word.pml")
        source = (self.folder / "pan.c").read_text(encoding="utf-8")
        begin = source.index("\niniglobals(int calling_pid)")
        end = source.index("#ifdef VAR_RANGES", begin)
        values = source[begin:end]
        for name, value in FROM_WORD.items():
            values, count = re.subn(rf"((?:now\.|\t){re.escape(name)}) = 0;", lambda it, value=value: f"{it[1]} = {value};", values)
            if count != 1:
                raise Failed(f"pan.c doesn't set {name} once")
        (self.folder / "pan.c").write_text(source[:begin] + values + source[end:], encoding="utf-8")
        self.make(COMPILER, "-w", "-O0", "-DNOREDUCE", "-o", "pan", "pan.c")

    def make(self, *words):
        made = ran(words, folder=self.folder)
        if made.returncode or "syntax error" in made.stdout:
            raise Failed(f"{words[0]} refuses: {made.stdout}{made.stderr}")

    def matches(self, stem, cycle):
        said = ran(["./pan", "-a", "-w10"], folder=self.folder, WORD=stem + cycle, STEM=stem).stdout
        errors = re.search(r"errors: (\d)", said)
        found = any(it in said for it in ERRORS)
        if not errors or (errors[1] != "0") != found or not found and "Search not completed" in said:
            raise Failed(f"pan gives no answer: {said}")
        return found


def word_text(stem, cycle):
    letters = ["{" + ",".join(name for bit, name in enumerate("pq") if int(it) >> bit & 1) + "}" for it in stem + cycle]
    letters[len(stem)] = "cycle " + letters[len(stem)]
    return "; ".join(letters)


class Programs:
    def __init__(self, folder):
        for name in "ltl2ba", "ltlcheck", "ltlclaim", "ltleval":
            setattr(self, name, folder / name if folder else TOP / f"crates/{name}/out/{name}")

    def automaton(self, claim):
        return answer([self.ltlclaim], claim)

    def holds(self, formula, word):
        return answer([self.ltleval, "-f", formula, "-w", word_text(*word)], statuses=(0, 1)) == "true\n"


def by_pan(programs, claim, words, formula=None):
    """For each word whether the claim matches, and what has to be the same."""
    automaton = Automaton(programs.automaton(claim))
    with tempfile.TemporaryDirectory() as folder:
        checker = Checker(folder, claim)
        for it in words:
            found = {"pan": checker.matches(*it), "ltlclaim": automaton.accepts(*it)}
            if formula:
                found["ltleval"] = programs.holds(formula, it)
            yield word_text(*it), found


def by_formula(programs, claim, words, formula):
    """Whether ltlcheck finds the claim contained, and for each word what has to be the same."""
    text = programs.automaton(claim)
    yield "contained", {"ltlcheck": answer([programs.ltlcheck, "-f", formula], text, (0, 1)) == "contained\n", "": True}
    automaton = Automaton(text)
    for it in words:
        yield word_text(*it), {"ltleval": programs.holds(formula, it), "ltlclaim": automaton.accepts(*it)}


def claim_of_spin(draw):
    """A formula, and what `spin -f` prints for it."""
    while True:
        formula = draw.formula(draw.dice.randint(1, 6), False)
        try:
            it = ran(["spin", "-f", formula], seconds=SECONDS_OF_SPIN)
        except subprocess.TimeoutExpired:
            continue
        if it.returncode == 0 and it.stdout.startswith("never") and not it.stderr:
            return formula, it.stdout


def tests(draw, programs, claims, formulas):
    """What is to be tried: a title, a claim with its formula, and a function that gives the answers."""
    for _ in range(claims):
        claim, words = draw.claim(), draw.words()
        yield "random claims", claim, lambda c=claim, w=words: by_pan(programs, c, w)
    for _ in range(formulas // 2):
        formula, words = draw.formula(draw.dice.randint(1, 6), True), draw.words()
        claim = answer([programs.ltl2ba, "-f", formula])
        yield "claims of ltl2ba", claim, lambda c=claim, w=words, f=formula: by_pan(programs, c, w, f)
    for _ in range(formulas):
        formula, claim = claim_of_spin(draw)
        words = draw.words()
        yield "claims of spin -f", claim, lambda c=claim, w=words, f=formula: by_formula(programs, c, w, f)


def tried(test):
    title, claim, answers = test
    try:
        return title, claim, list(answers()), None
    except (Failed, subprocess.TimeoutExpired) as why:
        return title, claim, [], why


def main():
    asked = argparse.ArgumentParser(add_help=False)
    asked.add_argument("-h", "--help", action="store_true")
    asked.add_argument("-p", type=lambda it: Path(it).resolve())
    asked.add_argument("-s", type=int, default=1)
    asked.add_argument("claims", type=int, nargs="?", default=30)
    asked.add_argument("formulas", type=int, nargs="?", default=40)
    asked = asked.parse_args()
    if asked.help:
        print(__doc__)
        return 0
    for program, name in ("spin", "spin"), (COMPILER, "a C compiler"):
        if not shutil.which(program):
            print(f"skipped: tests/claims_spin.py, for want of {name}\n0 passed, 0 failed")
            return 0
    passed = failed = 0
    counts = {}
    with ThreadPoolExecutor(4) as pool:
        for title, claim, answers, why in pool.map(tried, tests(Draw(asked.s), Programs(asked.p), asked.claims, asked.formulas)):
            if why:
                failed += 1
                print(f"{title}: {why}\n{claim}")
            of_title = counts.setdefault(title, [0, 0, 0])
            of_title[0] += 1
            for about, found in answers:
                is_same = len(set(found.values())) == 1
                passed, failed = passed + is_same, failed + (not is_same)
                if about != "contained":
                    of_title[1], of_title[2] = of_title[1] + 1, of_title[2] + found["ltlclaim"]
                if not is_same:
                    print(f"{title}: {about}: {found}\n{claim}")
    for title, (claims, pairs, accepted) in counts.items():
        print(f"{title}: {claims}, with {pairs} pairs of claim and word, {accepted} of them accepted")
    print(f"{passed} passed, {failed} failed")
    return 1 if failed or not passed else 0


if __name__ == "__main__":
    sys.exit(main())
