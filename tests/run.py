#!/usr/bin/env python3
"""Runs the built programs on the runs in tests/*.json, and compares every byte of the output, the message and the status.

Usage: tests/run.py [-p FOLDER] [NAME..]; the programs are those of the folder, or those that the gate built. A NAME is that of a file (ltl2ba), or a part
of the `about` of runs; without one, all run. The last line is 'N passed, M failed'.

A run is an object. It has an `about`, `args` (the words after the program's name), `stdin`, `files` (name to text; null is a folder, which can be opened
but not read), and `stdout`, `stderr` and `status`, which are the wanted results. If more than one output is right, `stdout_begins` is its wanted beginning.
If a run is to be `checked`, the automaton that ltl2ba prints in it is given to ltlcheck: every word has to satisfy the run's formula. The automaton of the
negated formula, printed with the same words, has to violate it, unless the formula is `valid` (`checked` is then that word, and else `models`). If ltlcheck
prints a word, it is given to ltleval: the formula of the run has to fail on it, and each formula of `word_keeps` has to hold. The lines below the first one
of ltlcompare have to be those that it asks for, and each word is given to ltleval: the one formula has to hold on it, and the other one to fail. With
`output` or `message` the program writes its output, or its message, to that file, as /dev/full, which takes no byte; "closed" is a stream that isn't open. A
text is a list of strings; of pairs [string, how often]; of objects {"each": string, "from": n, "to": m}, which are the string for each of these numbers, put
in place of # in it; and of {"chain": n}, which is n states of an automaton, each with one edge to the next, and the last with one to itself."""

import json
import os
import subprocess
import sys
import tempfile

TOP = os.path.dirname(os.path.dirname(os.path.abspath(__file__)))
SECONDS = 60
# The lines below the first one of ltlcompare.
LABELS = {"equivalent": [], "first implies second": ["second only"], "second implies first": ["first only"], "incomparable": ["first only", "second only"]}


def part(form):
    if isinstance(form, str):
        return form.encode()
    if isinstance(form, list):
        return form[0].encode() * form[1]
    if "each" in form:
        return "".join(form["each"].replace("#", str(k)) for k in range(form["from"], form["to"] + 1)).encode()
    last = form["chain"] - 1
    return b"".join(b"State: %d\n[t] %d\n" % (k, min(k + 1, last)) for k in range(last + 1))


def text(form):
    return b"".join(map(part, form))


def word(form):
    return form if isinstance(form, str) else text(form).decode()


class Stream:
    """The place where the program writes its output or its message: a pipe to this script, a file, or nothing if the stream is closed."""

    def __init__(self, number, place):
        self.number, self.place, self.file = number, place, None

    def handle(self):
        if self.place is None:
            return subprocess.PIPE
        self.file = open(os.devnull if self.place == "closed" else self.place, "wb")
        return self.file

    def prepare(self):
        if self.place == "closed":
            os.close(self.number)

    def close(self):
        if self.file:
            self.file.close()


def differences(run, program):
    with tempfile.TemporaryDirectory() as folder:
        for name, form in run.get("files", {}).items():
            if form is None:
                os.mkdir(f"{folder}/{name}")
            else:
                with open(f"{folder}/{name}", "wb") as it:
                    it.write(text(form))
        words = [program, *(word(it) for it in run["args"])]
        streams = Stream(1, run.get("output")), Stream(2, run.get("message"))
        how = {"stdout": streams[0].handle(), "stderr": streams[1].handle(), "cwd": folder, "timeout": SECONDS}
        if any(it.place == "closed" for it in streams):
            how["preexec_fn"] = lambda: [it.prepare() for it in streams]
        try:
            ran = subprocess.run(words, input=text(run.get("stdin", [])), **how)
        except subprocess.TimeoutExpired:
            return [f"had not ended after {SECONDS} seconds"]
        except FileNotFoundError:
            return ["is not built"]
        finally:
            for it in streams:
                it.close()
    wrote, told = ran.stdout or b"", ran.stderr or b""
    found = []
    if ran.returncode != run["status"]:
        found.append(f"status {ran.returncode}, and not {run['status']}")
    if told != text(run["stderr"]):
        found.append(f"message {told[:200]}, and not {text(run['stderr'])[:200]}")
    if "stdout_begins" in run:
        if not wrote.startswith(text(run["stdout_begins"])):
            found.append(f"output {wrote[:200]}, which does not begin with {text(run['stdout_begins'])}")
    elif wrote != text(run["stdout"]):
        found.append(f"output {wrote[:400]}, and not {text(run['stdout'])[:400]}")
    if wrote.startswith(b"violated\n"):
        found += misjudged(run, wrote.decode().split("\n")[1], program)
    lines = wrote.decode(errors="replace").split("\n")
    if lines[0] in LABELS and lines[-1] == "":
        found += mistold(run, lines[0], lines[1:-1], program)
    if "checked" in run:
        found += unkept(run, wrote, program)
    return found


def beside(program, tool):
    """The path of another program, in the same place."""
    own = os.path.basename(program)
    return os.path.join(os.path.dirname(program).replace(f"{own}/out", f"{tool}/out"), tool)


def mistold(run, relation, lines, program):
    """Whether there is a line for each direction that fails, and its word tells the formulas apart."""
    labels = [it.partition(": ")[0] for it in lines]
    if labels != LABELS[relation]:
        yield f"lines {labels} below {relation}"
    formulas = {"first only": formula_of(run, "-f", "-F"), "second only": formula_of(run, "-g", "-G")}
    for label, lasso in zip(labels, (it.partition(": ")[2] for it in lines)):
        for other, formula in formulas.items():
            told, wanted = output_of([beside(program, "ltleval"), "-f", formula, "-w", lasso]), b"true\n" if label == other else b"false\n"
            if told != wanted:
                yield f"word {lasso} of {label}: {formula[:200]} is {told}, and not {wanted}"


def formula_of(run, option, file_option):
    """The formula behind an option, or in its file."""
    words = [word(it) for it in run["args"]]
    for it, value in zip(words, [*words[1:], ""]):
        if it == option:
            return value
        if it == file_option:
            return text(run.get("files", {}).get(value, run.get("stdin", []))).decode()
        if it.startswith(option):
            return it[2:].removeprefix("=")
    return ""


def output_of(words, given=b""):
    return subprocess.run(words, input=given, stdout=subprocess.PIPE, stderr=subprocess.STDOUT, timeout=SECONDS).stdout


def unkept(run, automaton, program):
    """Whether the automaton has a word that violates its formula, or whether that of the negated formula has none."""
    place = run["args"].index("-f") + 1
    formula = word(run["args"][place])
    negated = output_of([program, *map(word, run["args"][:place]), f"!({formula})"])
    for text_of, wanted in [(automaton, b"contained\n"), (negated, b"contained\n" if run["checked"] == "valid" else b"violated\n")]:
        verdict = output_of([beside(program, "ltlcheck"), "-f", formula], text_of)
        if not verdict.startswith(wanted):
            yield f"the check is {verdict[:200]}, and not {wanted}"
        elif verdict.startswith(b"violated\n"):
            yield from misjudged(run, verdict.decode().split("\n")[1], program)


def misjudged(run, lasso, program):
    """The formulas that should hold on the word and don't, or should fail on it and don't."""
    evaluator = beside(program, "ltleval")
    formula = word(run["args"][run["args"].index("-f") + 1])
    for asked, wanted in [(formula, b"false\n"), *((it, b"true\n") for it in run.get("word_keeps", []))]:
        told = output_of([evaluator, "-f", asked, "-w", lasso])
        if told != wanted:
            yield f"word {lasso}: {asked} is {told}, and not {wanted}"


def main(words):
    if words[:1] in (["-h"], ["--help"]):
        print(__doc__)
        return 0
    folder = None
    if words[:1] == ["-p"]:
        folder, words = os.path.abspath(words[1]), words[2:]
    passed = failed = 0
    for file in sorted(os.listdir(f"{TOP}/tests")):
        tool, kind = os.path.splitext(file)
        if kind != ".json":
            continue
        program = f"{folder}/{tool}" if folder else f"{TOP}/crates/{tool}/out/{tool}"
        with open(f"{TOP}/tests/{file}", encoding="utf-8") as it:
            runs = json.load(it)
        for run in runs:
            if words and tool not in words and not any(it in run["about"] for it in words):
                continue
            found = differences(run, program)
            passed, failed = passed + (not found), failed + bool(found)
            for it in found:
                print(f"{tool}, {run['about']}: {' '.join(map(word, run['args']))[:200]}: {it}")
    print(f"{passed} passed, {failed} failed")
    return 1 if failed or not passed else 0


if __name__ == "__main__":
    sys.exit(main(sys.argv[1:]))
