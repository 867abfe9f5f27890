"""The run that a trail of Spin tells: its steps, and the values of the propositions in the states between them.

Spin replays the trail with an observer in place of the claim. Where the claim took a step, it printed nothing; the observer prints the values that the claim
saw. The steps of the model are the same, since Spin numbers them before those of a claim."""

import re

from promela.models import refuse_by
from promela.rooms import Refused

STEP = re.compile(r"proc\s+(\d+) \(([^:()]*):\d+\) (.*?):(\d+) \(state \d+\)\s+\[(.*)\]$")
# An assertion of the model, as it is searched and replayed.
ASSERTION = re.compile(r"\(+1\|\|.*")
ENDED = re.compile(r"proc\s+(\d+) terminates$")
# Where the cycle begins: in what a replay tells, and in a trail.
CYCLE, REPEATS = "<<<<<START OF CYCLE>>>>>", "-1:-1:-1"


class Run:
    """States, each with the propositions that are true in it and the steps that lead on from it. The states from `stem` on repeat for ever; without a cycle,
    whatever follows the last state violates the formula."""

    def __init__(self, states, stem):
        self.states, self.stem = states, stem

    def beginning_of(self, count):
        return Run(self.states[:count], None)

    def squeezed(self):
        """The run without states in which the same propositions are true as in the one before, which a formula without X can't tell from it."""
        split = len(self.states) if self.stem is None else self.stem
        parts = [[it for k, it in enumerate(part) if not k or part[k - 1][0] != it[0]] for part in (self.states[:split], self.states[split:])]
        return Run(parts[0] + parts[1], None if self.stem is None else len(parts[0]))

    def word(self):
        """The run as a word. Without a cycle the last letter repeats."""
        letters = [f"{{{','.join(true)}}}" for true, _ in self.states]
        stem = len(letters) - 1 if self.stem is None else self.stem
        return "".join(f"{it}; " for it in letters[:stem]) + "cycle " + "; ".join(letters[stem:])

    def automaton(self, propositions):
        """An automaton, in the Hanoi format, of all words that begin as the run does."""
        names = " ".join(f'"{it}"' for it in propositions)
        head = ["HOA: v1", f"States: {len(self.states) + 1}", "Start: 0", f"AP: {len(propositions)} {names}".strip(), "Acceptance: 1 Inf(0)", "--BODY--"]
        for k, (true, _) in enumerate(self.states):
            label = "&".join(("" if it in true else "!") + str(number) for number, it in enumerate(propositions)) or "t"
            head += [f"State: {k} {{0}}", f"[{label}] {k + 1}"]
        return "\n".join([*head, f"State: {len(self.states)} {{0}}", f"[t] {len(self.states)}", "--END--", ""])


def observer(propositions, mark):
    """A claim that prints the value of each proposition in each state."""
    values = "".join(f", ({it} -> 1 : 0)" for it in propositions)
    return f'never {{\naccept_{mark}:\n\tdo\n\t:: printf("\\n{mark}{" %d" * len(propositions)}\\n"{values})\n\tod\n}}\n'


def with_observer(lines, number, last):
    """The trail with steps of the observer in place of those of the claim, and without what follows the last step."""
    for line in lines:
        place, process, _ = line.split(":")
        if int(place) > last >= 0:
            continue
        yield f"{place}:0:{number}" if int(place) >= 0 and process == "0" else line


def replayed(room, tools, found, base, propositions):
    """The run of a trail. `base` is the model with the meanings of the propositions."""
    mark = f"ltlspin_{room.folder.name.rpartition('-')[2].lower()}"
    part = room.part()
    (part / "model.pml").write_text(base + observer(propositions, mark), encoding="utf-8", errors="surrogateescape")
    ran = room.run("replaying", tools["spin"], "-a", "model.pml", folder=part)
    table = (part / "pan.t").read_text(encoding="utf-8", errors="replace") if (part / "pan.t").exists() else ""
    lines = (found.folder / "model.pml.trail").read_text(encoding="ascii").split()
    claim = next((it.split(":")[1] for it in lines if it.startswith("-2:")), None)
    number = re.search(rf"trans\[{claim}\]\[1\]\s*= settr\((\d+),", table)
    if ran.status or not number:
        refuse_by(ran, "spin", "to print the values of the propositions")
    last = -1 if found.has_cycle else found.depth
    kept = list(with_observer(lines, number[1], last))
    (part / "model.pml.trail").write_text("\n".join([*kept, ""]), encoding="ascii")
    ran = room.run("replaying", tools["spin"], "-T", "-p", "-t", "model.pml", folder=part)
    run = read(ran, mark, propositions)
    seen = [it for it in kept if it.endswith(f":0:{number[1]}") or it == REPEATS]
    stem = seen.index(REPEATS) if REPEATS in seen else None
    if (len(run.states), run.stem) != (len(seen) - (stem is not None), stem) or found.has_cycle != (stem is not None) or stem == len(run.states):
        raise Refused("the trail that Spin wrote can't be replayed")
    return run


def read(ran, mark, propositions):
    """The run that Spin tells in a replay."""
    states, stem = [], None
    for line in ran.lines():
        step, ended = STEP.search(line), ENDED.search(line)
        if line.startswith(mark):
            values = line.split()[1:]
            states.append(([it for it, value in zip(propositions, values) if value == "1"], []))
            if len(values) != len(propositions):
                refuse_by(ran, "spin", "to print the values of the propositions")
        elif line.strip() == CYCLE:
            stem = len(states)
        elif (step or ended) and states:
            statement = "assert .." if step and ASSERTION.fullmatch(step[5]) else step and step[5]
            states[-1][1].append((f"{step[2]}[{step[1]}]", f"{step[3]}:{step[4]}", statement) if step else (f"process {ended[1]}", "", "ends"))
        elif "error:" in line:
            refuse_by(ran, "spin", "to replay the trail")
    return Run(states, stem)
