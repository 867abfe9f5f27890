"""What `tools/edits --gate` does. It tries each wrong body of docs/edits that says so in its line `# tried: in each run of the gate`, and fails if one of them
isn't refused. Then it tries those whose last refusal isn't noted, or whose note no longer holds, for at most ten minutes.

A check that runs then is given five minutes more. Nothing is noted, so that the gate leaves the tree as it is. The edits of a crate come together into one
check of the functions that they change, and of what these call, from nothing: over the libraries that `rt ci` keeps on this machine, which it gives to a
copy of the sources within seconds. Each check has one processor. The crates come in an order that begins elsewhere for each commit, so that what is left
untried by one commit's gate comes first in another's. An edit that isn't refused among others is tried alone; the gate fails if all is proved with
it. Edits that change no body need a proof of their crate, and are left to `tools/edits`. WITHOUT_EDITS=1 leaves all of this out, and says so."""

import os
import shutil
import signal
import subprocess
import sys
import tempfile
import time
from concurrent.futures import ThreadPoolExecutor
from pathlib import Path

sys.dont_write_bytecode = True
from edit_checks import asked_for, evidence, texts_of, together
from edit_files import TOP, change_of, crates_below, edits_of, functions_of, is_tried_in_each_run, lines_of_crates

# Seconds in which checks of what is due begin; those that a running check has then; those of a check of what each run tries; and those in which `rt ci` gives
# what it keeps.
BEGIN, MORE, LONG, KEPT = 600, 300, 3600, 600
REFUSED, PROVED, UNTRIED = "refused", "NOT REFUSED: all is proved with it", "not tried"


def said_by(words, folder, seconds):
    """What a command says, and its status, which is None if it was stopped after so many seconds."""
    how = {"stdin": subprocess.DEVNULL, "stdout": subprocess.PIPE, "stderr": subprocess.STDOUT, "text": True, "errors": "replace"}
    with subprocess.Popen(words, cwd=folder, start_new_session=True, **how) as ran:
        try:
            return ran.communicate(timeout=max(1, seconds))[0], ran.returncode
        except subprocess.TimeoutExpired:
            os.killpg(ran.pid, signal.SIGKILL)
            return ran.communicate()[0], None


def put_sources(crate, folder):
    """A copy of a crate's code, definitions and proofs."""
    shutil.copytree(TOP / "crates" / crate, folder, ignore=shutil.ignore_patterns("out", "must-fail"))


def libraries(room, crates):
    """Has `rt ci` put into a room what it keeps of these libraries. Returns whether it did."""
    (room / "crates").mkdir()
    shutil.copy(TOP / "HANDLES", room)
    lines = lines_of_crates()
    (room / "crates.txt").write_text("".join(f"{it}: {' '.join(lines[it][1])}\n" for it in crates), encoding="utf-8")
    for crate in crates:
        put_sources(crate, room / "crates" / crate)
    _, status = said_by(["rt", "ci"], room, KEPT)
    return status == 0


class Base:
    """The kit, and the room with the libraries."""

    def __init__(self, room):
        self.room, self.lines, self.below = room, lines_of_crates(), crates_below()
        self.kit = Path(subprocess.run(["rt", "doc"], stdout=subprocess.PIPE, text=True, check=True).stdout.strip()).parent

    def rlib(self, crate):
        return self.room / "crates" / crate / "out/rlib" / f"{crate}.rlib"

    def check(self, crate):
        """The words of a check of a crate over the libraries."""
        kinds, direct = self.lines[crate]
        words = [self.kit / "bin/rattle", "check", "--crate-name", crate, "src/lib.rt"]
        for name in ("std", *(it for it in direct if it not in self.lines)):
            words += ["--extern", f"{name}={self.kit}/rlibs/{name}.rlib"]
        words += ["-L", f"dependency={self.kit}/rlibs"]
        for name in (it for it in direct if it in self.lines):
            words += ["--extern", f"{name}={self.rlib(name)}"]
        for name in self.below[crate]:
            words += ["-L", f"dependency={self.rlib(name).parent}"]
        words += ["--antt-project", f"{self.kit}/rattle/logic/antt-project.json", "--logic-built", f"{self.kit}/logic_built"]
        return [*words, "--jobs", "1", "--links", f"{crate}=", *(["--crate-type", "staticlib"] if "staticlib" in kinds else [])]


class Trial:
    """The edits of a crate that come into one check."""

    def __init__(self, crate, changes, texts, functions):
        self.crate, self.changes, self.texts, self.functions = crate, changes, texts, functions

    def checked(self, base, until):
        """What a check of the crate with these edits says of each: refused, with the line that says so, or else what is known."""
        with tempfile.TemporaryDirectory(prefix="edits-") as room:
            folder = Path(room) / self.crate
            put_sources(self.crate, folder)
            for name, text in self.texts.items():
                (folder / name).write_text(text, encoding="utf-8")
            said, status = said_by([*base.check(self.crate), *asked_for(self.changes)], folder, until - time.monotonic())
        lines = said.splitlines()
        found = {it.name: evidence(lines, it, self.functions) if status is not None else None for it in self.changes}
        other = PROVED if status == 0 else UNTRIED
        return {name: (REFUSED if line else other, line or (lines or [""])[-1]) for name, line in found.items()}


def trials_of(crate, names):
    """The checks that the edits of a crate make. An edit that changes no body is in none."""
    folder = TOP / "crates" / crate
    functions = functions_of(folder)
    changes, before = [change_of(edits_of(crate)[name], folder, functions) for name in names], texts_of(folder, functions)
    left, found = [it for it in changes if it.functions], []
    while left:
        chosen, texts, left = together(left, before)
        if not chosen:
            break
        found.append(Trial(crate, chosen, texts, functions))
    return found


def turned(crates):
    """The crates, from another one on for each commit."""
    commit = subprocess.run(["git", "rev-parse", "HEAD"], cwd=TOP, stdout=subprocess.PIPE, stderr=subprocess.DEVNULL, text=True, check=False).stdout.strip()
    at = int(commit[:8] or "0", 16) % max(1, len(crates))
    return crates[at:] + crates[:at]


def tried(base, trial, begin, until):
    """What is known of each edit of a trial, some of them tried alone. Nothing begins after the first of these times."""
    if time.monotonic() > begin:
        return {it.name: (UNTRIED, "") for it in trial.changes}
    found = trial.checked(base, until)
    before = texts_of(TOP / "crates" / trial.crate, trial.functions)
    for it in trial.changes:
        if found[it.name][0] == UNTRIED and len(trial.changes) > 1 and time.monotonic() < begin:
            alone, texts, _ = together([it], before)
            found |= Trial(trial.crate, alone, texts, trial.functions).checked(base, until)
    return found


def verdicts(base, names, begin, more):
    """Tries these edits, and tells what is known of each. Checks begin for so many seconds, and the last of them have some more."""
    begin, found, of = time.monotonic() + begin, {}, {crate: trials_of(crate, names[crate]) for crate in turned(sorted(names))}
    trials = [it for crate in of for it in of[crate]]
    with ThreadPoolExecutor(len(os.sched_getaffinity(0))) as pool:
        for trial, told in zip(trials, pool.map(lambda it: tried(base, it, begin, begin + more), trials)):
            for name, (verdict, line) in told.items():
                found[trial.crate, name] = verdict
                print(f"{trial.crate}/{name}: {verdict}: {line[:140]}\n" if line else "", end="", flush=True)
    return found


def by_crate(places):
    """The names of these edits, by crate."""
    found = {}
    for crate, name in sorted(places):
        found.setdefault(crate, []).append(name)
    return found


def main(due):
    """Tries what each run tries, and those of the due edits that `rt ci` doesn't try. The last line is 'N passed, M failed'."""
    edits = {(crate, name): it for crate in crates_below() for name, it in edits_of(crate).items()}
    each_run = {place for place, it in edits.items() if is_tried_in_each_run(it)}
    due = {place for place in due if edits[place].parent.name != "must-fail"} - each_run
    counts = f"{len(each_run)} wrong bodies that each run tries, and {len(due)} that are due"
    if os.environ.get("WITHOUT_EDITS") == "1" or not each_run | due:
        print(f"skipped: {counts}, as WITHOUT_EDITS=1 asks" if each_run | due else "no wrong body is due")
        print("0 passed, 0 failed")
        return 0
    with tempfile.TemporaryDirectory(prefix="edits-") as folder:
        base = Base(Path(folder))
        below = [it for it in base.lines if any(it in base.below[crate] for crate, _ in each_run | due)]
        if not libraries(base.room, below):
            print(f"{'' if each_run else 'skipped: '}{counts}, aren't tried, since `rt ci` keeps no libraries of this tree here")
            print(f"0 passed, {len(each_run)} failed")
            return 1 if each_run else 0
        must, may = verdicts(base, by_crate(each_run), LONG, LONG), verdicts(base, by_crate(due), BEGIN, MORE)
    missed = [it for it in each_run if must.get(it) != REFUSED]
    refused, proved = (sum(it == verdict for it in may.values()) for verdict in (REFUSED, PROVED))
    for crate, name in sorted(missed):
        print(f"{crate}/{name}: each run has to see it refused, and this one doesn't")
    print(f"{len(due) - refused - proved} wrong bodies that are due are left untried; tools/edits tries them, and notes what is refused")
    print(f"{len(each_run) - len(missed) + refused} passed, {len(missed) + proved} failed")
    return 1 if missed or proved else 0
