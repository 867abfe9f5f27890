"""Spin's search for a run of a model that a claim accepts."""

import re

from promela.models import first_lines, refuse_by
from promela.rooms import Refused

# By what the depth of a search is multiplied if it doesn't suffice, and the steps by which a search has to stay below it. One step below the limit the
# checker leaves out what follows the end of a run, and doesn't say so.
FACTOR, MARGIN = 10, 16
# Macros of what Spin writes that tell of a model for which its reductions aren't right.
UNREDUCED = "REM_VARS", "REM_REFS", "HAS_LAST", "HAS_ENABLED", "HAS_PCVALUE", "HAS_BADELSE", "HAS_PRIORITY"
# Sizes of a checker that it may ask for, with the first greater value.
SIZES = {"VECTORSZ": 4096, "NFAIR": 4}
NO_MEMORY = "out of memory", "MEMLIM"
ERROR = re.compile(r"^pan:\d+: (.*) \(at depth (\d+)\)$", re.M)


class Found:
    """An accepted run: the folder with its trail, whether it has a cycle, and the depth at which it was found."""

    def __init__(self, folder, has_cycle, depth):
        self.folder, self.has_cycle, self.depth = folder, has_cycle, depth


class Search:
    """The search of a model for one claim. `is_full` says that no step and no order of steps may be left out."""

    def __init__(self, room, tools, model, claim, is_full, is_fair):
        self.room, self.tools, self.text, self.is_full, self.is_fair = room, tools, model + claim, is_full, is_fair
        # A claim without a label for acceptance accepts nothing, and the checker doesn't look for cycles then.
        cycles = f"+ (fairness {'en' if is_fair else 'dis'}abled)" if re.search(r"^accept", claim, re.M) else "- (not selected)"
        self.kinds = "Full statespace search for:", f"acceptance   cycles \t{cycles}", "never claim         \t+ ("
        self.sizes, self.folder, self.keeps_all = {}, None, False

    def found(self, depth):
        """A run that the claim accepts, or None if a whole search has found none. `depth` is that of the first search."""
        self.prepare()
        self.compile()
        while True:
            ran = self.searched(depth)
            said = ran.text()
            asked = self.larger(said)
            if asked:
                self.sizes.update(asked)
                self.compile()
                continue
            error = ERROR.search(said)
            if error:
                return self.run_of(error)
            if self.is_whole(ran.status, said, depth):
                return None
            if "max search depth too small" in said or self.reached(said) is not None and self.reached(said) + MARGIN > depth:
                depth *= FACTOR
                continue
            if any(it in said for it in NO_MEMORY):
                raise Refused(f"the search to depth {depth:,} needs more memory; --memory gives more")
            raise Refused("\n".join(["the search ended early:", *told(said)]))

    def prepare(self):
        """Has Spin write the checker; it tells whether reductions are right for this model."""
        self.folder = self.room.part()
        (self.folder / "model.pml").write_text(self.text, encoding="utf-8", errors="surrogateescape")
        # Without merging (-o3), each statement is a step of its own. What is never read is no part of a state unless it has to be (-o2).
        options = [it for it, is_given in (("-o3", self.is_full), ("-o2", self.keeps_all)) if is_given]
        ran = self.room.run("spin", self.tools["spin"], "-a", *options, "model.pml", folder=self.folder)
        checker = self.folder / "pan.c"
        if ran.status or not checker.exists():
            refuse_by(ran, "spin", "the model")
        head = (self.folder / "pan.h").read_text(encoding="utf-8", errors="replace")
        if not self.is_full and self.needs_all(head):
            self.is_full = True
            self.prepare()
            return
        self.leave_out_labels(checker)

    def leave_out_labels(self, checker):
        """A cycle counts if the claim accepts it. Labels of the model that begin with `accept` would make the checker report others."""
        table = (self.folder / "pan.t").read_text(encoding="utf-8", errors="replace")
        claim = re.findall(r"^\s*/\* proctype (\d+): never_0 \*/$", table, re.M)
        if len(claim) != 1:
            raise Refused("the checker that Spin wrote has another form than that of Spin 6.5: it doesn't name the claim")
        own = re.compile(rf"^\s*accpstate\[(?!{claim[0]}\])\w+\]\[\d+\] = 1;$", re.M)
        written = checker.read_text(encoding="utf-8", errors="surrogateescape")
        checker.write_text(own.sub("", written), encoding="utf-8", errors="surrogateescape")

    def needs_all(self, head):
        has_meetings = re.search(r"^#define SYNC\s+[1-9]", head, re.M) is not None
        if has_meetings and (self.is_fair or re.search(r"^#define HAS_UNLESS\b", head, re.M)):
            return True
        return any(re.search(rf"^#define {it}\b", head, re.M) for it in UNREDUCED)

    def compile(self):
        flags = [f"-DMEMLIM={self.room.megabytes}", *(["-DNOREDUCE"] if self.is_full else []), *(f"-D{it}={size}" for it, size in self.sizes.items())]
        ran = self.room.run("compiling", self.tools["gcc"], "-O1", "-w", *flags, "-o", "pan", "pan.c", folder=self.folder)
        if ran.status and not self.keeps_all:
            # A variable that is never read becomes one of the checker, and its name, as `done`, may be taken there.
            self.keeps_all = True
            self.prepare()
            self.compile()
        elif ran.status:
            refuse_by(ran, "the C compiler", "the checker that Spin wrote")

    def searched(self, depth):
        words = ["./pan", "-a", "-n", f"-m{depth}", *(["-f"] if self.is_fair else [])]
        return self.room.run(f"searching to depth {depth:,}", *words, folder=self.folder, has_limit=True)

    def larger(self, said):
        """Greater sizes that the checker asks for."""
        needed = {it: re.search(rf"recompile[^\n]*\n?[^\n]*-D{it}=", said) for it in SIZES}
        asked = {it: self.sizes.get(it, SIZES[it] // 2) * 2 for it, is_needed in needed.items() if is_needed}
        return asked if all(size <= 1 << 20 for size in asked.values()) else {}

    def run_of(self, error):
        trail = self.folder / "model.pml.trail"
        if error[1] not in ("acceptance cycle", "end state in claim reached") or not trail.exists():
            raise Refused(f"the search ended at a fault of the model, so nothing is said of the formula: {error[1]}")
        return Found(self.folder, error[1] == "acceptance cycle", int(error[2]))

    def reached(self, said):
        depth = re.search(r"^State-vector \d+ byte, depth reached (\d+), errors: 0$", said, re.M)
        return int(depth[1]) if depth else None

    def is_whole(self, status, said, depth):
        """Whether the checker says that it has searched everything, for what was asked, and found nothing."""
        reached = self.reached(said)
        faults = *NO_MEMORY, "Search not completed", "error:", "too small", "aborting", "stopped"
        return status == 0 and reached is not None and reached + MARGIN <= depth and all(it in said for it in self.kinds) and not any(it in said for it in faults)


def told(said):
    """What a checker says of its end, without its statistics."""
    lines = [it for it in said.splitlines() if it.strip()]
    return [it for it in lines if re.search(r"pan:|error|memory|limit|not completed|bytes", it)][:6] or lines[:6]
