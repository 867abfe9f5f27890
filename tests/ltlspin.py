#!/usr/bin/env python3
"""Tests ./ltlspin with Spin: models with formulas that hold and that don't, what it refuses, limits, signals, and programs that don't tell the truth.

The wanted answers follow from what the models do. For formulas without X, Spin's own claim (spin -f) has to lead to the same answer.

Usage: tests/ltlspin.py [-p FOLDER]; the programs are those of the folder, or those that the gate built. Without spin or a C compiler nothing is tested, and a
line that begins with 'skipped: ' says so. The last line is 'N passed, M failed'."""

import contextlib
import os
import re
import shutil
import signal
import stat
import subprocess
import sys
import tempfile
import time
from concurrent.futures import ThreadPoolExecutor
from pathlib import Path

TOP = Path(__file__).resolve().parent.parent
MODELS = TOP / "tests/models"
TUTORIAL = TOP / "docs/tutorial"
SECONDS = 300

# The model, the options, the formula, and whether it holds.
HOLDS, VIOLATED = 0, 1
ROWS = [
    ("light", "", "[](red -> <>green)", HOLDS),
    ("light", "", "<>[]red", VIOLATED),
    ("light", "", "[](off -> <>red)", HOLDS),
    ("light", "", "[]!off", VIOLATED),
    ("light", "", "[](red -> <>{green == 2})", VIOLATED),
    ("light", "", "[](red -> X {!red && !green})", HOLDS),
    ("light", "", "[](red -> X green)", VIOLATED),
    ("light", "", "true", HOLDS),
    ("light", "", "false", VIOLATED),
    ("light", "", "[](red -> red)", HOLDS),
    ("mutex", "--fair", "[](has -> lock)", HOLDS),
    ("mutex", "--fair", "[](wants -> <>has)", VIOLATED),
    ("turns", "--fair", "[]<>has", HOLDS),
    ("turns", "", "[]<>has", VIOLATED),
    ("queue", "", "[]({len(queue) == 3} -> <>{len(queue) < 3})", HOLDS),
    ("queue", "", "[]<>{len(queue) == 0}", VIOLATED),
    ("peterson", "", "[]{inside <= 1}", HOLDS),
    ("peterson", "-DFAULT", "[]{inside <= 1}", VIOLATED),
    ("peterson", "", "[](waits -> <>enters)", HOLDS),
    ("peterson", "--fair", "[]<>enters", HOLDS),
    ("peterson", "", "[]<>enters", VIOLATED),
    ("alternating", "", "[]!wrong", HOLDS),
    ("alternating", "-DFAULT", "[]!wrong", VIOLATED),
    ("alternating", "--fair", "[]<>got", VIOLATED),
    ("leader", "", "<>elected", HOLDS),
    ("leader", "", "[](elected -> {leader == 9})", HOLDS),
    ("leader", "-DFAULT", "[]{leaders <= 1}", VIOLATED),
    ("philosophers", "", "[]<>{eating > 0}", HOLDS),
    ("philosophers", "-DFAULT", "[]<>{eating > 0}", VIOLATED),
    ("philosophers", "--fair", "[](hungry -> <>eats)", VIOLATED),
    ("ends", "", "<>[]{sum == 6}", HOLDS),
    ("ends", "", "[]<>{sum == 3}", VIOLATED),
    ("ends", "--fair", "<>[]done", HOLDS),
    ("ends", "--fair", "[]!done", VIOLATED),
    ("stuck", "", "<>[]{steps == 2}", HOLDS),
    ("stuck", "", "<>{a || b}", VIOLATED),
    ("stuck", "--fair", "<>{a || b}", VIOLATED),
    ("labels", "", "[]{rounds < 2}", HOLDS),
    ("labels", "", "[]!({left@busy} && {right@busy})", VIOLATED),
    ("labels", "", "[]!({left:x == 1} && {right:y == 2})", VIOLATED),
    ("labels", "", "[]({left@busy} -> <>!{left@busy})", VIOLATED),
    ("labels", "--fair", "[]({left@busy} -> <>!{left@busy})", HOLDS),
    ("steps", "", "[](go -> (went || X X X went))", HOLDS),
    ("steps", "", "[](go -> (went || X X went))", VIOLATED),
    # More processes, and a greater state, than a checker takes that isn't told so.
    ("many", "--fair", "[]<>{turn == 0}", HOLDS),
    ("many", "--fair", "[]{turn < 11}", VIOLATED),
    # The run ends at just the depth of the search.
    *(("stuck", f"--depth {k}", "<>{a || b}", VIOLATED) for k in range(1, 12)),
]
BLOCKS = {"returns": "holds", "ltl_0": "violated", "steps": "violated", "stays": "holds", "reaches": "violated"}

# What is refused: the model's text, the words behind it, and the message.
PLAIN = "byte x; hidden byte h; byte list[2]; mtype = { red }; chan q = [1] of { byte };\nactive proctype P() { byte own; do :: x = 1 - x; h = x; own = x od }\n"
REFUSED = [
    (PLAIN, ["[]!do"], "do is a word of Promela, and can't be a proposition"),
    (PLAIN, ["[]!timeout"], "timeout has a meaning of its own in Promela, and can't be a proposition"),
    (PLAIN, ["[]!linux"], "linux is replaced by 1 by the preprocessor, and can't be a proposition"),
    (PLAIN, ["[]!accept_all"], "accept_all is a label of the claim, and can't be a proposition"),
    (PLAIN, ["[]!other"], "other isn't declared in m.pml"),
    (PLAIN, ["[]!own"], "own is declared in P; in braces, {P:own} names a variable there, and {P@own} a label"),
    (PLAIN, ["[]!red"], "red is a constant or a variable of type mtype; compare it with something, in braces"),
    (PLAIN, ["[]!{red}"], "{red} is a constant or a variable of type mtype; compare it with something, in braces"),
    (PLAIN, ["[]!list"], "list is an array; name one of its elements, in braces"),
    (PLAIN, ["[]!q"], "q is a channel; ask for the number of its messages, as {len(..) > 0}"),
    (PLAIN, ["[]!h"], "h has h, which is declared as hidden: Spin's search forgets its value"),
    (PLAIN, ["[]{h > x}"], "{h > x} has h, which is declared as hidden: Spin's search forgets its value"),
    (PLAIN, ["[]{timeout}"], "{timeout} isn't declared in m.pml"),
    (PLAIN, ["[]{x == 1 && timeout}"], "{x == 1 && timeout} has timeout, which can't be asked of a state"),
    (PLAIN, ["[]{x = 1}"], "{x = 1} is no expression that can be asked of a state: it has no assignment, quote, comment or semicolon"),
    (PLAIN, ["[]{x++ > 1}"], "{x++ > 1} is no expression that can be asked of a state: it has no assignment, quote, comment or semicolon"),
    (PLAIN, ["[]{1) -> goto accept_all; :: (1}"], "{1) -> goto accept_all; :: (1} is no expression that can be asked of a state: it has no assignment, quote, comment or semicolon"),
    (PLAIN, ["[]{x) || (x}"], "{x) || (x} has brackets without a partner"),
    (PLAIN, ["[]{x > }"], "spin refuses the model:"),
    (PLAIN, ["[]{run P() > 0}"], "{run P() > 0} has run, which can't be asked of a state"),
    (PLAIN, ["[]{}"], "{} has no expression"),
    (PLAIN, ["[](x -> {x == 1} W x)"], "formula: byte 17: unexpected byte"),
    (PLAIN, ["[](x -> {x == 1"], "formula: byte 8: unexpected byte"),
    (PLAIN, ["x) || (x"], "formula: byte 1: expected operator or end"),
    (PLAIN, ["[]{q?1}"], "spin refuses the model:"),
    (PLAIN, ["[]{q!1}"], "spin refuses the model:"),
    (PLAIN, [], "m.pml has no block ltl, and no formula is given"),
    ("byte x; never { do :: x od }\nactive proctype P() { x = 1 }\n", ["[]!x"], "m.pml has a never claim of its own, and Spin checks one at a time: take it out"),
    ("byte x;\nactive proctype P() { c_code { now.x = 1; } }\n", ["[]!x"], "m.pml has embedded C code (c_code), which Spin doesn't run when it shows a trail"),
    ("byte x;\nactive proctype P() { x = }\n", ["[]!x"], "spin refuses m.pml:"),
    ('#include "none.pml"\n', ["[]!x"], "the preprocessor refuses m.pml:"),
    ("byte x; /* no end\n", ["[]!x"], "the preprocessor refuses m.pml:"),
    # Faults of the model: nothing is said of the formula.
    ("byte x; byte list[2];\nactive proctype P() { do :: x < 5 -> list[x] = list[0] + 1; x++ od }\n", ["[]{x < 9}"], "the search ended at a fault of the model, so nothing is said of the formula: "),
]

# What a checker says that has searched everything, and other texts, which say no such thing.
WHOLE = """
(Spin Version 6.5.2 -- 6 December 2019)
\t+ Partial Order Reduction

Full statespace search for:
\tnever claim         \t+ (never_0)
\tassertion violations\t- (disabled by -A flag)
\tacceptance   cycles \t+ (fairness disabled)
\tinvalid end states\t- (disabled by never claim)

State-vector 28 byte, depth reached 7, errors: 0
"""
PARTS = [
    ("", ""),
    (WHOLE, WHOLE.replace("errors: 0", "errors: 1")),
    ("\n(Spin", "\n(Spin Version\nWarning: Search not completed\n(Spin"),
    ("Full statespace", "Bit statespace"),
    ("Full statespace search", "Hash-Compact 4 search"),
    ("never claim         \t+ (never_0)", "never claim         \t- (not selected)"),
    ("+ (fairness disabled)", "- (not selected)"),
    ("+ (fairness disabled)", "+ (fairness enabled)"),
    ("\n(Spin", "\npan: out of memory\n(Spin"),
    ("\n(Spin", "\npan: reached -DMEMLIM bound\n(Spin"),
    ("\n(Spin", "\npan:1: assertion violated (x > 3) (at depth 3)\n(Spin"),
    ("\n(Spin", "\npan:1: acceptance cycle (at depth 3)\n(Spin"),
    ("State-vector", "State"),
]


class Count:
    """The numbers of tests that passed and failed."""

    passed = failed = 0

    def expect(self, about, seen, wanted=True):
        self.passed, self.failed = self.passed + (seen == wanted), self.failed + (seen != wanted)
        if seen != wanted:
            print(f"{about}: {str(seen)[:600]}, and not {str(wanted)[:600]}")


class Spin:
    """Runs of ./ltlspin in a folder of its own, which has to be left empty."""

    def __init__(self, folder, programs):
        self.folder, self.programs = Path(folder), programs
        self.temporary = self.folder / "temporary"
        self.temporary.mkdir()

    def words(self, *words):
        return [sys.executable, str(TOP / "ltlspin"), *(["-p", str(self.programs)] if self.programs else []), *words]

    def run(self, *words, path=None, folder=None):
        around = {**os.environ, "TMPDIR": str(self.temporary), "PATH": f"{path}:{os.environ['PATH']}" if path else os.environ["PATH"]}
        ran = subprocess.run(self.words(*words), cwd=folder or self.folder, env=around, capture_output=True, text=True, timeout=SECONDS, check=False, stdin=subprocess.DEVNULL)
        return ran.stdout, ran.stderr, ran.returncode

    def tool(self, name, *words):
        program = Path(self.programs, name) if self.programs else TOP / f"crates/{name}/out/{name}"
        return subprocess.run([program, *words], capture_output=True, text=True, timeout=SECONDS, check=False).stdout

    def left(self):
        return [it.name for it in self.temporary.iterdir()]


def place_of(name):
    return next(it for it in (MODELS / f"{name}.pml", TUTORIAL / f"{name}.pml") if it.exists())


def plain_formula(formula):
    """The formula with names for its expressions, and the definitions of these names."""
    found = list(dict.fromkeys(re.findall(r"\{(.*?)\}", formula)))
    for number, it in enumerate(found, 1):
        formula = formula.replace(f"{{{it}}}", f"e{number}")
    return formula, "".join(f"#define e{number} ({it})\n" for number, it in enumerate(found, 1))


def by_spin(spin, model, options, formula):
    """The answer that Spin's own claim leads to, where no order of steps is left out."""
    plain, definitions = plain_formula(formula)
    room = Path(tempfile.mkdtemp(dir=spin.folder))
    text = re.sub(r"^ltl .*$", "", place_of(model).read_text(encoding="utf-8"), flags=re.M)
    (room / "m.pml").write_text(text + "\n" + definitions, encoding="utf-8")
    defines = [it for it in options.split() if it.startswith("-D")]
    how = {"cwd": room, "capture_output": True, "text": True, "timeout": SECONDS, "check": False}
    (room / "claim").write_text(subprocess.run(["spin", "-f", f"!({plain})"], **how).stdout, encoding="utf-8")
    subprocess.run(["spin", *defines, "-a", "-o2", "-N", "claim", "m.pml"], **how)
    subprocess.run(["cc", "-O0", "-w", "-DNOREDUCE", "-DVECTORSZ=8192", "-DNFAIR=6", "-o", "pan", "pan.c"], **how)
    said = subprocess.run(["./pan", "-a", "-n", "-m1000000", *(["-f"] if "--fair" in options else [])], **how).stdout
    errors = re.search(r"errors: (\d)", said)
    return int(errors[1]) if errors else said


def marks_of(lines, has_head):
    """The word that the table of a run shows: its letters by columns, and where its cycle begins."""
    letters, stem, columns = [], None, []
    for k, line in enumerate(lines):
        if k == 0 and has_head:
            depth = 0
            for place, it in enumerate(line):
                if it != " " and not depth and line[place - 1 : place] in ("", " "):
                    columns.append(place)
                depth += (it == "{") - (it == "}")
        elif line == "the cycle:":
            stem = len(letters)
        else:
            letters.append([line[place] == "*" for place in columns])
    return letters, stem


def try_row(spin, row):
    """What was seen and what was wanted, of a row."""
    model, options, formula, wanted = row
    about = f"{model} {options} {formula}"
    shown, told, status = spin.run(*options.split(), str(place_of(model)), formula)
    lines = shown.splitlines()
    yield about, (lines[:1], told, status), (["violated" if wanted else "holds"], "", wanted)
    if wanted and lines[-1:] and lines[-1].startswith("word: "):
        plain, _ = plain_formula(formula)
        word = lines[-1].removeprefix("word: ")
        yield f"{about}: ltleval on {word}", spin.tool("ltleval", "-f", plain, "-w", word), "false\n"
        names = list(dict.fromkeys(re.findall(r"[a-z][a-z0-9_]*", re.sub(r"\btrue\b|\bfalse\b", "", plain))))
        letters, stem = marks_of([it for it in lines[1:-1] if not re.match(r"e_*\d+ is \{", it)], names != [])
        before, _, behind = word.partition("cycle ")
        wanted_letters = [[it in re.findall(r"\w+", letter) for it in names] for letter in re.findall(r"\{.*?\}", before + behind)]
        yield f"{about}: the table", (letters, len(letters) - 1 if stem is None else stem), (wanted_letters, before.count("{"))
    if "X" not in formula and model != "labels" and "--depth" not in options:
        yield f"{about}: by Spin's claim", by_spin(spin, model, options, formula), wanted


def try_rows(spin, count):
    with ThreadPoolExecutor(4) as pool:
        for found in pool.map(lambda row: list(try_row(spin, row)), ROWS):
            for about, seen, wanted in found:
                count.expect(about, seen, wanted)


def try_blocks(spin, count):
    shown, told, status = spin.run("blocks.pml", folder=MODELS)
    count.expect("blocks", (dict(re.findall(r"^(\w+): (holds|violated)$", shown, re.M)), told, status), (BLOCKS, "", 1))
    count.expect("a block is left out if there is a formula", spin.run(str(MODELS / "blocks.pml"), "[]{count <= LIMIT}"), ("holds\n", "", 0))
    (spin.folder / "m.pml").write_text("byte x;\nactive proctype P() { x = 1 }\nltl a { <>(x == 1) }\nltl b { [](z == 1) }\n", encoding="utf-8")
    shown, told, status = spin.run("m.pml")
    count.expect("a block that Spin refuses", (shown, "m.pml:4" in told and "z" in told, status), ("a: holds\nb: no answer\n", True, 3))


def try_refusals(spin, count):
    for text, words, wanted in REFUSED:
        (spin.folder / "m.pml").write_text(text, encoding="utf-8")
        shown, told, status = spin.run("m.pml", *words)
        first = told.split("\n")[0]
        is_said = first.startswith(f"ltlspin: {wanted}") if wanted.endswith((": ", ":")) else first == f"ltlspin: {wanted}"
        count.expect(f"{words} of {text!r}", (shown, first if not is_said else "", status), ("", "", 3))
    shown, told, status = spin.run("none.pml", "[]p")
    count.expect("no such model", (shown, told, status), ("", "ltlspin: none.pml: No such file or directory\n", 3))
    empty = spin.folder / "empty"
    empty.mkdir()
    shown, told, status = spin.run("-p", str(empty), "m.pml", "[]p")
    count.expect("no programs", (shown, told, status), ("", f"ltlspin: {empty} has no program ltl2ba\n", 3))
    for words in [], ["--time", "0", "m.pml"], ["--memory", "x", "m.pml"], ["m.pml", "p", "q"], ["--fai", "m.pml", "p"]:
        shown, told, status = spin.run(*words)
        count.expect(f"usage: {words}", (shown, told.startswith("usage: "), status), ("", True, 2))


def try_names(spin, count):
    """Models and folders with names that shells and compilers would misread, files that are included, and macros without brackets."""
    folder = spin.folder / "a $(touch owned) 'folder\""
    folder.mkdir()
    (folder / "part.pml").write_text("#define either x == 1 || y == 1\n#define e1 5\n", encoding="utf-8")
    (folder / "-m;touch owned.pml").write_text('#include "part.pml"\nbyte x, y; byte e1_;\nactive proctype P() { do :: x = 1 - x od }\n', encoding="utf-8")
    model = f"{folder}/-m;touch owned.pml"
    count.expect("a macro without brackets", spin.run(model, "[]<>!either")[::2], ("holds\n", 0))
    shown, _, status = spin.run(model, "[]!{either}")
    count.expect("an expression that is a macro", (shown.splitlines()[:2], status), (["violated", "   {either}"], 1))
    count.expect("no shell", [it for it in (spin.folder / "owned", folder / "owned", Path("owned")) if it.exists()], [])


def try_assertions(spin, count):
    """Assertions that fail have no part in the answer, in whatever form they stand."""
    text = """byte x; byte list[2]; chan q = [2] of { byte };
inline check(v) { assert v < 3; assert(x < 3); assert(nfull(q)) }
active proctype P() { byte own; do :: x < 5 -> check(x); x++; assert own == 0 && x < 3 || own == 1 :: x == 5 -> assert(false) -> x = 0 od }
"""
    (spin.folder / "m.pml").write_text(text, encoding="utf-8")
    count.expect("assertions, and it holds", spin.run("m.pml", "[]<>{x == 0}"), ("holds\n", "", 0))
    shown, told, status = spin.run("m.pml", "<>[]{x != 0}")
    count.expect("assertions, and it doesn't", (shown[:9], " assert .." in shown, told, status), ("violated\n", True, "", 1))


def try_limits(spin, count):
    (spin.folder / "m.pml").write_text("int x;\nactive proctype P() { do :: x < 30000 -> x++ :: else -> x = 0 od }\n", encoding="utf-8")
    count.expect("a greater depth holds", spin.run("m.pml", "[]{x <= 30000}"), ("holds\n", "", 0))
    shown, told, status = spin.run("m.pml", "[]{x < 30000}")
    count.expect("a greater depth is needed", (shown[:9], shown.splitlines()[-1][:6], told, status), ("violated\n", "word: ", "", 1))
    shown, told, status = spin.run("m.pml", "[](X {x < 30000})")
    count.expect("a run that is too long to be confirmed", (shown, "too many for ltleval" in told, status), ("", True, 3))
    (spin.folder / "m.pml").write_text("int x, y, z;\nactive proctype P() { do :: x++ :: y++ :: z++ od }\n", encoding="utf-8")
    begun = time.monotonic()
    shown, told, status = spin.run("--time", "6", "m.pml", "[]{x >= -1}")
    count.expect("time", (shown, told, status, time.monotonic() - begun < 60), ("", "ltlspin: the time is over; --time gives more\n", 3, True))
    shown, told, status = spin.run("--memory", "200", "m.pml", "[]{x + y + z != 7777777}")
    count.expect("memory", (shown, told.endswith(" needs more memory; --memory gives more\n"), status), ("", True, 3))


def try_signals(spin, count):
    """A run that is ended leaves no folder and no process."""
    (spin.folder / "m.pml").write_text("int x, y, z;\nactive proctype P() { do :: x++ :: y++ :: z++ od }\n", encoding="utf-8")
    around = {**os.environ, "TMPDIR": str(spin.temporary)}
    for which in signal.SIGINT, signal.SIGTERM, signal.SIGHUP:
        command = [shutil.which("env"), "--default-signal", *spin.words("--memory", "3000", "m.pml", "[]{x >= -1}")]
        process = subprocess.Popen(command, cwd=spin.folder, env=around, stdout=subprocess.PIPE, stderr=subprocess.PIPE)
        until = time.monotonic() + SECONDS
        while time.monotonic() < until and not [it for it in spin.temporary.glob("*/*/pan")]:
            time.sleep(0.1)
        time.sleep(0.5)
        process.send_signal(which)
        out, told = process.communicate(timeout=SECONDS)
        count.expect(f"{which.name}", (process.returncode, out, told, spin.left(), searching(spin)), (128 + which, b"", b"", [], []))


def searching(spin):
    """The processes that still run in the folder for temporary files."""
    found = []
    for it in Path("/proc").glob("[0-9]*/cwd"):
        with contextlib.suppress(OSError):
            if os.readlink(it).startswith(str(spin.temporary)):
                found.append(it.parent.name)
    return found


def put_program(place, text):
    place.write_text(text, encoding="utf-8")
    place.chmod(place.stat().st_mode | stat.S_IXUSR)


def try_lies(spin, count):
    """A checker that hasn't searched everything, and an evaluator that doesn't agree."""
    (spin.folder / "m.pml").write_text("byte x;\nactive proctype P() { do :: x = 1 - x od }\n", encoding="utf-8")
    path = spin.folder / "path"
    path.mkdir()
    put_program(path / "gcc", f'#!/bin/sh\ncase "$*" in *pan.c*) cp {path}/checker pan; exit;; esac\nexec {shutil.which("gcc")} "$@"\n')
    for status in 0, 1:
        for old, new in PARTS:
            put_program(path / "checker", f"#!/bin/sh\ncat <<'END'\n{WHOLE.replace(old, new, 1) if old else WHOLE}\nEND\nexit {status}\n")
            shown, told, ended = spin.run("m.pml", "[]<>x", path=path)
            is_whole = not old and not status
            count.expect(f"a checker that says {new!r} with status {status}", (shown, bool(told), ended), ("holds\n" if is_whole else "", not is_whole, 0 if is_whole else 3))
    programs = spin.folder / "programs"
    programs.mkdir()
    for it in "ltl2ba", "ltlreduce", "ltlcheck":
        (programs / it).symlink_to(Path(spin.programs, it) if spin.programs else TOP / f"crates/{it}/out/{it}")
    put_program(programs / "ltleval", "#!/bin/sh\necho true\n")
    other = Spin(tempfile.mkdtemp(dir=spin.folder), programs)
    (other.folder / "m.pml").write_text("byte x;\nactive proctype P() { do :: x = 1 - x od }\n", encoding="utf-8")
    shown, told, status = other.run("m.pml", "<>[]x")
    count.expect("ltleval says true", (shown, "ltleval doesn't confirm it" in told, status), ("", True, 3))
    (programs / "ltlcheck").unlink()
    put_program(programs / "ltlcheck", "#!/bin/sh\necho violated\nexit 1\n")
    (programs / "ltleval").unlink()
    (programs / "ltleval").symlink_to(Path(spin.programs, "ltleval") if spin.programs else TOP / "crates/ltleval/out/ltleval")
    shown, told, status = other.run("m.pml", "[]!x")
    count.expect("ltlcheck says violated", (shown, "ltlcheck doesn't confirm it" in told, status), ("", True, 3))
    (programs / "ltlreduce").unlink()
    put_program(programs / "ltlreduce", "#!/bin/sh\necho ltlreduce: out of memory\nexit 4\n")
    shown, told, status = other.run("m.pml", "[]!x")
    count.expect("ltlreduce has no memory", (shown, told, status), ("", "ltlspin: ltlreduce: out of memory\n", 3))


def main(words):
    if words[:1] in (["-h"], ["--help"]):
        print(__doc__)
        return 0
    programs = Path(words[1]).resolve() if words[:1] == ["-p"] and len(words) == 2 else None
    lacking = [it for it in ("spin", "gcc") if not shutil.which(it)]
    if lacking:
        print(f"skipped: the tests of ./ltlspin, for want of {lacking[0]}\n0 passed, 0 failed")
        return 0
    count = Count()
    with tempfile.TemporaryDirectory() as folder:
        spin = Spin(folder, programs)
        for part in try_refusals, try_names, try_blocks, try_assertions, try_lies, try_limits, try_signals, try_rows:
            part(spin, count)
            count.expect(f"what {part.__name__} leaves", spin.left(), [])
    print(f"{count.passed} passed, {count.failed} failed")
    return 1 if count.failed or not count.passed else 0


if __name__ == "__main__":
    sys.exit(main(sys.argv[1:]))
