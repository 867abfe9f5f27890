#!/usr/bin/env python3
"""Builds the sources in tests/c and examples/c against the C library, and compares the answers of its calls with the programs: on the stored runs of
tests/*.json, on 500 random formulas and on pairs of formulas, with every length of a buffer up to the needed one, with each allocation refused, under valgrind, and with the
compiler's sanitizers. Links the shared library, and looks at its names. Builds the program in the manual page ltl2ba(3), linked in several ways, and compares
what it prints with the program.

Usage: tests/c_library.py [FOLDER]; the programs are those of the folder, or those that the gate built. What is not installed is reported as skipped, and
isn't counted. The last line is 'N passed, M failed'."""

import getopt
import json
import os
import random
import re
import runpy
import shlex
import shutil
import subprocess
import sys
import tempfile
from pathlib import Path

from run import text

TOP = Path(__file__).resolve().parent.parent
PROGRAMS = "ltl2ba", "ltlcheck", "ltleval", "ltlcompare"
DRAWER, READER, REDUCER = "ltldraw", "ltlclaim", "ltlreduce"
COMPILER, COMPILER_OF_CPP = os.environ.get("CC", "cc"), os.environ.get("CXX", "c++")
SECONDS, RANDOM_FORMULAS, RANDOM_PAIRS = 600, 500, 200
KINDS = {"ltl2ba": "t", "ltlcheck": "c", "ltleval": "e", "ltlcompare": "m"}
FORMULAS = "[]<>p", "p U (q U r)", "[](p -> <>q)", "<>[]p && []<>q", "true", "false", "p", "X(p V q) || !r", "[](a U b) -> <>c", "(p <-> q) U X X r"
WORD = b"{p}; cycle {q}; {}"
SANITIZERS = "-fsanitize=address,undefined", "-fno-sanitize-recover=all"


class Tally:
    passed = failed = 0

    def expect(self, about, seen, wanted):
        self.passed, self.failed = self.passed + (seen == wanted), self.failed + (seen != wanted)
        if seen != wanted:
            print(f"{about}: {seen!r:.300}, and not {wanted!r:.300}")


def request(kind, formula, layout=0, flags=0, room=-1, second=b""):
    return f"{kind} {layout} {flags} {room} {len(formula)} {len(second)}\n".encode() + formula + second


def answers(words, requests):
    """The status, the text, the message and three counts for each request."""
    ran = subprocess.run(words, input=b"".join(requests), capture_output=True, timeout=SECONDS, check=False)
    found, left = [], ran.stdout
    while left:
        head, _, left = left.partition(b"\n")
        status, length, told, *counts = map(int, head.split())
        found.append((status, left[:length], left[length : length + told], counts))
        left = left[length + told :]
    return found, ran.returncode, ran.stderr.decode(errors="replace")


def second_of(tool, values, files, run):
    """The word, the second formula, or the automaton."""
    if tool == "ltleval":
        return values["-w"].encode()
    if tool == "ltlcompare":
        return values["-g"].encode() if "-g" in values else files.get(values.get("-G"))
    return files.get(values["-A"]) if "-A" in values else text(run.get("stdin", []))


def asked(tool, run):
    """The request that stands for a stored run, if there is one, and its layout."""
    if run["status"] in (2, 5) or "output" in run or "message" in run or "stdout_begins" in run:
        return None
    takes = "f:F:g:G:" if tool == "ltlcompare" else "lopHGf:F:w:A:"
    words, rest = getopt.getopt([it if isinstance(it, str) else text(it).decode() for it in run["args"]], takes)
    values = dict(words)
    files = {name: text(it) for name, it in run.get("files", {}).items() if it is not None}
    if rest or any(it.startswith("=") for it in values.values()) or len(values) != len(words):
        return None
    formula = values["-f"].encode() if "-f" in values else files.get(values.get("-F"))
    second = second_of(tool, values, files, run)
    if formula is None or second is None:
        return None
    if tool == "ltlcompare":
        return KINDS[tool], formula, 0, 0, -1, second
    layout = 1 if "-H" in values else 2 if "-G" in values else 0
    flags = sum(bit for bit, it in ((1, "-l"), (2, "-o"), (4, "-p")) if it in values)
    return KINDS[tool], formula, layout, flags, -1, b"" if tool == "ltl2ba" else second


def output_of(tool, found):
    """The output of the program whose call gave this answer."""
    status, handed, _, _ = found
    if tool == "ltleval":
        return {0: b"true\n", 1: b"false\n"}.get(status, b"")
    if tool == "ltlcheck":
        return {0: handed + b"contained\n", 1: b"violated\n" + handed + b"\n"}.get(status, b"")
    return handed.partition(b"\n")[2] if tool == "ltlcompare" else handed


def first_places(formula):
    """Where each name first stands in a formula's text."""
    places = {}
    for it in re.finditer(r"[a-z][a-z0-9_]*", formula.decode(errors="replace")):
        places.setdefault(it[0], it.start())
    return places


def arrays_of(formula, printed, layout):
    """What the driver tells of an automaton's arrays, by the text that the program prints of it in HOA format."""
    head, _, body = printed.decode().partition("--BODY--\n")
    states, places = body.removesuffix("--END--\n"), first_places(formula)
    lines = states.split("\n")[:-1]
    count = sum(it.startswith("State: ") for it in lines)
    names = [it.strip('"') for it in head.partition("\nAP: ")[2].split("\n")[0].split()[1:]]
    sets = int(head.partition("\nAcceptance: ")[2].split()[0]) if layout == 2 else 0
    told = "".join(f' "{it}" at {places[it]}' for it in names)
    return f"{count} {len(lines) - count} {len(names)} {sets}\nAP: {len(names)}{told}\n{states}".encode()


def wanted_arrays(programs, formula, layout, flags):
    """What the program answers for the automaton of a formula: its status, what the arrays tell, and the message. In the arrays of a claim is what `-H` prints."""
    words = [word for bit, word in ((1, "-l"), (2, "-o"), (4, "-p")) if flags & bit] + ["-G" if layout == 2 else "-H"]
    ran = subprocess.run([f"{programs}/ltl2ba", *words, "-F", "/dev/stdin"], input=formula, capture_output=True, timeout=SECONDS, check=False)
    return ran.returncode, b"0 0 0 0\n" if ran.returncode else arrays_of(formula, ran.stdout, layout), ran.stderr


def try_arrays(tally, driver, programs, asked_for):
    """Compares arrays with texts, for formulas with layouts and flags."""
    found, status, told = answers([driver], [request("a", formula, layout, flags) for formula, layout, flags in asked_for])
    tally.expect("arrays: the driver ends", (status, told, len(found)), (0, "", len(asked_for)))
    for (formula, layout, flags), it in zip(asked_for, found):
        tally.expect(f"arrays of {formula.decode(errors='replace')}", (it[:3], it[3][2]), (wanted_arrays(programs, formula, layout, flags), 0))
    print(f"{len(asked_for)} automata in arrays")


def try_stored_runs(tally, driver, programs):
    for tool in PROGRAMS:
        runs = [it for it in json.loads((TOP / f"tests/{tool}.json").read_text(encoding="utf-8")) if asked(tool, it)]
        found, status, told = answers([driver], [request(*asked(tool, it)) for it in runs])
        tally.expect(f"{tool}: the driver ends", (status, told, len(found)), (0, "", len(runs)))
        for run, it in zip(runs, found):
            wanted = run["status"], text(run["stdout"]), text(run["stderr"])
            tally.expect(f"{tool}: {run['about']}", (it[0], output_of(tool, it), it[2]), wanted)
        print(f"{tool}: {len(runs)} stored runs")
        if tool == "ltl2ba":
            try_arrays(tally, driver, programs, [asked(tool, it)[1:4] for it in runs])


def random_formula(chance, depth):
    if depth == 0 or chance.random() < 0.15:
        return chance.choice(["p", "q", "r", "s", "true", "false"])
    if chance.random() < 0.45:
        return chance.choice(["!", "X", "[]", "<>"]) + f"({random_formula(chance, depth - 1)})"
    sign = chance.choice(["&&", "||", "->", "<->", "U", "V"])
    return f"({random_formula(chance, depth - 1)}) {sign} ({random_formula(chance, depth - 1)})"


def try_random_formulas(tally, driver, folder):
    chance, requests, wanted, asked_for = random.Random(53), [], [], []
    for _ in range(RANDOM_FORMULAS):
        formula, layout, flags = random_formula(chance, chance.choice([2, 3, 4])), chance.choice([0, 1, 2]), chance.choice([0, 0, 1, 2, 4, 7])
        words = [word for bit, word in ((1, "-l"), (2, "-o"), (4, "-p")) if flags & bit] + [[], ["-H"], ["-G"]][layout] + ["-f", formula]
        ran = subprocess.run([f"{folder}/ltl2ba", *words], capture_output=True, timeout=SECONDS, check=False)
        requests.append(request("t", formula.encode(), layout, flags))
        asked_for.append((formula.encode(), layout, flags))
        wanted.append((formula, ran.returncode, ran.stdout, ran.stderr))
    found, status, told = answers([driver], requests)
    tally.expect("random formulas: the driver ends", (status, told, len(found)), (0, "", len(wanted)))
    for (formula, *it), (code, handed, message, _) in zip(wanted, found):
        tally.expect(formula, (code, handed, message), tuple(it))
    print(f"{RANDOM_FORMULAS} random formulas")
    try_arrays(tally, driver, folder, asked_for)


def try_comparisons(tally, driver, folder):
    """Compares the call with `ltlcompare`: on each pair of the formulas, on a few that are refused, and on random pairs."""
    chance = random.Random(77)
    pairs = [(one, two) for one in (*FORMULAS, "p U", "(" * 9) for two in (*FORMULAS, "q V", "p && 1")]
    pairs += [(random_formula(chance, 3), random_formula(chance, 3)) for _ in range(RANDOM_PAIRS)]
    found, status, told = answers([driver], [request("m", one.encode(), second=two.encode()) for one, two in pairs])
    tally.expect("comparisons: the driver ends", (status, told, len(found)), (0, "", len(pairs)))
    for (one, two), it in zip(pairs, found):
        ran = subprocess.run([f"{folder}/ltlcompare", "-f", one, "-g", two], capture_output=True, timeout=SECONDS, check=False)
        tally.expect(f"{one} and {two}", (it[0], output_of("ltlcompare", it), it[2], it[3][2]), (ran.returncode, ran.stdout, ran.stderr, 0))
        tally.expect(f"what is told of {one} and {two}", it[1].partition(b"\n")[0], told_of(ran.stdout, ran.stderr))
    print(f"{len(pairs)} comparisons")


def try_automata(tally, driver, folder):
    """Compares the calls with `ltldraw` and `ltlreduce`: on the automata of the formulas, and on texts that are refused."""
    texts = [subprocess.run([f"{folder}/ltl2ba", layout, "-f", it], capture_output=True, timeout=SECONDS, check=False).stdout for it in FORMULAS for layout in ("-H", "-G")]
    texts += [b"", b"HOA: v2", texts[0][:60], texts[0].replace(b'name: "', b'name: "\\"&<\xc3\xa9'), texts[0].replace(b"State: 0", b'State: 0 "a & b"')]
    for kind, tool, what in ("d", DRAWER, "picture"), ("r", REDUCER, "reduction"):
        found, status, told = answers([driver], [request(kind, it) for it in texts])
        tally.expect(f"{what}s: the driver ends", (status, told, len(found)), (0, "", len(texts)))
        for text_, it in zip(texts, found):
            ran = subprocess.run([f"{folder}/{tool}"], input=text_, capture_output=True, timeout=SECONDS, check=False)
            tally.expect(f"the {what} of {text_[:60]!r}", (it[0], it[1], it[2], it[3][2]), (ran.returncode, ran.stdout, ran.stderr, 0))
        print(f"{len(texts)} {what}s")


def try_claims(tally, driver, folder):
    """Compares the call with `ltlclaim`: on the stored runs, with every length of a buffer up to the needed one for the first of them, and on the claims of the formulas."""
    runs = [it for it in json.loads((TOP / "tests/ltlclaim.json").read_text(encoding="utf-8")) if not it["args"] and it["status"] in (0, 3) and not {"output", "message", "stdout_begins"} & set(it)]
    claims = [(text(it.get("stdin", [])), (it["status"], text(it["stdout"]), text(it["stderr"]))) for it in runs]
    for formula in FORMULAS:
        claim = subprocess.run([f"{folder}/ltl2ba", "-f", formula], capture_output=True, timeout=SECONDS, check=False).stdout
        ran = subprocess.run([f"{folder}/{READER}"], input=claim, capture_output=True, timeout=SECONDS, check=False)
        claims.append((claim, (ran.returncode, ran.stdout, ran.stderr)))
    found, status, told = answers([driver], [request("k", it) for it, _ in claims])
    tally.expect("claims: the driver ends", (status, told, len(found)), (0, "", len(claims)))
    for (claim, wanted), it in zip(claims, found):
        tally.expect(f"the claim {claim[:60]!r}", (it[:3], it[3][2]), (wanted, 0))
    claim, (_, whole, _) = next(it for it in claims if it[1][0] == 0)
    rooms = range(len(whole) + 2)
    found, status, told = answers([driver], [request("k", claim, room=it) for it in rooms])
    tally.expect("the lengths of a claim: the driver ends", (status, told, len(found)), (0, "", len(rooms)))
    for room, it in zip(rooms, found):
        wanted = (0, whole) if room >= len(whole) else (6, b"")
        tally.expect(f"a claim with room for {room}", (it[:2], it[3][0], it[3][2]), (wanted, len(whole), 0))
    print(f"{len(claims)} claims")


def told_of(printed, message):
    """The lengths of both words, the implications and the subject, by what the program prints."""
    words = [len((re.search(rb"^%s only: (.*)$" % which, printed, re.M) or [b"", b""])[1]) for which in (b"first", b"second")]
    implied = [printed.startswith(b"equivalent") or printed.startswith(it) for it in (b"first implies", b"second implies")]
    subject = 1 if b" first formula:" in message else 2 if b" second formula:" in message else 0
    return "{} {} {:d} {:d} {}".format(*words, *implied, subject).encode()


def try_comparison_lengths(tally, driver):
    """One buffer of each length up to the needed one, the other of the needed one."""
    for one, two in zip(FORMULAS, FORMULAS[1:]):
        pair = {"formula": one.encode(), "second": two.encode()}
        status, whole, _, _ = answers([driver], [request("m", **pair)])[0][0]
        counts = whole.partition(b"\n")[0] + b"\n"
        needed = list(map(int, counts.split()[:2]))
        rooms = [(which, room) for which, most in enumerate(needed) for room in range(most + 2)]
        found, code, told = answers([driver], [request("m", flags=which, room=room, **pair) for which, room in rooms])
        tally.expect(f"{one} and {two}: the driver ends", (code, told, len(found)), (0, "", len(rooms)))
        for (which, room), it in zip(rooms, found):
            wanted = (status, whole) if room >= needed[which] else (6, counts)
            tally.expect(f"{one} and {two}, with room for {room}", (it[:2], it[3][2]), (wanted, 0))


def try_lengths(tally, driver):
    for formula in FORMULAS:
        whole = answers([driver], [request("t", formula.encode(), 1), request("n", formula.encode())])[0]
        for kind, (status, handed, _, _) in zip("tn", whole):
            rooms = range(len(handed) + 2)
            found, code, told = answers([driver], [request(kind, formula.encode(), 1, 0, room) for room in rooms])
            tally.expect(f"{formula}: the driver ends", (status, code, told), (0, 0, ""))
            for room, it in zip(rooms, found):
                wanted = (0, handed) if room >= len(handed) else (6, b"")
                tally.expect(f"{formula} with room for {room}", (it[:2], it[3][0], it[3][2]), (wanted, len(handed), 0))


def try_array_lengths(tally, driver):
    """One array of each length up to the needed one, the others of the needed one."""
    for formula in FORMULAS:
        for layout in 1, 2:
            status, whole, _, _ = answers([driver], [request("a", formula.encode(), layout)])[0][0]
            counts = whole.partition(b"\n")[0] + b"\n"
            needed = dict(zip("sen", map(int, counts.split())))
            rooms = [(which, room) for which, most in needed.items() for room in range(most + 2)]
            found, code, told = answers([driver], [request("a", formula.encode(), layout, 0, room, which.encode()) for which, room in rooms])
            tally.expect(f"{formula}: the driver ends", (status, code, told, len(found)), (0, 0, "", len(rooms)))
            for (which, room), it in zip(rooms, found):
                wanted = (0, whole) if room >= needed[which] else (6, counts)
                tally.expect(f"arrays of {formula}, {which} with room for {room}", (it[:2], it[3][2]), (wanted, 0))


def try_growths(tally, driver, formulas):
    growths = 0
    for formula in formulas:
        hoa = answers([driver], [request("t", b"true", 1)])[0][0][1]
        requests = [request(kind, formula.encode(), layout, 0, -2, second) for kind, layout, second in (("t", 0, b""), ("t", 1, b""), ("t", 2, b""), ("n", 0, b""), ("a", 1, b""), ("a", 2, b""), ("e", 0, WORD), ("c", 0, hoa), ("m", 0, b"<>[]p"))] + [request("d", hoa, room=-2), request("k", answers([driver], [request("t", formula.encode())])[0][0][1], room=-2)]
        found, code, told = answers([driver], requests)
        tally.expect(f"{formula}: the driver ends", (code, told, len(found)), (0, "", len(requests)))
        for it in found:
            tally.expect(f"{formula}: refused growths", it[0] in (0, 1), True)
            growths += it[3][1]
    print(f"{growths} growths refused")


def compiled(words):
    ran = subprocess.run(words, capture_output=True, text=True, timeout=SECONDS, check=False)
    return None if ran.returncode == 0 else ran.stdout + ran.stderr


def driver_in(folder, name, archive, *more):
    """Builds the driver. Returns it, and the compiler's complaints."""
    where = f"{folder}/{name}"
    words = [*shlex.split(COMPILER), "-std=gnu11", "-Wall", "-Wextra", "-Werror", "-g", *more, "-Wl,--wrap=malloc,--wrap=realloc", f"-I{TOP}/include", "-o", where, str(TOP / "tests/c/driver.c"), str(archive)]
    return where, compiled(words)


def dot_of(printed):
    """What examples/c/dot prints of an automaton whose text in HOA format this is."""
    head, _, body = printed.partition("--BODY--\n")
    names = [it.strip('"') for it in head.partition("\nAP: ")[2].split("\n")[0].split()[1:]]
    lines = ["digraph {", "  start [shape=point]", "  start -> 0"]
    for line in body.removesuffix("--END--\n").split("\n")[:-1]:
        if line.startswith("State: "):
            state = line.split()[1]
            lines.append(f"  {state} [shape={'doublecircle' if line.endswith(' {0}') else 'circle'}]")
        else:
            label, _, target = line[1:].partition("] ")
            guard = " && ".join(("!" if it[0] == "!" else "") + names[int(it.lstrip("!"))] for it in label.split("&")) if label != "t" else "true"
            lines.append(f'  {state} -> {target} [label="{guard}"]')
    return "\n".join([*lines, "}", ""])


def example_in_manual(folder):
    """Writes the program in the EXAMPLES of ltl2ba(3) to a file of the folder, and returns its name."""
    page = (TOP / "docs/man/ltl2ba.3").read_text(encoding="utf-8")
    shown = page.partition(".SH EXAMPLES\n")[2].partition(".nf\n")[2].partition(".fi\n")[0]
    place = Path(folder, "manual.c")
    place.write_text(shown.replace("\\-", "-"), encoding="utf-8")
    return place


def try_manual(tally, folder, programs, prefix):
    """Builds the program of the manual page against an installed library, and compares it with `ltl2ba`."""
    around = {**os.environ, "PKG_CONFIG_PATH": f"{prefix}/lib/pkgconfig"}
    found = subprocess.run(["pkg-config", "--cflags", "--libs", "ltl2ba"], env=around, capture_output=True, text=True, check=False)
    tally.expect("pkg-config", found.returncode, 0)
    try_program(tally, "the example of ltl2ba(3)", programs, f"{folder}/manual", [str(example_in_manual(folder)), *found.stdout.split()])


def try_program(tally, about, programs, program, words):
    """Compiles the program of the manual page with these words, and compares it with `ltl2ba`."""
    faults = compiled([*shlex.split(COMPILER), "-std=c99", "-Wall", "-Wextra", "-pedantic", "-Werror", f"-I{TOP}/include", "-o", program, *words])
    tally.expect(f"{about} is compiled", faults, None)
    for formula in () if faults else (*FORMULAS, " && ".join(f"<>p{i}" for i in range(6)), "p U", "p && 1"):
        both = [f"{programs}/ltl2ba", "-f", formula], [program, formula]
        wanted, seen = (subprocess.run(it, capture_output=True, timeout=SECONDS, check=False) for it in both)
        tally.expect(f"{about} on {formula}", (seen.stdout, seen.stderr, seen.returncode), (wanted.stdout, wanted.stderr, wanted.returncode))


def try_links(tally, folder, programs, archive):
    """Links the program of the manual page beside another owner of the allocator's names, without shared libraries, and with the archive in one."""
    source, other, empty = str(example_in_manual(folder)), Path(folder, "other.c"), Path(folder, "empty.c")
    other.write_text("int rattle_alloc, rattle_dealloc, rattle_realloc;\n", encoding="ascii")
    empty.write_text("int main(void) { return 0; }\n", encoding="ascii")
    try_program(tally, "beside the same names", programs, f"{folder}/beside", [source, str(other), archive])
    if compiled([*shlex.split(COMPILER), "-static", "-o", f"{folder}/empty", str(empty)]) is None:
        try_program(tally, "linked statically", programs, f"{folder}/static", ["-static", source, archive])
    else:
        print("skipped: static programs, which the compiler does not link")
    shared, flags = f"{folder}/libshared.so", ["-shared", "-Wl,-z,defs,-z,text", "-Wl,--whole-archive"]
    tally.expect("a shared library", compiled([*shlex.split(COMPILER), *flags, archive, "-Wl,--no-whole-archive", "-o", shared]), None)
    try_program(tally, "from a shared library", programs, f"{folder}/shared", [source, shared, f"-Wl,-rpath,{folder}"])


def try_page(tally, top, prefix):
    """What examples/c/README.md shows, typed at the top of a copy, and the code that it quotes."""
    page, pages = str(TOP / "examples/c/README.md"), runpy.run_path(str(TOP / "tools/examples"))
    shown = [(command, text) for command, text, _ in pages["examples"](page)]
    written = pages["typed"]([command for command, _ in shown], top, {**os.environ, "PKG_CONFIG_PATH": f"{prefix}/lib/pkgconfig"})
    for (command, text), seen in zip(shown, written):
        tally.expect(f"examples/c/README.md: {command}", seen, text)
    for name, piece, stands in pages["excerpts"](page):
        tally.expect(f"examples/c/README.md: {piece} in {name}", stands, True)


def try_exports(tally, archive):
    """The archive defines the calls of the header for other files, and nothing else."""
    header = (TOP / "include/ltl2ba.h").read_text(encoding="utf-8")
    calls = sorted(re.findall(r"^uint8_t (\w+)\(", header, re.M))
    if not shutil.which("nm"):
        print("skipped: the names that the archive defines, for want of nm")
        return
    listed = subprocess.run(["nm", "-g", "--defined-only", archive], capture_output=True, text=True, check=False)
    tally.expect("the names that the archive defines", sorted(it.split()[-1] for it in listed.stdout.split("\n") if len(it.split()) == 3), calls)


def try_shared(tally):
    """The shared library exports the calls of the header and nothing else, and has the name that the header's number says."""
    made = subprocess.run([TOP / "tools/c_shared"], capture_output=True, text=True, check=False)
    header = (TOP / "include/ltl2ba.h").read_text(encoding="utf-8")
    name = f"libltl2ba.so.{re.search(r'define LTL2BA_ABI (.*)', header)[1]}"
    tally.expect("tools/c_shared", (made.stderr, made.returncode, Path(made.stdout.strip()).name), ("", 0, name))
    if not shutil.which("nm") or not shutil.which("objdump"):
        print("skipped: the names that the shared library exports, for want of nm or objdump")
        return
    listed = subprocess.run(["nm", "-D", "--defined-only", made.stdout.strip()], capture_output=True, text=True, check=False)
    calls = sorted(re.findall(r"^uint8_t (\w+)\(", header, re.M))
    tally.expect("the names that it exports", sorted(it.split()[-1] for it in listed.stdout.splitlines()), calls)
    told = subprocess.run(["objdump", "-p", made.stdout.strip()], capture_output=True, text=True, check=False).stdout
    tally.expect("its own name and what it needs", (re.findall(r"SONAME +(\S+)", told), re.findall(r"NEEDED +(\S+)", told)), ([name], ["libc.so.6"]))


def try_examples(tally, folder, programs, checker):
    """Builds the examples against an installed library, with one line of pkg-config, and runs them."""
    root = f"{folder}/installed"
    installed = subprocess.run([TOP / "install", root], capture_output=True, text=True, check=False)
    tally.expect("./install", (installed.stderr, installed.returncode), ("", 0))
    try_manual(tally, folder, programs, root)
    examples = f"{folder}/top/examples/c"
    shutil.copytree(TOP / "examples/c", examples)
    made = subprocess.run(["make", f"PKG_CONFIG_PATH={root}/lib/pkgconfig"], cwd=examples, capture_output=True, text=True, check=False)
    tally.expect("make in examples/c", (made.stderr, made.returncode), ("", 0))
    try_page(tally, f"{folder}/top", root)

    def ran(*words, given=None):
        it = subprocess.run([*map(str, words)], input=given, capture_output=True, text=True, check=False)
        return it.stdout, it.stderr, it.returncode

    for formula in FORMULAS:
        printed = ran(f"{programs}/ltl2ba", "-H", "-f", formula)[0]
        tally.expect(f"dot {formula}", ran(*checker, f"{examples}/dot", formula), (dot_of(printed), "", 0))
        verdict = ran(f"{programs}/ltlcheck", "-f", FORMULAS[0], given=printed)
        checked = ran(*checker, f"{examples}/check", formula, FORMULAS[0])
        tally.expect(f"check {formula}", checked, (verdict[0].removeprefix("violated\n"), "", verdict[2]))
        word, told, status = ran(*checker, f"{examples}/word", formula)
        is_empty = ran(f"{programs}/ltlcheck", "-f", "false", given=printed)[2] == 0
        wanted = ("no word satisfies it\n", "", 1) if is_empty else (word, "", 0)
        tally.expect(f"word {formula}", (word, told, status), wanted)
        if not is_empty:
            tally.expect(f"{formula} on {word}", ran(f"{programs}/ltleval", "-f", formula, "-w", word[:-1]), ("true\n", "", 0))
    for one, two in (*zip(FORMULAS, FORMULAS[1:]), ("p U", "q"), ("p", "q U")):
        tally.expect(f"compare {one} and {two}", ran(*checker, f"{examples}/compare", one, two), ran(f"{programs}/ltlcompare", "-f", one, "-g", two))
    for name in "dot", "word":
        tally.expect(f"the message of {name}", ran(f"{examples}/{name}", "p U"), ("", "ltl2ba: formula: byte 3: expected operand\n", 3))


def main(words):
    if words[:1] in (["-h"], ["--help"]):
        print(__doc__)
        return 0
    tally = Tally()
    programs = words[0] if words else None
    with tempfile.TemporaryDirectory() as folder:
        if programs is None:
            programs = f"{folder}/programs"
            os.mkdir(programs)
            for it in (*PROGRAMS, DRAWER, READER, REDUCER):
                os.symlink(TOP / f"crates/{it}/out/{it}", f"{programs}/{it}")
        if not shutil.which(shlex.split(COMPILER)[0]):
            print(f"skipped: all of this, for want of a C compiler ({COMPILER})")
            print("0 passed, 0 failed")
            return 0
        archive = subprocess.run([TOP / "tools/c_archive"], capture_output=True, text=True, check=False)
        tally.expect("tools/c_archive", (archive.stderr, archive.returncode), ("", 0))
        driver, faults = driver_in(folder, "driver", archive.stdout.strip())
        tally.expect("the driver is compiled", faults, None)
        if not tally.failed:
            try_all(tally, folder, programs, driver, archive.stdout.strip())
    print(f"{tally.passed} passed, {tally.failed} failed")
    return 1 if tally.failed or not tally.passed else 0


def try_all(tally, folder, programs, driver, archive):
    try_exports(tally, archive)
    try_shared(tally)
    try_links(tally, folder, programs, archive)
    try_stored_runs(tally, driver, programs)
    try_random_formulas(tally, driver, programs)
    try_lengths(tally, driver)
    try_array_lengths(tally, driver)
    try_comparisons(tally, driver, programs)
    try_comparison_lengths(tally, driver)
    try_automata(tally, driver, programs)
    try_claims(tally, driver, programs)
    try_growths(tally, driver, FORMULAS)
    sanitized, faults = driver_in(folder, "sanitized", archive, *SANITIZERS)
    few = [request(kind, it.encode(), layout, 0, -1, second) for it in FORMULAS for kind, layout, second in (("t", 0, b""), ("t", 2, b""), ("n", 0, b""), ("a", 0, b""), ("a", 2, b""), ("e", 0, WORD), ("c", 0, b"HOA: v2"), ("m", 0, b"<>[]p"))]
    few += [request("k", it) for it in (b"never { do :: p od }", b"never { goto S }")]
    right = answers([driver], few)[0]
    if faults is None:
        tally.expect("with sanitizers", answers([sanitized], few), (right, 0, ""))
        try_growths(tally, sanitized, FORMULAS[:3])
    else:
        print(f"skipped: the driver with {SANITIZERS[0]}, which the compiler does not build")
    valgrind = ["valgrind", "--quiet", "--leak-check=full", "--errors-for-leak-kinds=all", "--error-exitcode=99"] if shutil.which("valgrind") else []
    if valgrind:
        tally.expect("under valgrind", answers([*valgrind, driver], few), (right, 0, ""))
    else:
        print("skipped: all under valgrind, which is not installed")
    missing = [it for it in ("make", "pkg-config", shlex.split(COMPILER_OF_CPP)[0]) if not shutil.which(it)]
    if missing:
        print(f"skipped: examples/c, for want of {', '.join(missing)}")
    else:
        try_examples(tally, folder, programs, valgrind)


if __name__ == "__main__":
    sys.exit(main(sys.argv[1:]))
