#!/usr/bin/env python3
"""Draws the automata of 200 random formulas with the built programs, and has `dot` of Graphviz read each picture, which has to be ASCII. It counts the states,
the arrows and their edges in the image, and compares them with the text of the automaton. It draws a run of each automaton on a random word: there has to be
one if and only if ltleval says that the formula holds, the red edges have to be those of an accepting run, and dot has to draw the same ones in red. It also draws the pictures of
docs/pictures anew, as docs/pictures.py does: each has to be there byte by byte, and a page has to show it. An image is compared if this `dot`, with its font,
is the one that made it.

Usage: tests/pictures.py [-p FOLDER]; the programs are those of the folder, or those that the gate built. What isn't compared, or isn't drawn without `dot`,
is reported in a line that begins with 'skipped: '. The last line is 'N passed, M failed'."""

import html
import os
import random
import re
import runpy
import shutil
import subprocess
import sys
import tempfile
from pathlib import Path

TOP = Path(__file__).resolve().parent.parent
KEPT = TOP / "docs/pictures"
COUNT, SEED, SECONDS = 200, 54, 60
ARROW = r'^  (\d+) -> (\d+) \[label=(?:"([^"]*)"|<(.*)>, color=red, penwidth=2)\]$'
RED = r'<font color="red">(.*?)</font>'


def formula(dice, depth):
    """A random formula."""
    if depth == 0 or dice.random() < 0.1:
        return dice.choice("pqr")
    sign = dice.choice(["!", "[]", "<>", "X ", "&&", "||", "->", "U", "V"])
    if sign in ("!", "[]", "<>", "X "):
        return f"{sign}({formula(dice, depth - 1)})"
    return f"({formula(dice, depth - 1)}) {sign} ({formula(dice, depth - 1)})"


def label_of(label, names):
    """A label of an automaton's text as it is drawn."""
    return "1" if label == "t" else " && ".join("!" * it.startswith("!") + names[int(it.lstrip("!"))] for it in label.split("&"))


def edges_of(text):
    """The numbers of states and of sets of an automaton that ltl2ba printed, and its edges: state, target, label and sets."""
    names = re.findall(r'"([^"]*)"', re.search(r"^AP:.*$", text, re.M)[0])
    count, sets, edges = int(re.search(r"^States: (\d+)$", text, re.M)[1]), int(re.search(r"^Acceptance: (\d+)", text, re.M)[1]), []
    for line in text.partition("--BODY--\n")[2].split("\n"):
        state = re.match(r"State: (\d+)( \{0\})?", line)
        edge = re.match(r"\[([^]]*)\] (\d+)(?: \{([0-9 ]*)\})?$", line)
        if state:
            here, own = state[1], "0" if state[2] else ""
        elif edge:
            edges.append((here, edge[2], label_of(edge[1], names), edge[3] or own))
    return count, sets, edges


def drawn(picture):
    """The same for an image that dot made, from its groups."""
    groups = re.findall(r'<g id="\w+" class="(\w+)">\s*<title>([^<]*)</title>(.*?)</g>', picture, re.S)
    states = {html.unescape(name): body for kind, name, body in groups if kind == "node" and name != "I"}
    edges = []
    for kind, name, body in groups:
        ends = html.unescape(name).split("->")
        if kind == "edge" and ends[0] != "I":
            lines = [html.unescape(it).replace("\xa0", " ").strip() for it in re.findall(r"<text[^>]*>([^<]*)</text>", body)]
            edges += [(*ends, it) for it in " ".join(lines).split(" || ")]
    starts = [html.unescape(name).split("->")[1] for kind, name, body in groups if kind == "edge" and name.startswith("I")]
    return states, edges, starts


def with_sets(edge):
    """An edge of an arrow as its label and its sets."""
    label, sets = re.fullmatch(r"(.*?)(?: \{([0-9 ]+)\})?", edge).groups()
    return label, sets or ""


def fault_of(words, programs):
    """The fault of the picture of the automaton that ltl2ba prints for these words."""
    text = subprocess.run([programs("ltl2ba"), *words], capture_output=True, text=True, timeout=SECONDS, check=True).stdout
    picture = subprocess.run([programs("ltldraw")], input=text, capture_output=True, text=True, timeout=SECONDS, check=True).stdout
    image = subprocess.run(["dot", "-Tsvg"], input=picture, capture_output=True, text=True, timeout=SECONDS, check=False)
    if image.returncode or image.stderr:
        return f"dot ends with {image.returncode}: {image.stderr[:200]}"
    if not picture.isascii():
        return "has a character that isn't ASCII"
    (count, sets, edges), (states, lines, starts) = edges_of(text), drawn(image.stdout)
    marks = {state: {it[3] for it in edges if it[0] == state} for state, *_ in edges}
    by_states = sets == 1 and all(len(it) == 1 for it in marks.values())
    accepting = {state for state, seen in marks.items() if by_states and seen == {"0"}}
    wanted = sorted((*it[:3], "" if by_states else it[3]) for it in edges)
    seen = sorted((source, target, *with_sets(edge)) for source, target, edge in lines)
    arrows = len(re.findall(r"^  \d+ -> ", picture, re.M))
    double = {name for name, body in states.items() if body.count("<ellipse") == 2}
    if sorted(states, key=int) != [str(k) for k in range(count)] or starts != ["0"]:
        return f"has the states {sorted(states)} and the start {starts}"
    if wanted != seen or arrows != len({it[:2] for it in edges}):
        return f"has the edges {seen} on {arrows} arrows, and not {wanted}"
    if double != accepting:
        return f"doubles {sorted(double)}, and not {sorted(accepting)}"
    return None


def letters_of(dice):
    """A random word: the letters of its stem and those of its cycle."""
    stem, cycle = ([{it for it in "pqr" if dice.random() < 0.5} for _ in range(count)] for count in (dice.randrange(4), dice.randrange(1, 4)))
    return stem, cycle


def word_of(stem, cycle):
    texts = [["{" + ",".join(sorted(letter)) + "}" for letter in letters] for letters in (stem, cycle)]
    return "".join(f"{it}; " for it in texts[0]) + "cycle " + "; ".join(texts[1])


def is_met(label, letter):
    return label == "1" or all((it.lstrip("!") in letter) != it.startswith("!") for it in label.split(" && "))


def reached(steps, start):
    """What steps lead to, from one or more of them on."""
    seen, left = set(), [start]
    while left:
        for target, _ in steps.get(left.pop(), []):
            if target not in seen:
                seen.add(target)
                left.append(target)
    return seen


def judged(edges, sets, stem, cycle):
    """Whether an accepting run on the word takes these edges alone, and which of them runs of them can take at all."""
    letters, steps = stem + cycle, {}
    for k, letter in enumerate(letters):
        behind = k + 1 if k + 1 < len(letters) else len(stem)
        for edge in edges:
            if is_met(edge[2], letter):
                steps.setdefault((edge[0], k), []).append(((edge[1], behind), edge))
    there = {("0", 0)} | reached(steps, ("0", 0))
    taken = {edge for place in there for _, edge in steps.get(place, [])}
    ahead = {place: reached(steps, place) for place in there}
    for place in there:
        round_ = {it for it in ahead[place] if place in ahead[it]}
        marks = {mark for it in round_ for target, edge in steps[it] if target in round_ for mark in edge[3].split()}
        if round_ and len(marks) == sets:
            return True, taken
    return False, taken


def run_edges(picture):
    """The edges of a picture's arrows, each with its source, its target, its label, its sets, and whether it is in red."""
    for source, target, plain, parts in re.findall(ARROW, picture, re.M):
        for edge in plain.replace("\\n", " ").split(" || ") if plain else parts.replace("<br/>", " ").split(" || "):
            red = re.fullmatch(RED, edge)
            yield source, target, *with_sets(html.unescape(red[1]) if red else html.unescape(edge) if parts else edge), bool(red)


def red_fault(picture):
    """What is wrong with the image that dot makes of a picture with a run: the texts in red have to be those of the edges in red."""
    image = subprocess.run(["dot", "-Tsvg"], input=picture, capture_output=True, text=True, timeout=SECONDS, check=False)
    if image.returncode or image.stderr:
        return f"dot ends with {image.returncode}: {image.stderr[:200]}"
    seen = sorted(html.unescape(it).replace("\xa0", " ") for it in re.findall(r'<text[^>]* fill="red"[^>]*>([^<]*)</text>', image.stdout))
    wanted = sorted(html.unescape(it) for it in re.findall(RED, picture))
    return None if seen == wanted else f"has {seen} in red, and not {wanted}"


def run_fault(words, programs, dice, can_draw):
    """What is wrong with the picture of the same automaton with a run on a random word."""
    stem, cycle = letters_of(dice)
    word = word_of(stem, cycle)
    text = subprocess.run([programs("ltl2ba"), *words], capture_output=True, text=True, timeout=SECONDS, check=True).stdout
    picture = subprocess.run([programs("ltldraw"), "-w", word], input=text, capture_output=True, text=True, timeout=SECONDS, check=True).stdout
    holds = subprocess.run([programs("ltleval"), *words[1:], "-w", word], capture_output=True, timeout=SECONDS, check=False).returncode == 0
    _, sets, edges = edges_of(text)
    marks = {state: {it[3] for it in edges if it[0] == state} for state, *_ in edges}
    by_states = sets == 1 and all(len(it) == 1 for it in marks.values())
    lines = list(run_edges(picture))
    if len(re.findall(ARROW, picture, re.M)) != len({it[:2] for it in edges}):
        return f"on {word} hasn't one arrow for each two states"
    if sorted(it[:4] for it in lines) != sorted((*it[:3], "" if by_states else it[3]) for it in edges):
        return f"on {word} has other edges with a run than without"
    own = [it for it in edges if (*it[:3], "" if by_states else it[3], True) in lines]
    states = set(re.findall(r"^  (\d+) \[(?:peripheries=2, )?color=red, penwidth=2\]$", picture, re.M))
    if bool(own) != holds or ("no run on this word is accepting" in picture) == holds or judged(edges, sets, stem, cycle)[0] != holds:
        return f"on {word}: the formula {'holds' if holds else 'fails'}, and the run has {len(own)} edges"
    if own and judged(own, sets, stem, cycle) != (True, set(own)):
        return f"on {word}: {own} are not the edges of an accepting run"
    if states != {it[0] for it in own}:
        return f"on {word}: the states {sorted(states)} are in red"
    return red_fault(picture) if can_draw else None


def last_line(image):
    """The version of dot and the font that an image names."""
    return image.read_text(encoding="utf-8").rstrip("\n").rpartition("\n")[2].removeprefix("<!-- ").removesuffix(" -->")


def compared(programs):
    """For each picture of the pages: its name, its fault, and why it isn't compared."""
    drawing = runpy.run_path(str(TOP / "docs/pictures.py"))
    pages = {link for page in (TOP / "README.md", *TOP.glob("docs/**/*.md")) for link in re.findall(r"pictures/(\w+\.svg)\)", page.read_text(encoding="utf-8"))}
    wanted = {f"{name}.{kind}" for name, _, _ in drawing["TABLE"] for kind in ("dot", "svg")}
    with tempfile.TemporaryDirectory() as folder:
        drawing["draw"](Path(folder), lambda name: Path(programs(name)))
        for name in sorted(wanted | {it.name for it in KEPT.iterdir()}):
            made, kept = Path(folder, name), KEPT / name
            if name not in wanted:
                yield name, "is drawn by no line of docs/pictures.py", None
            elif not kept.exists():
                yield name, "isn't there", None
            elif name.endswith(".svg") and name not in pages:
                yield name, "is shown by no page", None
            elif not made.exists():
                yield name, None, "for want of Graphviz' dot"
            elif name.endswith(".svg") and last_line(made) != last_line(kept):
                yield name, None, f"since {last_line(kept)} made it, and here is {last_line(made)}"
            else:
                yield name, None if made.read_bytes() == kept.read_bytes() else "isn't what docs/pictures.py draws", None


def main(words):
    if words[:1] in (["-h"], ["--help"]):
        print(__doc__)
        return 0
    folder = os.path.abspath(words[1]) if words[:1] == ["-p"] else None

    def programs(name):
        return f"{folder}/{name}" if folder else str(TOP / f"crates/{name}/out/{name}")

    passed = failed = 0
    for name, fault, reason in compared(programs):
        passed, failed = passed + (not fault and not reason), failed + bool(fault)
        if fault or reason:
            print(f"docs/pictures/{name} {fault}" if fault else f"skipped: docs/pictures/{name}, {reason}")
    dice, can_draw = random.Random(SEED), shutil.which("dot")
    if not can_draw:
        print("skipped: pictures of random formulas, for want of Graphviz' dot")
    for k in range(COUNT):
        tried = ["-G" if k % 2 else "-H", "-f", formula(dice, 3)]
        faults = ([fault_of(tried, programs)] if can_draw else []) + [run_fault(tried, programs, dice, can_draw)]
        for fault in faults:
            passed, failed = passed + (not fault), failed + bool(fault)
            if fault:
                print(f"{tried}: {fault}")
    print(f"{passed} passed, {failed} failed")
    return 1 if failed else 0


if __name__ == "__main__":
    sys.exit(main(sys.argv[1:]))
