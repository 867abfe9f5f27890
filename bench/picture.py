#!/usr/bin/env python3
"""Draws how long ltl2ba takes on four families of growing formulas, and `spin -f` if that is installed.

Usage: bench/picture.py [-s SECONDS] [FILE]

FILE is bench/times.svg, if none is given. Each family has a panel. Its horizontal axis is the number of parts of the formula, and its vertical axis the
seconds of the whole process, with the output thrown away, the best of three; both axes are logarithmic. A line ends where a formula is too large, or takes
longer than SECONDS (10, if not given). Nothing checks the times: they depend on the machine."""
import math
import shutil
import subprocess
import sys
import threading
import time
from pathlib import Path

TOP = Path(__file__).resolve().parent.parent
LTL2BA = TOP / "crates/ltl2ba/out/ltl2ba"
# A panel in points, with room for what stands beside the axes, and the seconds at its foot and its head.
WIDE, HIGH, LEFT, ABOVE = 260, 200, 60, 40
LEAST, MOST = 1e-4, 10.0
COLOURS = "#1f4e9c", "#c04020"


def all_of(count, formula):
    return " && ".join("(" + formula.format(i, i + 1) + ")" for i in range(count))


FAMILIES = {
    "[]<>p0 && .. (fairness)": ("[]<>p{0}", range(1, 10)),
    "<>p0 && .. (eventually)": ("<>p{0}", range(1, 13)),
    "[](p0 -> <>q0) && .. (response)": ("[](p{0} -> <>q{0})", range(1, 8)),
    "[](p0 U p1) && .. (until chain)": ("[](p{0} U p{1})", range(1, 15)),
}


def seconds(words, most):
    """The best of three runs, or None if the program refuses the formula or takes too long."""
    best = math.inf
    for _ in range(3):
        began = time.monotonic()
        run = subprocess.Popen(words, stdout=subprocess.DEVNULL, stderr=subprocess.DEVNULL)
        # A wait with a time limit looks only now and then whether the program has ended.
        clock = threading.Timer(most, run.kill)
        clock.start()
        status = run.wait()
        took = time.monotonic() - began
        clock.cancel()
        if status:
            return None
        best = min(best, took)
    return best


def measured(program, formula, sizes, most):
    """Sizes and seconds, up to the first formula that the program doesn't translate in time."""
    points = []
    for size in sizes:
        took = seconds([*program, "-f", all_of(size, formula)], most)
        if took is None:
            break
        points.append((size, took))
    return points


def across(size, last):
    return WIDE * math.log(size) / math.log(last)


def up(took):
    return HIGH * (1 - math.log(min(MOST, max(LEAST, took)) / LEAST) / math.log(MOST / LEAST))


def text(x, y, words, anchor="middle"):
    words = words.replace("&", "&amp;").replace("<", "&lt;").replace(">", "&gt;")
    return f'<text x="{x:.1f}" y="{y:.1f}" text-anchor="{anchor}">{words}</text>'


def axes(title, last):
    """The frame of a panel, its title and the marks of its axes."""
    lines = [f'<rect width="{WIDE}" height="{HIGH}" fill="none" stroke="#888"/>', text(WIDE / 2, -10, title)]
    for power in range(-4, 2):
        y = up(10.0**power)
        lines.append(f'<line x2="{WIDE}" y1="{y:.1f}" y2="{y:.1f}" stroke="#ddd"/>')
        lines.append(text(-5, y + 4, f"{10.0 ** power:g} s", "end"))
    return lines + [text(across(size, last), HIGH + 15, str(size)) for size in (1, 2, 3, 5, 7, 9, 12) if size <= last]


def curve(points, last, colour):
    places = [(across(size, last), up(took)) for size, took in points]
    path = " ".join(f"{x:.1f},{y:.1f}" for x, y in places)
    dots = [f'<circle cx="{x:.1f}" cy="{y:.1f}" r="2.5" fill="{colour}"/>' for x, y in places]
    return [f'<polyline points="{path}" fill="none" stroke="{colour}"/>', *dots]


def picture(programs, most):
    """The four panels, two by two, and the names of the programs below."""
    lines = []
    for place, (title, (formula, sizes)) in enumerate(FAMILIES.items()):
        x, y = LEFT + place % 2 * (WIDE + LEFT + 10), ABOVE + place // 2 * (HIGH + ABOVE + 25)
        lines += [f'<g transform="translate({x},{y})">', *axes(title, sizes[-1])]
        for (_, program), colour in zip(programs, COLOURS):
            lines += curve(measured(program, formula, sizes, most), sizes[-1], colour)
        lines.append("</g>")
    wide, high = 2 * (WIDE + LEFT) + 30, 2 * (HIGH + ABOVE + 25) + 30
    for place, ((name, _), colour) in enumerate(zip(programs, COLOURS)):
        lines.append(f'<g fill="{colour}">{text(LEFT + 120 * place, high - 12, name, "start")}</g>')
    head = f'<svg xmlns="http://www.w3.org/2000/svg" viewBox="0 0 {wide} {high}" font-family="sans-serif" font-size="11">'
    return "\n".join([head, f'<rect width="{wide}" height="{high}" fill="white"/>', *lines, "</svg>", ""])


def main(words):
    most = MOST
    if words[:1] == ["-s"]:
        most, words = float(words[1]), words[2:]
    if not LTL2BA.exists():
        sys.exit("bench/picture.py: build ltl2ba first: ./build")
    programs = [("ltl2ba", [LTL2BA])]
    if shutil.which("spin"):
        programs.append(("spin -f", [shutil.which("spin")]))
    file = Path(words[0]) if words else TOP / "bench/times.svg"
    file.write_text(picture(programs, most), encoding="utf-8")


main(sys.argv[1:])
