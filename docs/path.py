#!/usr/bin/env python3
"""Draws docs/path.svg: what a formula becomes on its way to a claim, and what the other programs read and answer. Usage: docs/path.py [FILE].

A box has a heading, lines of text or a drawing, and the names of the crates that make its content. The picture has colours for light and for dark pages."""

import sys
from html import escape
from pathlib import Path

FILE = Path(__file__).resolve().parent / "path.svg"
WIDE, HIGH = 980, 300
STYLE = """
text { font: 12px sans-serif; fill: #24292f } .mono { font-family: monospace; font-size: 11px } .crate { font-size: 11px; fill: #57606a }
.head { font-weight: bold } .page { fill: #ffffff } .box { fill: #f6f8fa; stroke: #8c959f } .line { fill: none; stroke: #24292f } .tip { fill: #24292f }
@media (prefers-color-scheme: dark) { text { fill: #e6edf3 } .crate { fill: #9da7b3 } .page { fill: #0d1117 } .box { fill: #161b22; stroke: #6e7681 }
.line { stroke: #e6edf3 } .tip { fill: #e6edf3 } }
"""

# Each box: its width, heading, lines, crates. A line that is a tuple is a drawing of that name.
LTL2BA = [
    (100, "formula", ["[]<>p"], "ltl_syntax"),
    (110, "rows", ["F = <>p", "G = [] F", "literal p"], "ltl_formula"),
    (190, "alternating automaton", ["F: p now,", "   or F next", "G: one of these,", "   and G next"], "ltl_alt"),
    (150, "generalized Büchi", ("one",), "ltl_alt, ltl_passes"),
    (150, "Büchi", ("two",), "ltl_buchi, ltl_passes"),
    (130, "never claim", ["never {", "T0_init: ..", "accept_S1: ..", "}"], "ltl_text"),
]
LTLCHECK = [
    (110, "automaton", ["HOA: v1 ..", "from any tool"], "ltl_hoa"),
    (180, "product", ["with the automaton of", "the negated formula"], "ltl_check"),
    (180, "search", ["for a closed walk", "through every set"], "ltl_check"),
    (120, "verdict", ["contained, or", "violated by {p};", "cycle {}"], "ltl_word"),
]
LTLEVAL = [(120, "word", ["{p}; cycle {}", "and a formula"], "ltl_word"), (120, "truth", ["by the meaning", "of operators:", "true or false"], "ltl_word")]


def text(x, y, words, kind=""):
    return f'<text x="{x}" y="{y}" class="{kind}" xml:space="preserve">{escape(words)}</text>'


def loop(x, y, way):
    return f'<path class="line" d="M{x - 6},{y - 11 * way} C{x - 24},{y - 40 * way} {x + 24},{y - 40 * way} {x + 6},{y - 12 * way}" marker-end="url(#tip)"/>'


def state(x, y, name, accepts=False):
    ring = f'<circle class="line" cx="{x}" cy="{y}" r="9"/>' if accepts else ""
    return f'<circle class="line" cx="{x}" cy="{y}" r="12"/>{ring}<text x="{x}" y="{y + 4}" text-anchor="middle" class="mono">{name}</text>'


def one(x, y):
    """The generalized automaton of the formula: one state, and a set on the edge with p."""
    return [state(x + 70, y + 32, "0"), loop(x + 70, y + 32, 1), loop(x + 70, y + 32, -1), text(x + 92, y + 12, "true", "mono"), text(x + 92, y + 58, "p {0}", "mono")]


def two(x, y):
    """Its Büchi automaton: each state has both edges."""
    there = f'<path class="line" d="M{x + 46},{y + 26} Q{x + 74},{y + 14} {x + 101},{y + 26}" marker-end="url(#tip)"/>'
    back = f'<path class="line" d="M{x + 103},{y + 38} Q{x + 74},{y + 50} {x + 47},{y + 38}" marker-end="url(#tip)"/>'
    states = [state(x + 35, y + 32, "0"), state(x + 113, y + 32, "1", True), loop(x + 35, y + 32, 1), loop(x + 113, y + 32, 1)]
    return [*states, there, back, text(x + 46, y + 4, "true", "mono"), text(x + 71, y + 17, "p", "mono"), text(x + 128, y + 12, "p", "mono"), text(x + 60, y + 58, "true", "mono")]


DRAWINGS = {"one": one, "two": two}


def box(x, y, high, wide, heading, lines, crates):
    yield f'<rect class="box" x="{x}" y="{y}" width="{wide}" height="{high}" rx="5"/>'
    yield text(x + 8, y + 18, heading, "head")
    if isinstance(lines, tuple):
        yield from DRAWINGS[lines[0]](x, y + 30)
    else:
        yield from (text(x + 8, y + 36 + 15 * number, line, "mono") for number, line in enumerate(lines))
    yield text(x + 8, y + high - 8, crates, "crate")


def lane(x, y, high, tool, boxes):
    """A program's boxes from left to right, with an arrow from each to the next."""
    yield text(x, y - 8, tool, "head")
    for number, it in enumerate(boxes):
        if number:
            yield f'<path class="line" d="M{x - 19},{y + high / 2} L{x - 4},{y + high / 2}" marker-end="url(#tip)"/>'
        yield from box(x, y, high, *it)
        x += it[0] + 22


def main(words):
    parts = [
        f'<svg xmlns="http://www.w3.org/2000/svg" viewBox="0 0 {WIDE} {HIGH}" width="{WIDE}" height="{HIGH}"><style>{STYLE}</style>',
        '<defs><marker id="tip" viewBox="0 0 8 8" refX="7" refY="4" markerWidth="7" markerHeight="7" orient="auto"><path class="tip" d="M0,0 L8,4 L0,8 z"/></marker></defs>',
        f'<rect class="page" width="{WIDE}" height="{HIGH}" rx="8"/>',
        *lane(14, 32, 128, "ltl2ba: translate a formula", LTL2BA),
        *lane(14, 196, 92, "ltlcheck: check an automaton", LTLCHECK),
        *lane(704, 196, 92, "ltleval: evaluate a formula", LTLEVAL),
        "</svg>",
    ]
    (Path(words[0]) if words else FILE).write_text("\n".join(parts) + "\n", encoding="utf-8")


main(sys.argv[1:])
