"""Tables that a notebook shows. All texts are escaped."""

from __future__ import annotations

from html import escape
from typing import TYPE_CHECKING, List

if TYPE_CHECKING:
    from ltl2ba.automata import Automaton
    from ltl2ba.timelines import Timeline
    from ltl2ba.words import Word

_ROWS = 200
_TRUE, _FALSE, _BAR = "background:#2da44e;color:#fff", "color:#8c959f", "border-left:3px solid #57606a"


def _row(cells: List[str], kind: str = "td") -> str:
    return "<tr>" + "".join(f"<{kind}>{it}</{kind}>" for it in cells) + "</tr>"


def automaton_table(it: Automaton) -> str:
    """The edges of an automaton, as far as they are readable."""
    rows = []
    for edge in it.edges[:_ROWS]:
        state = f"<b>{edge.source}</b> (accepting)" if not it.is_generalized and edge.source in it.accepting else str(edge.source)
        rows.append(_row([state, escape(str(edge.label)), str(edge.target), *([" ".join(map(str, sorted(edge.sets)))] if it.is_generalized else [])]))
    more = len(it.edges) - len(rows)
    heads = ["state", "label", "to", *(["sets"] if it.is_generalized else [])]
    about = f"<caption>{escape(it.formula)}: {len(it.states)} states, {len(it.edges)} edges{f', {more} of them not shown' if more else ''}</caption>"
    return f"<table>{about}{_row(heads, 'th')}{''.join(rows)}</table>"


def timeline_table(it: Timeline) -> str:
    """A timeline with a column for each position, and a bar before the cycle."""
    begin = len(it.word.stem)

    def cell(place: int, text: str, style: str, kind: str = "td") -> str:
        return f'<{kind} style="text-align:center;{style};{_BAR if place == begin else ""}">{text}</{kind}>'

    heads = "".join(cell(place, str(place), "", "th") for place in range(len(it.word.letters)))
    rows = []
    for line in it.lines:
        marks = "".join(cell(place, "*" if mark else ".", _TRUE if mark else _FALSE) for place, mark in enumerate(line.marks))
        rows.append(f'<tr><td style="text-align:left"><code>{escape(line.label)}</code></td>{marks}</tr>')
    return f"<table><tr><th></th>{heads}</tr>{''.join(rows)}</table>"


def word_table(it: Word) -> str:
    """A word as the timeline of its propositions."""
    from ltl2ba.timelines import timeline

    return timeline_table(timeline(None, it)) if it.propositions else f"<code>{escape(str(it))}</code>"
