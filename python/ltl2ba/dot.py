"""Graphs for Graphviz' `dot`. The library makes them, as `ltldraw` prints them; names that stand as other propositions are put back here."""

from __future__ import annotations

import re
import shutil
import subprocess
from typing import Optional

from ltl2ba import _calls, _texts
from ltl2ba._names import Names

_ARROW = re.compile(r'^(  \d+ -> \d+ \[label=")(.*)("\])$', re.M)
_SECONDS = 10


def _safe(text: str) -> str:
    """A name as a string of `dot` may have it."""
    found = "".join(" " if ord(it) < 32 or ord(it) == 127 else it for it in text)
    return found.replace("\\", "\\\\").replace('"', '\\"').replace("&", "&amp;")


def dot_of(hoa: str, names: Names) -> str:
    """The graph of an automaton of the library, with names. The formula, with names, is the first line of its title."""
    graph = _calls.dot(_calls.encoded(_texts.titled_hoa(hoa, names))).decode("utf-8")
    if names.is_plain:
        return graph

    def named(arrow: "re.Match[str]") -> str:
        lines = arrow[2].split("\\n")
        return arrow[1] + "\\n".join(_texts.with_names(it, names, _safe) for it in lines) + arrow[3]

    return _ARROW.sub(named, graph)


def svg_of(graph: str) -> Optional[str]:
    """The picture of a graph, or None if `dot` isn't installed or doesn't draw it in time."""
    program = shutil.which("dot")
    if program is None:
        return None
    try:
        drawn = subprocess.run([program, "-Tsvg"], input=graph.encode("utf-8"), capture_output=True, timeout=_SECONDS, check=True)
    except (OSError, subprocess.SubprocessError):
        return None
    shown = drawn.stdout.decode("utf-8", "replace")
    return shown[max(0, shown.find("<svg")) :]
