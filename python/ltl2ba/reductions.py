"""Smaller automata that accept the same words.

>>> from ltl2ba import check, translate
>>> it = translate("<>(p && <>q)")
>>> it, it.reduced()
(<Automaton of <>(p && <>q): 5 states, 11 edges>, <Automaton of <>(p && <>q): 3 states, 6 edges>)
>>> check(it.reduced(), "<>(p && <>q)")
Contained()

The library reduces, as `ltlreduce` does: what is proved is that the same words are accepted, with no more states, edges and acceptance sets. The text that it
returns is read in Python."""

from __future__ import annotations

import re
from functools import cached_property
from typing import List, Tuple

from ltl2ba import _calls
from ltl2ba.automata import Automaton, Edge, Label

_EDGE = re.compile(r"\[(.*)\] (\d+)(?: \{(.*)\})?")


class Reduced(Automaton):
    """A reduced automaton. It accepts by sets of edges, and all its states are accepting."""

    def __init__(self, given: Automaton) -> None:
        """The reduction of an automaton. `reduced` makes it."""
        self._given, self.names = given, given.names
        self._head, _, body = _calls.reduced(given.own_hoa.encode("ascii")).decode("ascii").partition("--BODY--\n")
        self._body = body

    @property
    def is_generalized(self) -> bool:
        return True

    @cached_property
    def sets(self) -> int:
        found = re.search(r"^Acceptance: (\d+)", self._head, re.M)
        return int(found[1]) if found else 0

    @property
    def propositions(self) -> Tuple[str, ...]:  # type: ignore[override]
        return self._given.propositions

    @cached_property
    def own_hoa(self) -> str:
        # The reduction has no formula in its name; that of the given automaton is its own.
        first, _, rest = self._head.partition("\n")
        name = self._given.own_hoa.split("\n", 2)[1]
        return f"{first}\n{name}\n{rest}--BODY--\n{self._body}"

    @property
    def _edge_count(self) -> int:
        return self._body.count("[")

    @cached_property
    def _state_rows(self) -> List[Tuple[int, bool]]:
        rows, edges = [], 0
        for line in self._body.split("\n"):
            if line.startswith("State:"):
                rows.append((edges, True))
            edges += line.startswith("[")
        return rows

    @cached_property
    def _edges_by_state(self) -> List[Tuple[Edge, ...]]:
        found: List[List[Edge]] = []
        for line in self._body.split("\n"):
            if line.startswith("State:"):
                found.append([])
            elif line.startswith("["):
                found[-1].append(self._edge(len(found) - 1, line))
        return [tuple(it) for it in found]

    def _edge(self, source: int, line: str) -> Edge:
        """The edge of a line `[label] target {sets}`."""
        it = _EDGE.fullmatch(line)
        assert it is not None, line
        literals = [] if it[1] == "t" else [(int(one.lstrip("!")), one[0] != "!") for one in it[1].split("&")]
        label = Label(tuple((self.propositions[number], asked) for number, asked in literals))
        return Edge(source, label, int(it[2]), frozenset(map(int, (it[3] or "").split())))

    def to_claim(self) -> str:
        raise ValueError("a claim is that of a Büchi automaton; the program ltlreduce prints that of a reduced one, with -c")
