"""Automata of formulas.

>>> it = translate("[](p -> <>q)")
>>> it
<Automaton of [](p -> <>q): 3 states, 8 edges>
>>> it.initial, sorted(it.accepting), it.propositions, it.sets
(0, [2], ('p', 'q'), 0)
>>> print(*it.edges_of(0), sep="\\n")
0 -> 1 if true
0 -> 2 if !p
0 -> 2 if q

What the proved part makes are the texts of `to_hoa` and `to_claim`, the rows of states and edges, and the text of a reduced automaton. All else is made of
these in Python."""

from __future__ import annotations

from functools import cached_property
from typing import TYPE_CHECKING, Dict, FrozenSet, Iterable, List, NamedTuple, Optional, Tuple

from ltl2ba import _calls, _texts
from ltl2ba import _abi as abi
from ltl2ba._names import Names, shown
from ltl2ba.formulas import Formula, FormulaLike

if TYPE_CHECKING:
    import networkx  # type: ignore[import]


class Label(NamedTuple):
    """The label of an edge: its literals, each a name and whether the proposition is asked to be true, by the numbers of the propositions.

    >>> label = Label((("p", True), ("q", False)))
    >>> print(label), label({"p"}), label({"p", "q"})
    p && !q
    (None, True, False)
    >>> print(Label(()))
    true"""

    literals: Tuple[Tuple[str, bool], ...]

    def __call__(self, letter: Iterable[str]) -> bool:
        """Whether a letter satisfies the label."""
        names = frozenset(letter)
        return all((name in names) == asked for name, asked in self.literals)

    def __str__(self) -> str:
        return " && ".join(("" if asked else "!") + shown(name) for name, asked in self.literals) or "true"


class Edge(NamedTuple):
    """An edge. It may be taken at a position of a word if the letter there satisfies the label. A Büchi automaton has no sets of edges."""

    source: int
    label: Label
    target: int
    sets: FrozenSet[int]

    def __str__(self) -> str:
        sets = f" {{{' '.join(map(str, sorted(self.sets)))}}}" if self.sets else ""
        return f"{self.source} -> {self.target} if {self.label}{sets}"


class Automaton:
    """The automaton of a formula. It accepts the words that satisfy the formula: those with an infinite path from the initial state whose labels the letters
    satisfy. The path has to visit accepting states infinitely often, and to take edges of each acceptance set infinitely often.

    Automata are equal if their texts are."""

    def __init__(self, formula: bytes, names: Names, options: abi.Options) -> None:
        """The automaton of a text that the library reads. `translate` makes it."""
        self._formula, self.names, self._options = formula, names, options
        self._arrays = _calls.automaton(formula, options)

    @cached_property
    def formula(self) -> str:
        """The formula, with all brackets and with the names as they were given.

        >>> translate("p U q || []r").formula
        '((p U q) || []r)'"""
        return _texts.formula_of(self.own_hoa, self.names)

    @property
    def is_generalized(self) -> bool:
        """Whether it accepts by sets of edges."""
        return bool(self._options.layout == abi.GENERALIZED)

    @property
    def initial(self) -> int:
        """The number of the initial state, which is 0."""
        return 0

    @property
    def sets(self) -> int:
        """The number of acceptance sets, 0 for a Büchi automaton.

        >>> translate("[]<>p && []<>q", generalized=True).sets
        2"""
        return self._arrays.sets

    @cached_property
    def propositions(self) -> Tuple[str, ...]:
        """The names of the formula's propositions, by first occurrence in the text that the library was given."""
        rows = ((self._formula[first : first + length].decode("ascii")) for first, length in self._arrays.name_rows())
        return tuple(map(self.names.name, rows))

    @cached_property
    def states(self) -> range:
        """The numbers of the states."""
        return range(len(self._state_rows))

    @cached_property
    def accepting(self) -> FrozenSet[int]:
        """The accepting states. In a generalized automaton these are all."""
        return frozenset(number for number, (_, is_accepting) in enumerate(self._state_rows) if is_accepting)

    @cached_property
    def edges(self) -> Tuple[Edge, ...]:
        """The edges of all states, in the order of their sources."""
        return tuple(edge for state in self.states for edge in self.edges_of(state))

    def edges_of(self, state: int) -> Tuple[Edge, ...]:
        """The edges that leave a state, in the order of the text."""
        return self._edges_by_state[state]

    @cached_property
    def _state_rows(self) -> List[Tuple[int, bool]]:
        return self._arrays.state_rows()

    @cached_property
    def _edges_by_state(self) -> List[Tuple[Edge, ...]]:
        rows, labels = self._arrays.edge_rows(), _Labels(self.propositions)
        firsts = [first for first, _ in self._state_rows] + [len(rows)]
        found = []
        for state in self.states:
            edges = []
            for it in rows[firsts[state] : firsts[state + 1]]:
                label, sets = labels.of(it[:12])
                edges.append(Edge(state, label, it[12], sets))
            found.append(tuple(edges))
        return found

    @cached_property
    def own_hoa(self) -> str:
        """The text in HOA format that the library makes, with propositions of the library."""
        layout = abi.GENERALIZED if self.is_generalized else abi.HOA
        return _calls.text(self._formula, _with_layout(self._options, layout)).decode("ascii")

    def reduced(self) -> "Automaton":
        """A smaller automaton that accepts the same words, as `ltlreduce` prints it: with acceptance sets of edges, and no more states, edges and sets.

        >>> it = translate("<>(p && <>q)")
        >>> it, it.reduced()
        (<Automaton of <>(p && <>q): 5 states, 11 edges>, <Automaton of <>(p && <>q): 3 states, 6 edges>)"""
        from ltl2ba.reductions import Reduced

        return Reduced(self)

    def to_hoa(self) -> str:
        """The text in the Hanoi Omega-Automata format, as `ltl2ba -H` or `-G` prints it.

        >>> print(translate("[]p").to_hoa(), end="")
        HOA: v1
        name: "[]p"
        States: 1
        Start: 0
        AP: 1 "p"
        acc-name: Buchi
        Acceptance: 1 Inf(0)
        properties: trans-labels explicit-labels state-acc
        --BODY--
        State: 0 {0}
        [0] 0
        --END--"""
        return _texts.named_hoa(self.own_hoa, self.names)

    def to_claim(self) -> str:
        """The never claim that `ltl2ba` prints. A name that isn't an identifier is an expression in brackets.

        >>> print(translate("[]p").to_claim().expandtabs(4), end="")
        never { /* []p */
        accept_init:
            if
            :: (p) -> goto accept_init
            fi;
        }"""
        if self.is_generalized:
            raise ValueError("a claim is that of a Büchi automaton; translate without generalized")
        return _texts.named_claim(_calls.text(self._formula, _with_layout(self._options, abi.CLAIM)).decode("ascii"), self.names)

    def to_dot(self) -> str:
        """The graph for Graphviz' `dot`, as `ltldraw` prints it. The library makes it; names that stand as other propositions are put back in Python. An automaton
        with more than 32 acceptance sets is refused with `HoaError`, as by `ltldraw`.

        >>> print(translate("[]p").to_dot(), end="")
        digraph automaton {
          rankdir=LR
          labelloc=t
          label="[]p\\nB&uuml;chi"
          node [shape=circle]
          I [label="", style=invis, width=0]
          I -> 0
          0 [peripheries=2]
          0 -> 0 [label="p"]
        }"""
        from ltl2ba.dot import dot_of

        return dot_of(self.own_hoa, self.names)

    def to_svg(self) -> Optional[str]:
        """The picture that `dot` draws of `to_dot`, or None if `dot` isn't installed or doesn't draw it within ten seconds."""
        from ltl2ba.dot import svg_of

        return svg_of(self.to_dot())

    def to_networkx(self) -> "networkx.MultiDiGraph":
        """The graph of networkx, if that is installed: states have `accepting` and `initial`, edges have `label` and `sets`."""
        import networkx

        graph: "networkx.MultiDiGraph" = networkx.MultiDiGraph(name=self.formula)
        for state in self.states:
            graph.add_node(state, accepting=state in self.accepting, initial=state == self.initial)
        for edge in self.edges:
            graph.add_edge(edge.source, edge.target, label=edge.label, sets=edge.sets)
        return graph

    def _repr_svg_(self) -> Optional[str]:
        return self._shown_svg

    def _repr_html_(self) -> Optional[str]:
        """The table of the edges, if there is no picture."""
        from ltl2ba.tables import automaton_table

        return None if self._shown_svg else automaton_table(self)

    @cached_property
    def _shown_svg(self) -> Optional[str]:
        """The picture in a notebook. That of a large automaton could not be read, and takes long; one with more sets than the library reads has none."""
        return self.to_svg() if len(self.edges) <= 200 and self.sets <= 32 else None

    @property
    def _edge_count(self) -> int:
        return len(self._arrays.edges) // abi.EDGE_SIZE

    def __repr__(self) -> str:
        return f"<Automaton of {self.formula}: {len(self.states)} states, {self._edge_count} edges>"

    def __eq__(self, other: object) -> bool:
        if not isinstance(other, Automaton):
            return NotImplemented
        return self.to_hoa() == other.to_hoa()

    def __hash__(self) -> int:
        return hash(self.to_hoa())


class _Labels:
    """The labels and the sets of an automaton's edges, each made once."""

    def __init__(self, names: Tuple[str, ...]) -> None:
        self._names = names
        self._made: Dict[Tuple[int, ...], Tuple[Label, FrozenSet[int]]] = {}

    def of(self, words: Tuple[int, ...]) -> Tuple[Label, FrozenSet[int]]:
        """The label and the sets that twelve words of 64 bits have."""
        if words not in self._made:
            literals = [(it, True) for it in _members(words[:4])] + [(it, False) for it in _members(words[4:8])]
            label = Label(tuple((self._names[it], asked) for it, asked in sorted(literals)))
            self._made[words] = label, frozenset(_members(words[8:]))
        return self._made[words]


def _members(words: Tuple[int, ...]) -> List[int]:
    """The numbers in a set of four words of 64 bits."""
    found = []
    for place, word in enumerate(words):
        while word:
            found.append(64 * place + (word & -word).bit_length() - 1)
            word &= word - 1
    return found


def _with_layout(options: abi.Options, layout: int) -> abi.Options:
    return abi.Options(options.no_rewrite, options.keep_implied, options.keep_equal, layout)


def given(formula: FormulaLike) -> Tuple[bytes, Names]:
    """The text that the library is given for a formula, and the names of its propositions. A text is given as it is."""
    if isinstance(formula, (str, bytes)):
        return _calls.encoded(formula), Names()
    it = Formula.of(formula)
    return it.canonical.encode("ascii"), Names(it.propositions)


def translate(
    formula: FormulaLike, *, rewrite: bool = True, keep_implied: bool = False, keep_equal: bool = False, generalized: bool = False
) -> Automaton:
    """The automaton of a formula: a Büchi automaton, or a generalized one with acceptance sets of edges.

    Without `rewrite` the normal form of the formula isn't rewritten (`-l`). With `keep_implied`, edges that another one implies are kept (`-o`), and with
    `keep_equal`, states with the same edges as another one (`-p`).

    >>> translate("[]<>p && []<>q"), translate("[]<>p && []<>q", generalized=True)
    (<Automaton of ([]<>p && []<>q): 3 states, 8 edges>, <Automaton of ([]<>p && []<>q): 1 states, 4 edges>)"""
    text, names = given(formula)
    layout = abi.GENERALIZED if generalized else abi.HOA
    return Automaton(text, names, abi.Options(not rewrite, keep_implied, keep_equal, layout))
