"""Timelines: a word as a table of characters, with a line for each proposition and each subformula. The lines are those of `ltldraw -t`.

>>> print(timeline("[](p -> <>q)", "{p}; {q}; cycle {p}; {}"))
             0 1 | 2 3
p            * . | * .
q            . * | . .
<>q          * * | . .
(p -> <>q)   * * | . *
[](p -> <>q) . . | . .

Each mark of a subformula is an answer of the proved part: whether it holds on the word from that position on. So a timeline takes as many calls as there are
marks. The table around them is made in Python: tested, and not proved."""

from __future__ import annotations

from typing import Iterator, List, NamedTuple, Optional, Tuple

from ltl2ba import _calls
from ltl2ba._names import Names, shown
from ltl2ba.formulas import Formula, FormulaLike
from ltl2ba.words import Word, WordLike


class Line(NamedTuple):
    """The label of a line, and its marks at the positions of the stem and of the cycle."""

    label: str
    marks: Tuple[bool, ...]


class Timeline:
    """A table of truth values. In a notebook it is shown as a table with colours."""

    def __init__(self, word: Word, lines: List[Line]) -> None:
        self.word, self.lines = word, lines

    def __str__(self) -> str:
        width = max((len(it.label) for it in self.lines), default=0)
        numbers = [str(it) for it in range(len(self.word.letters))]
        digits = len(numbers[-1])
        heads = ["".join(self._columns([it.rjust(digits)[row] for it in numbers])) for row in range(digits)]
        marks = ["".join(self._columns(["*" if it else "." for it in line.marks])) for line in self.lines]
        labels = [""] * digits + [it.label for it in self.lines]
        return "\n".join((label.ljust(width) + columns).rstrip() for label, columns in zip(labels, heads + marks))

    def _columns(self, signs: List[str]) -> Iterator[str]:
        for place, sign in enumerate(signs):
            yield f" | {sign}" if place == len(self.word.stem) else f" {sign}"

    def __repr__(self) -> str:
        return f"<Timeline of {self.word}: {len(self.lines)} lines>"

    def _repr_html_(self) -> str:
        from ltl2ba.tables import timeline_table

        return timeline_table(self)


def timeline(formula: Optional[FormulaLike], word: WordLike) -> Timeline:
    """The timeline of a word, and of the subformulas of a formula if there is one.

    >>> print(timeline(None, "{p}; cycle {}"))
      0 | 1
    p * | ."""
    it = Word.of(word)
    whole = Formula.of(formula) if formula is not None else None
    names = dict.fromkeys(whole.propositions if whole is not None else ())
    names.update(dict.fromkeys(it.propositions))
    Names(names)
    lines = [Line(shown(name), tuple(name in letter for letter in it.letters)) for name in names]
    if whole is not None:
        _calls.holds(whole.canonical.encode("ascii"), it.canonical.encode("ascii"))
        suffixes = [it.suffix(place).canonical.encode("ascii") for place in range(len(it.letters))]
        below = (part for part in whole.subformulas() if part.name is None)
        lines += [Line(str(part), tuple(_calls.holds(part.canonical.encode("ascii"), rest) for rest in suffixes)) for part in below]
    return Timeline(it, lines)
