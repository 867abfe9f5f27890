"""Formulas as objects: operators of Python, the operators that the library has, and a few more that are written with these.

>>> from ltl2ba import F, G, U, W, X, propositions
>>> req, grant, busy = propositions("req", "grant", "bus.busy")
>>> print(G(req >> F(grant)))
[](req -> <>grant)
>>> print(~req & X(grant) | busy ^ req)
((!req && X grant) || ("bus.busy" ^ req))

`Formula.canonical` is what the proved part is given, with all brackets:

>>> W(req, busy).canonical
'(quoted_bus_2e_busy V (req || quoted_bus_2e_busy))'

`~`, `&`, `|`, `^` and `>>` are not, and, or, exclusive or, and implies. Python binds `>>` tighter than `&`, and `&` tighter than `^` and `|`, so an implication
needs brackets around its operands. `==` compares formulas as they are written, not what they mean (for that there is `equivalent`)."""

from __future__ import annotations

from typing import Dict, Iterator, List, Optional, Tuple, Union

from ltl2ba import _calls
from ltl2ba._names import checked, proposition, shown
from ltl2ba.errors import TooLarge

# The bytes that a formula may have.
LIMIT = 65536
UNARY = {"!": "!", "[]": "[]", "<>": "<>", "X": "X "}
# Weak until, strong release and exclusive or are written with other operators.
BINARY = "U", "V", "&&", "||", "->", "<->", "W", "M", "^"
CONSTANTS = "true", "false"

FormulaLike = Union["Formula", str, bytes, bool]


def _length(operator: str, operands: Tuple[Formula, ...]) -> int:
    """The number of bytes of the canonical text of an operator and its operands."""
    if operator in UNARY:
        return len(UNARY[operator]) + operands[0].length
    left, right = operands[0].length, operands[1].length
    if operator in ("W", "M"):
        return left + 2 * right + 11
    if operator == "^":
        return left + right + 8
    return left + right + len(operator) + 4


class Formula:
    """A formula, which never changes: an operator with operands, a constant, or a proposition with a name.

    >>> f = Formula.parse("p U q")
    >>> f.operator, [str(it) for it in f.operands]
    ('U', ['p', 'q'])
    >>> f == Formula.parse("(p) U (q)"), f == "p U q"
    (True, False)"""

    __slots__ = ("operator", "operands", "name", "length", "_hash", "_canonical")

    operator: str
    operands: Tuple[Formula, ...]
    name: Optional[str]
    length: int
    _hash: int

    def __init__(self, operator: str, operands: Tuple[Formula, ...] = (), name: Optional[str] = None) -> None:
        wanted = 1 if operator in UNARY else 2 if operator in BINARY else 0
        if len(operands) != wanted or (operator == "name") != (name is not None) or not (wanted or operator in ("name", *CONSTANTS)):
            raise ValueError(f"{operator!r} with {len(operands)} operands is no formula")
        self.operator, self.operands, self.name = operator, operands, name
        self.length = _length(operator, operands) if wanted else len(proposition(checked(name)) if name is not None else operator)
        self._hash = hash((operator, name, *(it._hash for it in operands)))
        self._canonical: Optional[str] = None

    @staticmethod
    def parse(text: str, dialect: str = "ltl2ba") -> Formula:
        """Reads a formula as `ltl2ba`, `spot` or `spin` reads it: see `ltl2ba.dialects`.

        >>> print(Formula.parse("a U b U c")), print(Formula.parse("a U b U c", dialect="spot"))
        ((a U b) U c)
        (a U (b U c))
        (None, None)"""
        from ltl2ba.dialects import parse

        return parse(text, dialect)

    @staticmethod
    def of(given: FormulaLike) -> Formula:
        """The formula itself, or that of a text or of a truth value.

        >>> print(Formula.of("p") & True, Formula.of(b"p"))
        (p && true) p"""
        if isinstance(given, Formula):
            return given
        if isinstance(given, bool):
            return Formula("true" if given else "false")
        return Formula.parse(_calls.decoded(given))

    @property
    def canonical(self) -> str:
        """The text that the library is given, with all brackets. It has the library's operators and propositions alone.

        >>> Formula.parse('a M !"Req"', dialect="spot").canonical
        '(!quoted__52_eq U (a && !quoted__52_eq))'"""
        if self._canonical is None:
            if self.length > LIMIT:
                raise TooLarge(f"limit: formula longer than {LIMIT} bytes")
            self._canonical = "".join(_pieces(self, is_canonical=True))
        return self._canonical

    @property
    def propositions(self) -> Tuple[str, ...]:
        """The names of the propositions, by first occurrence.

        >>> Formula.parse("q U p || q").propositions
        ('q', 'p')"""
        return tuple(dict.fromkeys(it.name for it in self.subformulas() if it.name is not None))

    def subformulas(self) -> Iterator[Formula]:
        """Each different subformula once, operands before their operator, the left one first.

        >>> print(*Formula.parse("p -> <>(q && p)").subformulas(), sep="   ")
        p   q   (q && p)   <>(q && p)   (p -> <>(q && p))"""
        found: Dict[Formula, None] = {}
        left: List[Tuple[Formula, bool]] = [(self, False)]
        while left:
            it, is_done = left.pop()
            if it in found:
                continue
            if is_done or not it.operands:
                found[it] = None
                yield it
            else:
                left.append((it, True))
                left.extend((below, False) for below in reversed(it.operands))

    def __str__(self) -> str:
        return "".join(_pieces(self, is_canonical=False)) if self.length <= LIMIT else f"<formula of {self.length} bytes>"

    def __repr__(self) -> str:
        return f"<Formula {self}>"

    def __hash__(self) -> int:
        return self._hash

    def __eq__(self, other: object) -> bool:
        if not isinstance(other, Formula):
            return NotImplemented
        left, seen = [(self, other)], set()
        while left:
            pair = left.pop()
            one, two = pair
            if one is two or (id(one), id(two)) in seen:
                continue
            if (one._hash, one.operator, one.name, one.length) != (two._hash, two.operator, two.name, two.length):
                return False
            seen.add((id(one), id(two)))
            left.extend(zip(one.operands, two.operands))
        return True

    def __reduce__(self) -> Tuple[object, ...]:
        from ltl2ba.dialects import parse

        if self.length > LIMIT:
            raise TooLarge(f"limit: formula longer than {LIMIT} bytes")
        return parse, (str(self), "spot")

    def __bool__(self) -> bool:
        raise TypeError("a formula is neither true nor false; is_valid, equivalent and holds answer questions, and & | ~ join formulas")

    def __invert__(self) -> Formula:
        return Formula("!", (self,))

    def __and__(self, other: FormulaLike) -> Formula:
        return Formula("&&", (self, Formula.of(other)))

    def __rand__(self, other: FormulaLike) -> Formula:
        return Formula("&&", (Formula.of(other), self))

    def __or__(self, other: FormulaLike) -> Formula:
        return Formula("||", (self, Formula.of(other)))

    def __ror__(self, other: FormulaLike) -> Formula:
        return Formula("||", (Formula.of(other), self))

    def __xor__(self, other: FormulaLike) -> Formula:
        return Formula("^", (self, Formula.of(other)))

    def __rxor__(self, other: FormulaLike) -> Formula:
        return Formula("^", (Formula.of(other), self))

    def __rshift__(self, other: FormulaLike) -> Formula:
        return Formula("->", (self, Formula.of(other)))

    def __rrshift__(self, other: FormulaLike) -> Formula:
        return Formula("->", (Formula.of(other), self))


def _parts(it: Formula, is_canonical: bool) -> Tuple[Union[str, Formula], ...]:
    """The text of a formula, in which operands stand for their texts."""
    if it.name is not None:
        return (proposition(it.name) if is_canonical else shown(it.name),)
    if not it.operands:
        return (it.operator,)
    if it.operator in UNARY:
        return UNARY[it.operator], it.operands[0]
    left, right = it.operands
    if is_canonical and it.operator == "W":
        return "(", right, " V (", left, " || ", right, "))"
    if is_canonical and it.operator == "M":
        return "(", right, " U (", left, " && ", right, "))"
    if is_canonical and it.operator == "^":
        return "!(", left, " <-> ", right, ")"
    return "(", left, f" {it.operator} ", right, ")"


def _pieces(formula: Formula, is_canonical: bool) -> Iterator[str]:
    left: List[Union[str, Formula]] = [formula]
    while left:
        it = left.pop()
        if isinstance(it, str):
            yield it
        else:
            left.extend(reversed(_parts(it, is_canonical)))
