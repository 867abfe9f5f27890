"""The operators as functions, with the names that the field has for them. Operands are formulas, or texts that `ltl2ba` reads.

>>> print(G("p -> <>q"))
[](p -> <>q)
>>> print(U("p", X[2]("q")))
(p U X X q)"""

from __future__ import annotations

from typing import Callable, Optional, Tuple

from ltl2ba._names import checked
from ltl2ba.errors import TooLarge
from ltl2ba.formulas import LIMIT, Formula, FormulaLike

true, false = Formula("true"), Formula("false")


def proposition(name: str) -> Formula:
    """The proposition with a name, which may be any text on one line without a quotation mark.

    >>> print(proposition("req"), proposition("x > 0"))
    req "x > 0\""""
    return Formula("name", name=checked(name))


def propositions(*names: str) -> Tuple[Formula, ...]:
    """The propositions with these names.

    >>> p, q = propositions("p", "q")
    >>> print(p & q)
    (p && q)"""
    return tuple(proposition(it) for it in names)


def steps(formula: Formula, count: int) -> Formula:
    """The formula, so many positions later."""
    if count < 0:
        raise ValueError(f"{count} is no number of positions")
    if formula.length + 2 * count > LIMIT:
        raise TooLarge(f"limit: formula longer than {LIMIT} bytes")
    for _ in range(count):
        formula = Formula("X", (formula,))
    return formula


def within(formula: Formula, first: int, last: Optional[int], operator: str) -> Formula:
    """`<>` or `[]` for the positions from the first to the last one, or without end."""
    if last is None:
        return steps(Formula(operator, (formula,)), first)
    if not 0 <= first <= last:
        raise ValueError(f"from {first} to {last} there is no position")
    if (formula.length + 8) * (last - first) + 2 * last > LIMIT:
        raise TooLarge(f"limit: formula longer than {LIMIT} bytes")
    found = formula
    for _ in range(last - first):
        found = Formula("||" if operator == "<>" else "&&", (formula, Formula("X", (found,))))
    return steps(found, first)


class Next:
    """`X`, which may be asked for more positions than one: `X[3]`.

    >>> print(X("p"), X[3]("p"))
    X p X X X p"""

    def __call__(self, operand: FormulaLike) -> Formula:
        return Formula("X", (Formula.of(operand),))

    def __getitem__(self, count: int) -> Callable[[FormulaLike], Formula]:
        return lambda operand: steps(Formula.of(operand), count)


class Bounded:
    """`[]` or `<>`, which may be asked for some positions alone: `F[0:2]` is "now, or one or two positions later", and `F[2:]` from the second one on.

    >>> print(F("p"), F[0:2]("p"), F[2:]("p"), sep="   ")
    <>p   (p || X (p || X p))   X X <>p
    >>> print(G[1:2]("p"))
    X (p && X p)"""

    def __init__(self, operator: str) -> None:
        self._operator = operator

    def __call__(self, operand: FormulaLike) -> Formula:
        return Formula(self._operator, (Formula.of(operand),))

    def __getitem__(self, positions: slice) -> Callable[[FormulaLike], Formula]:
        if not isinstance(positions, slice) or positions.step is not None:
            raise TypeError("the positions are a first and a last one, as in F[0:5]")
        first, last = positions.start or 0, positions.stop
        return lambda operand: within(Formula.of(operand), first, last, self._operator)


X, F, G = Next(), Bounded("<>"), Bounded("[]")


def _binary(operator: str, left: FormulaLike, right: FormulaLike) -> Formula:
    return Formula(operator, (Formula.of(left), Formula.of(right)))


def U(left: FormulaLike, right: FormulaLike) -> Formula:
    """`left` holds until `right` does, and `right` holds at some position."""
    return _binary("U", left, right)


def V(left: FormulaLike, right: FormulaLike) -> Formula:
    """`left` releases `right`: `right` holds up to the first position where `left` does, with it, or forever."""
    return _binary("V", left, right)


R = V


def W(left: FormulaLike, right: FormulaLike) -> Formula:
    """Weak until: `left` holds until `right` does, or forever."""
    return _binary("W", left, right)


def M(left: FormulaLike, right: FormulaLike) -> Formula:
    """Strong release: `right` holds up to the first position where `left` does, with it, and there is one."""
    return _binary("M", left, right)


def iff(left: FormulaLike, right: FormulaLike) -> Formula:
    """Both hold, or neither does.

    >>> print(iff("p", "q"))
    (p <-> q)"""
    return _binary("<->", left, right)
