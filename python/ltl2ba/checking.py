"""Questions about formulas, words and automata. An answer that has a word shows it.

>>> from ltl2ba import translate
>>> check(translate("<>p"), "[]<>p")
Violated(word=<Word {p}; cycle {}>)
>>> implies("[]p", "p"), bool(implies("p", "[]p"))
(Contained(), False)
>>> is_satisfiable("p && X[]!p"), is_valid("<>p || []!p")
(Satisfiable(word=<Word {p}; cycle {}>), Contained())

Each answer is one of the proved part, but for `compare`, which is made of two. If several words are right, any of them may be the answer. Where two formulas
are asked about, a refusal says which one has a fault:

>>> equivalent("p", "p U")
Traceback (most recent call last):
ltl2ba.errors.FormulaError: second formula: byte 3: expected operand
    p U
       ^"""

from __future__ import annotations

from typing import NamedTuple, Optional, Tuple, Union

from ltl2ba import _abi as abi
from ltl2ba import _calls, _texts
from ltl2ba.automata import Automaton, given
from ltl2ba.formulas import FormulaLike
from ltl2ba.words import Word, WordLike, is_plain_text, named


class _Answer:
    """An answer, which never changes: it is true or false as a condition, and may have a word. Answers are equal if they say the same."""

    __slots__ = ("_parts",)
    _truth, _phrase = True, ""

    def __init__(self, *words: Optional[Word]) -> None:
        self._parts = words

    def __bool__(self) -> bool:
        return self._truth

    def __eq__(self, other: object) -> bool:
        return type(self) is type(other) and isinstance(other, _Answer) and self._parts == other._parts

    def __hash__(self) -> int:
        return hash((type(self).__name__, self._parts))

    def __reduce__(self) -> Tuple[object, ...]:
        return type(self), self._parts

    def __repr__(self) -> str:
        return f"{type(self).__name__}({', '.join(f'word={it!r}' for it in self._parts)})"

    def __str__(self) -> str:
        return "\n".join([self._phrase, *map(str, self._parts)])


class _WithWord(_Answer):
    """An answer with a word."""

    __slots__ = ()

    def __init__(self, word: Word) -> None:
        super().__init__(word)

    @property
    def word(self) -> Word:
        """The word that shows it."""
        (word,) = self._parts
        assert word is not None
        return word


class Contained(_Answer):
    """Each word satisfies the formula. It is true as a condition."""

    __slots__ = ()
    _phrase = "contained"


class Violated(_WithWord):
    """The word is a counterexample. It is false as a condition."""

    __slots__ = ()
    _truth, _phrase = False, "violated"


class Satisfiable(_WithWord):
    """The word satisfies the formula. It is true as a condition."""

    __slots__ = ()
    _phrase = "satisfiable"


class Unsatisfiable(_Answer):
    """No word satisfies the formula. It is false as a condition."""

    __slots__ = ()
    _truth, _phrase = False, "unsatisfiable"


Verdict = Union[Contained, Violated]
# The Büchi automaton of a formula as a text that the checker reads.
_PLAIN = abi.Options(layout=abi.HOA)


class Comparison(NamedTuple):
    """Which words satisfy one of two formulas, or both. Each is None if there is no such word.

    >>> it = compare("[]p", "<>p")
    >>> it.left_implies_right, it.right_implies_left, it.only_left, it.relation
    (True, False, None, 'the first implies the second')
    >>> compare("[]p", "<>!p").relation, compare("[]p", "!<>!p").relation
    ('no word satisfies both', 'equivalent')"""

    only_left: Optional[Word]
    only_right: Optional[Word]
    both: Optional[Word]

    @property
    def left_implies_right(self) -> bool:
        return self.only_left is None

    @property
    def right_implies_left(self) -> bool:
        return self.only_right is None

    @property
    def equivalent(self) -> bool:
        return self.only_left is None and self.only_right is None

    @property
    def disjoint(self) -> bool:
        return self.both is None

    @property
    def relation(self) -> str:
        """What the words tell, in one phrase."""
        if self.equivalent:
            return "equivalent"
        if self.left_implies_right:
            return "the first implies the second"
        if self.right_implies_left:
            return "the second implies the first"
        return "no word satisfies both" if self.disjoint else "neither implies the other"

    def __str__(self) -> str:
        words = ("only the first", self.only_left), ("only the second", self.only_right), ("both", self.both)
        return "\n".join([self.relation, *(f"{about}: {word}" for about, word in words if word is not None)])


def holds(formula: FormulaLike, word: WordLike) -> bool:
    """Whether a formula holds at the first position of a word.

    >>> holds("[](p -> <>q)", "{p}; cycle {q}"), holds("[]p", "{p}; cycle {q}")
    (True, False)"""
    text, names = given(formula)
    if isinstance(word, str) and isinstance(formula, str) and is_plain_text(word):
        return _calls.holds(text, word.encode("ascii"))
    letters = Word.of(word)
    names.joined(letters.propositions)
    return _calls.holds(text, letters.canonical.encode("ascii"))


def check(automaton: Union[Automaton, str, bytes], formula: FormulaLike) -> Verdict:
    """Whether each word that an automaton accepts satisfies a formula. The automaton is one of `translate`, or a text in HOA format, as other tools print it.

    >>> from ltl2ba import Formula
    >>> check('HOA: v1 States: 1 Start: 0 AP: 1 "Req" Acceptance: 0 t --BODY-- State: 0 [0] 0 --END--', Formula.parse("G Req", dialect="spot"))
    Contained()"""
    text, names = given(formula)
    if isinstance(automaton, Automaton):
        hoa, others = automaton.own_hoa, automaton.names
    else:
        hoa, others = _texts.plain_hoa(_calls.decoded(automaton))
    word = _calls.verdict(text, _calls.encoded(hoa))
    return Contained() if word is None else Violated(named(word, names.joined(others)))


def implies(left: FormulaLike, right: FormulaLike) -> Verdict:
    """Whether each word that satisfies the first formula satisfies the second one: the check of the automaton of the first one against the second one."""
    (one, names), (two, others) = given(left), given(right)
    word = _calls.verdict(two, _calls.text(one, _PLAIN, _calls.FIRST), _calls.SECOND)
    return Contained() if word is None else Violated(named(word, names.joined(others)))


def compare(left: FormulaLike, right: FormulaLike) -> Comparison:
    """Compares two formulas. Whether some word satisfies both is asked by itself: whether the first formula implies the negation of the second one."""
    (one, names), (two, others) = given(left), given(right)
    only_left, only_right = _calls.compared(one, two)
    both = _calls.verdict(b"!(" + two + b")", _calls.text(one, _PLAIN))
    all_names = names.joined(others)
    return Comparison(*(None if it is None else named(it, all_names) for it in (only_left, only_right, both)))


def equivalent(left: FormulaLike, right: FormulaLike) -> Verdict:
    """Whether the same words satisfy both formulas. A word of the answer satisfies one of them alone.

    >>> equivalent("p U q || []p", "q V (p || q)")
    Contained()"""
    (one, names), (two, others) = given(left), given(right)
    only_left, only_right = _calls.compared(one, two)
    word = only_left or only_right
    return Contained() if word is None else Violated(named(word, names.joined(others)))


def is_satisfiable(formula: FormulaLike) -> Union[Satisfiable, Unsatisfiable]:
    """Whether some word satisfies a formula."""
    text, names = given(formula)
    word = _calls.verdict(b"false", _calls.text(text, _PLAIN))
    return Unsatisfiable() if word is None else Satisfiable(named(word, names))


def is_valid(formula: FormulaLike) -> Verdict:
    """Whether every word satisfies a formula."""
    text, names = given(formula)
    word = _calls.verdict(text, _calls.text(b"true", _PLAIN))
    return Contained() if word is None else Violated(named(word, names))
