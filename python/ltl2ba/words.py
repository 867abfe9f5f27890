"""Words: a stem and a cycle that repeats for ever. A letter is the set of the names of the propositions that are true at its position.

>>> word = Word.parse("{p}; cycle {q}; {}")
>>> len(word.stem), len(word.cycle), sorted(word[0]), sorted(word[3])
(1, 2, ['p'], ['q'])
>>> print(word)
{p}; cycle {q}; {}
>>> print(Word([{"p"}], [{"bus.req[3]", "p"}]))
{p}; cycle {"bus.req[3]",p}"""

from __future__ import annotations

import re
from typing import AbstractSet, Callable, FrozenSet, Iterable, List, Optional, Tuple, Union

from ltl2ba import _calls
from ltl2ba._names import Names, checked, proposition, shown
from ltl2ba.errors import WordError

Letter = FrozenSet[str]
WordLike = Union["Word", str, bytes]
_NAME = r'(?:[a-zA-Z_.][a-zA-Z0-9_.]*|"[^"]*")'
_LETTER = re.compile(rf"\{{((?:{_NAME}(?:,{_NAME})*)?)\}}")
_NAMES = re.compile(_NAME)
_PLAIN = re.compile(r"[a-z0-9_{},; ]*")


class Word:
    """A word, which never changes. Two words are equal if they have the same letters in the same stem and cycle."""

    __slots__ = ("stem", "cycle")

    stem: Tuple[Letter, ...]
    cycle: Tuple[Letter, ...]

    def __init__(self, stem: Iterable[AbstractSet[str]], cycle: Iterable[AbstractSet[str]]) -> None:
        self.stem, self.cycle = (tuple(frozenset(map(checked, it)) for it in part) for part in (stem, cycle))
        if not self.cycle:
            raise WordError("word: a cycle has at least one letter", "", 0)

    @staticmethod
    def parse(text: str) -> Word:
        """Reads a word as `ltleval` does. Names with capitals, and names in quotation marks, are read too.

        >>> Word.parse("{p}; cycle {q")
        Traceback (most recent call last):
        ltl2ba.errors.WordError: word: byte 13: bad word
            {p}; cycle {q
                         ^"""
        found, place = _read(text)
        if is_plain_text(text):
            _calls.holds(b"true", text.encode())
        if found is None:
            raise WordError(f"word: byte {len(_calls.encoded(text[:place]))}: bad word", text, place)
        return found

    @staticmethod
    def of(given: WordLike) -> Word:
        """The word itself, or that of a text."""
        return given if isinstance(given, Word) else Word.parse(_calls.decoded(given))

    def __getitem__(self, position: int) -> Letter:
        """The letter at a position, from 0 on without end."""
        if position < 0:
            raise IndexError("positions of a word begin with 0")
        beyond = position - len(self.stem)
        return self.stem[position] if beyond < 0 else self.cycle[beyond % len(self.cycle)]

    @property
    def letters(self) -> Tuple[Letter, ...]:
        """The letters of the stem, and then those of the cycle.

        >>> len(Word.parse("{p}; cycle {q}; {}").letters)
        3"""
        return self.stem + self.cycle

    @property
    def propositions(self) -> Tuple[str, ...]:
        """The names in the letters, by first occurrence; those of a letter are sorted."""
        return tuple(dict.fromkeys(name for letter in self.letters for name in sorted(letter)))

    def suffix(self, position: int) -> Word:
        """The word from a position on.

        >>> print(Word.parse("{p}; cycle {q}; {}").suffix(2))
        cycle {}; {q}"""
        beyond = position - len(self.stem)
        if beyond <= 0:
            return Word(self.stem[position:], self.cycle)
        turn = beyond % len(self.cycle)
        return Word((), self.cycle[turn:] + self.cycle[:turn])

    @property
    def canonical(self) -> str:
        """The text that the library is given: it has propositions of the library alone."""
        Names(self.propositions)
        return self._text(proposition)

    def __str__(self) -> str:
        return self._text(shown)

    def _text(self, written: Callable[[str], str]) -> str:
        parts = ["{" + ",".join(sorted(map(written, letter))) + "}" for letter in self.letters]
        parts[len(self.stem)] = "cycle " + parts[len(self.stem)]
        return "; ".join(parts)

    def __repr__(self) -> str:
        return f"<Word {self}>"

    def __eq__(self, other: object) -> bool:
        if not isinstance(other, Word):
            return NotImplemented
        return (self.stem, self.cycle) == (other.stem, other.cycle)

    def __hash__(self) -> int:
        return hash((self.stem, self.cycle))

    def _repr_html_(self) -> str:
        from ltl2ba.tables import word_table

        return word_table(self)


def is_plain_text(text: str) -> bool:
    """Whether a text has such characters alone that it is a word exactly if the library reads it."""
    return _PLAIN.fullmatch(text) is not None


def _read(text: str) -> Tuple[Optional[Word], int]:
    """The word of a text, or None and the place of the first letter that isn't one."""
    letters: List[Letter] = []
    place, begin = 0, -1
    while True:
        if begin < 0 and text.startswith("cycle ", place):
            begin, place = len(letters), place + len("cycle ")
        it = _LETTER.match(text, place)
        names = _NAMES.findall(it[1]) if it else ["true"]
        if it is None or not {"true", "false"}.isdisjoint(names):
            return None, place
        letters.append(frozenset(name.strip('"') for name in names))
        place = it.end()
        if place == len(text) and begin >= 0:
            return Word(letters[:begin], letters[begin:]), place
        if not text.startswith("; ", place):
            return None, place
        place += 2


def named(text: str, names: Names) -> Word:
    """A word of the library, with the names that its propositions stand for."""
    found, _ = _read(text)
    assert found is not None, text
    if names.is_plain:
        return found
    return Word(*([{names.name(it) for it in letter} for letter in part] for part in (found.stem, found.cycle)))
