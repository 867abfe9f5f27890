"""Names of propositions as they are written elsewhere, and the propositions of the library that stand for them.

A name like `[a-z][a-z0-9_]*` stands for itself, unless it is `true` or `false`. Any other name stands as `quoted_` and its characters, where each that isn't
one of `a` to `z` and `0` to `9` is its number in hexadecimal digits between `_` and `_`:

>>> proposition("grant"), proposition("Req"), proposition("bus.req[3]")
('grant', 'quoted__52_eq', 'quoted_bus_2e_req_5b_3_5d_')

Different names stand as different propositions, but for a name that is itself written so; a question with both is refused."""

from __future__ import annotations

import re
from typing import Dict, Iterable, Iterator

from ltl2ba.errors import LtlError

_PLAIN = re.compile(r"[a-z][a-z0-9_]*")
_QUOTED = "quoted_"


def is_plain(name: str) -> bool:
    """Whether the library reads the name as a proposition."""
    return _PLAIN.fullmatch(name) is not None and name not in ("true", "false")


def proposition(name: str) -> str:
    """The proposition of the library that stands for a name."""
    if is_plain(name):
        return name
    return _QUOTED + re.sub("[^a-z0-9]", lambda it: f"_{ord(it[0]):x}_", name)


def checked(name: str) -> str:
    """The name, if it can be one: not empty, and printable on one line, without a quotation mark."""
    if not name or '"' in name or not name.isprintable():
        raise LtlError(f"no name of a proposition: {name!r}")
    return name


def shown(name: str) -> str:
    """The name as it is printed, in quotation marks unless it is plain."""
    return name if is_plain(name) else f'"{name}"'


class Names:
    """The names of one question, by the propositions that stand for them. A proposition that isn't listed stands for itself.

    >>> both = Names(["p", "Req"])
    >>> both.name("quoted__52_eq"), both.name("p"), both.is_plain
    ('Req', 'p', False)"""

    def __init__(self, names: Iterable[str] = ()) -> None:
        self._names: Dict[str, str] = {}
        for name in names:
            other = self._names.setdefault(proposition(name), name)
            if other != name:
                raise LtlError(f"the names {shown(other)} and {shown(name)} can't be told apart; give one of them another name")

    def __iter__(self) -> Iterator[str]:
        return iter(self._names.values())

    @property
    def is_plain(self) -> bool:
        """Whether each name stands for itself."""
        return all(key == name for key, name in self._names.items())

    def name(self, key: str) -> str:
        """The name that a proposition stands for."""
        return self._names.get(key, key)

    def joined(self, others: Iterable[str]) -> Names:
        """The names of both."""
        return Names([*self._names.values(), *others])
