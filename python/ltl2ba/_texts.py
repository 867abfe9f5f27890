"""Puts the names of propositions into the texts of the library, in place of the propositions that stand for them, and takes them out of texts in HOA format.

A text without such names stays as it is."""

from __future__ import annotations

import re
from typing import Callable, List, Tuple

from ltl2ba._names import Names, proposition, shown

_PROPOSITION = re.compile(r"[a-z][a-z0-9_]*")
_GUARD = re.compile(r"^(\t:: )(.*)( -> goto \w+)$", re.M)
# The tokens of a text in HOA format that matter here: a comment's beginning or end, a string, the name of an item, a mark, or else one character.
_HOA = re.compile(r'/\*|\*/|"(?:\\.|[^"\\])*"|[a-zA-Z_][0-9a-zA-Z_-]*:?|--[A-Z]+--|\d+|\s+|.', re.S)


def with_names(text: str, names: Names, written: Callable[[str], str]) -> str:
    """A text in which each proposition is replaced by its name, as it is written there."""
    return text if names.is_plain else _PROPOSITION.sub(lambda it: written(names.name(str(it[0]))), text)


def named_formula(text: str, names: Names) -> str:
    """A formula of the library, with names."""
    return with_names(text, names, shown)


def formula_of(hoa: str, names: Names) -> str:
    """The formula that an automaton's text in HOA format names, with names."""
    head = hoa.split("\n", 2)[1]
    return named_formula(head[len('name: "') : -1], names)


def quoted(text: str) -> str:
    """A string in HOA format."""
    return '"' + text.replace("\\", "\\\\").replace('"', '\\"') + '"'


def titled_hoa(hoa: str, names: Names) -> str:
    """An automaton's text in HOA format, whose title has names and whose propositions are the library's."""
    head, title, rest = hoa.split("\n", 2)
    return hoa if names.is_plain else f"{head}\nname: {quoted(formula_of(hoa, names))}\n{rest}"


def named_hoa(hoa: str, names: Names) -> str:
    """An automaton's text in HOA format, with names."""
    if names.is_plain:
        return hoa
    lines = hoa.split("\n")
    lines[1] = f"name: {quoted(formula_of(hoa, names))}"
    lines[4] = re.sub('"([a-z0-9_]*)"', lambda it: quoted(names.name(str(it[1]))), lines[4])
    return "\n".join(lines)


def named_claim(claim: str, names: Names) -> str:
    """A never claim, with names: as identifiers, or as expressions in brackets."""
    if names.is_plain:
        return claim

    def expression(found: "re.Match[str]") -> str:
        name = names.name(found[0])
        return name if re.fullmatch(r"[a-zA-Z_]\w*", name, re.A) else f"({name})"

    head, _, body = claim.partition("\n")
    about = named_formula(head[len("never { /* ") : -len(" */")], names).replace("*/", "* /")
    body = _GUARD.sub(lambda it: it[1] + _PROPOSITION.sub(expression, it[2]) + it[3], body)
    return f"never {{ /* {about} */\n{body}"


def _tokens(hoa: str) -> List[Tuple[str, bool]]:
    """The pieces of a text in HOA format, and whether each is in a comment."""
    found: List[Tuple[str, bool]] = []
    place, depth = 0, 0
    while place < len(hoa):
        it = _HOA.match(hoa, place)
        piece = it[0] if it and not (depth and it[0][0] == '"') else hoa[place]
        depth += (piece == "/*") - (piece == "*/" and depth > 0)
        found.append((piece, depth > 0 or piece == "*/"))
        place += len(piece)
        if piece == "--BODY--" and not depth:
            found.append((hoa[place:], True))
            break
    return found


def plain_hoa(hoa: str) -> Tuple[str, Names]:
    """A text in HOA format with propositions of the library in place of other names, and these names.

    >>> text, names = plain_hoa('HOA: v1 AP: 2 "x > 0" "p" --BODY--')
    >>> text, names.name("quoted_x_20__3e__20_0")
    ('HOA: v1 AP: 2 "quoted_x_20__3e__20_0" "p" --BODY--', 'x > 0')"""
    found, names, item = _tokens(hoa), [], ""
    for place, (piece, is_comment) in enumerate(found):
        if is_comment or piece.isspace():
            continue
        if piece.endswith(":"):
            item = piece
        elif item == "AP:" and len(piece) > 1 and piece[0] == '"':
            name = re.sub(r"\\(.)", r"\1", piece[1:-1], flags=re.S)
            if name and '"' not in name and name.isprintable():
                names.append(name)
                found[place] = f'"{proposition(name)}"', False
    return "".join(piece for piece, _ in found), Names(names)
