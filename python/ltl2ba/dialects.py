"""Formulas as three tools write them. A text that two readers may read differently has one meaning for each dialect:

>>> for dialect in "ltl2ba", "spot", "spin":
...     print(parse("p U q U r -> s -> t", dialect))
(((p U q) U r) -> (s -> t))
((p U (q U r)) -> (s -> t))
((((p U q) U r) -> s) -> t)

- `ltl2ba`: what the library itself reads. It refuses a text, or this module reads it the same way.
- `spot`: names with capitals, dots and quotation marks, where `GFa` is `G F a`, so a name that begins with `F`, `G` or `X` needs quotation marks; `0`, `1`, `~`,
  `&`, `|`, `xor`, `^`, `=>`, `<=>`, `W`, `M`, `X[3]`, `F[0:5]`, `G[2:]`. `U`, `V`, `W` and `M` group to the right; `->` and `<->` bind alike, and group to the
  right.
- `spin`: what a block `ltl name { .. }` of a model may have: `0`, `1`, `W`, words such as `always`, and expressions of the model such as `x > 3`, which become
  propositions with that name. `->` and `<->` bind alike, and all binary operators group to the left.

Reading is translation of spelling. It is tested, and not proved: `Formula.canonical` shows what the proved part is given. Where the readers of a tool may
differ from this one, the text is refused."""

from __future__ import annotations

import re
from typing import Callable, Dict, Iterator, List, NamedTuple, Optional, Tuple

from ltl2ba import _calls
from ltl2ba._names import checked
from ltl2ba.errors import FormulaError, LtlError, TooLarge
from ltl2ba.formulas import LIMIT, Formula
from ltl2ba.operators import steps, within


class Token(NamedTuple):
    """A token: its kind is `(`, `)`, `unary`, `binary` or `operand`. A unary operator may have positions, as `F[0:5]` does."""

    kind: str
    value: str
    place: int
    positions: Tuple[int, Optional[int]] = (-1, None)


class Dialect(NamedTuple):
    """How a tool writes formulas: the pattern of its tokens, the operator that each spelling is, how tightly binary and unary operators bind, which binary
    operators group to the right, and the name that a token is. Operators that bind less tightly have lower numbers."""

    pattern: "re.Pattern[str]"
    spellings: Dict[str, str]
    ranks: Dict[str, int]
    rightward: Tuple[str, ...]
    name: Callable[[str], str]


_AND, _OR = {"&&": "&&", "/\\": "&&"}, {"||": "||", "\\/": "||"}
_COMMON = {"true": "true", "false": "false", "!": "!", "[]": "[]", "<>": "<>", "X": "X", "U": "U", "V": "V", "->": "->", "<->": "<->", **_AND, **_OR}
_LETTERS = {"G": "[]", "F": "<>", "R": "V"}
_MORE = {"0": "false", "1": "true", "~": "!", "W": "W", "=>": "->", "<=>": "<->", "-->": "->", "<-->": "<->"}
_TEMPORAL = {"always": "[]", "eventually": "<>", "next": "X", "until": "U", "stronguntil": "U", "weakuntil": "W", "release": "V"}
_WORDS = {**_TEMPORAL, "implies": "->", "equivalent": "<->"}
_RANKS = {"<->": 1, "->": 2, "||": 3, "&&": 5, "U": 6, "V": 6, "!": 9, "[]": 9, "<>": 9, "X": 9}
_SPOT_RANKS = {**_RANKS, "<->": 1, "->": 1, "^": 4, "W": 6, "M": 6}
_SPIN_RANKS = {**_RANKS, "<->": 1, "->": 1, "W": 6}
_PRIMARY = r"[a-zA-Z_]\w*(?:\s*(?:\[[^\]\[]*\]|\([^()]*\)|[.@:]\s*\w+))*|-?\d+"


def _unquoted(text: str) -> str:
    return checked(text[1:-1] if text[0] == '"' else text)


def _is_compound(text: str) -> bool:
    """Whether an expression of a model has operators. A unary operator before it would take its first operand alone."""
    return re.fullmatch(_PRIMARY, text) is None


def _expression(text: str) -> str:
    """An expression of a model, with one blank around each operator. One without a variable is refused."""
    if not re.search("[a-zA-Z_]", text):
        raise LtlError("no variable")
    return checked(" ".join(re.sub(r"([=!<>]=|[<>]|[+*/%]|(?<=[\w\])])\s*-)", r" \1 ", text).split()))


DIALECTS = {
    "ltl2ba": Dialect(
        re.compile(r"(?P<name>[a-z][a-z0-9_]*)|(?P<sign><->|->|\[\]|<>|&&|\|\||/\\|\\/|[()!XGFURV])"), {**_COMMON, **_LETTERS}, _RANKS, ("->",), _unquoted
    ),
    "spot": Dialect(
        re.compile(
            r"(?P<bound>(?:X\[(?P<steps>\d+)|[FG]\[(?P<first>\d+)(?::|\.\.)(?P<last>\d+|\$)?)\])|(?P<quoted>\"[^\"]*\")"
            r"|(?P<constant>(?:[tT][rR][uU][eE]|[fF][aA][lL][sS][eE])(?![a-zA-Z0-9_.]))|(?P<unary>[XFG](?![0-9_]))"
            r"|(?P<name>(?![XFG])[a-zA-Z_.][a-zA-Z0-9_.]*)|(?P<sign><-->|<->|<=>|-->|->|=>|\[\]|<>|\(\)|&&?|\|\|?|/\\|\\/|[()!~^01])"
        ),
        {**_COMMON, **_LETTERS, **_MORE, "M": "M", "&": "&&", "|": "||", "xor": "^", "^": "^", "()": "X"},
        _SPOT_RANKS,
        ("U", "V", "W", "M", "->", "<->"),
        _unquoted,
    ),
    "spin": Dialect(
        re.compile(
            rf"(?P<word>(?:true|false|[XUVW]|{'|'.join(_WORDS)})\b)|(?P<sign><->|->|\[\]|<>|&&|\|\||[()!])"
            rf"|(?P<name>(?:{_PRIMARY})(?:\s*(?:[=!<>]=|[<>](?![>-])|[+*/%]|-(?!>))\s*(?:{_PRIMARY}))*)"
        ),
        {**_COMMON, **_WORDS, "0": "false", "1": "true", "W": "W"},
        _SPIN_RANKS,
        (),
        _expression,
    ),
}
_BLANKS = re.compile(r"[ \t\r\n]*")


def _positions(found: "re.Match[str]") -> Tuple[int, Optional[int]]:
    """The positions of `X[2]`, `F[2:5]`, `F[2:]` or `F[2:$]`: the first one, and the last one or None. A larger number than any formula has room for is cut."""
    first, last = found["steps"] or found["first"], found["last"]
    bounds = [int(it) if len(it) < 9 else 10**9 for it in (first, last) if it and it != "$"]
    return bounds[0], bounds[1] if len(bounds) > 1 else None


def tokens(text: str, dialect: Dialect) -> List[Token]:
    """The tokens of a text, up to a byte that begins none."""
    found: List[Token] = []
    place = _BLANKS.match(text).end()  # type: ignore[union-attr]
    while place < len(text):
        it = dialect.pattern.match(text, place)
        if it is None:
            found.append(Token("unknown", text[place], place))
            break
        found.append(_token(it, dialect))
        place = _BLANKS.match(text, it.end()).end()  # type: ignore[union-attr]
    return found


def _token(it: "re.Match[str]", dialect: Dialect) -> Token:
    text, place = it[0], it.start()
    if it.lastgroup == "bound":
        return Token("unary", dialect.spellings[text[0]], place, _positions(it))
    operator = text.lower() if it.lastgroup == "constant" else dialect.spellings.get(text)
    if operator in ("true", "false"):
        return Token("constant", operator, place)
    if operator is not None:
        return Token("unary" if operator in ("!", "[]", "<>", "X") else "binary", operator, place)
    return Token(text if text in "()" else "name", text, place)


class Reader:
    """A parser over two stacks: formulas, and operators and brackets that wait for their last operand. Equal subformulas become one object."""

    def __init__(self, text: str, dialect: Dialect) -> None:
        self.text, self.dialect = text, dialect
        self.formulas: List[Formula] = []
        self.waiting: List[Token] = []
        self.depth = 0
        self.made: Dict[Tuple[object, ...], Formula] = {}

    def fault(self, what: str, place: int) -> FormulaError:
        return FormulaError(f"formula: byte {len(self.text[:place].encode('utf-8', 'replace'))}: {what}", self.text, place)

    def made_of(self, operator: str, operands: Tuple[Formula, ...] = (), name: Optional[str] = None) -> Formula:
        key = (operator, name, *map(id, operands))
        if key not in self.made:
            self.made[key] = Formula(operator, operands, name)
        return self.made[key]

    def close(self, rank: int, is_open: bool) -> None:
        """Gives operands to the operators that bind more tightly, or as tightly if that is asked for."""
        while self.waiting and self.waiting[-1].kind != "(":
            it = self.waiting[-1]
            own = self.dialect.ranks[it.value]
            if own < rank or (own == rank and is_open):
                return
            self.waiting.pop()
            if it.kind == "unary":
                self.formulas.append(self.unary(it, self.formulas.pop()))
            else:
                right = self.formulas.pop()
                self.formulas.append(self.made_of(it.value, (self.formulas.pop(), right)))

    def unary(self, it: Token, operand: Formula) -> Formula:
        first, last = it.positions
        if first < 0:
            return self.made_of(it.value, (operand,))
        try:
            return steps(operand, first) if it.value == "X" else within(operand, first, last, it.value)
        except TooLarge:
            raise
        except ValueError:
            raise self.fault("no positions", it.place) from None

    def operand(self, it: Token) -> bool:
        """Takes a token where an operand begins. Whether an operator or the end is next."""
        if it.kind in ("unary", "("):
            self.waiting.append(it)
            self.depth += it.kind == "("
            return False
        if it.kind == "constant":
            self.formulas.append(self.made_of(it.value))
            return True
        if it.kind != "name":
            raise self.fault("unexpected byte" if it.kind == "unknown" else "expected operand", it.place)
        if self.dialect.name is _expression and self.waiting and self.waiting[-1].kind == "unary" and _is_compound(it.value):
            raise self.fault("expected ( between an operator and an expression", it.place)
        try:
            self.formulas.append(self.made_of("name", name=self.dialect.name(it.value)))
        except FormulaError:
            raise
        except LtlError:
            raise self.fault("no name of a proposition", it.place) from None
        return True

    def operator(self, it: Token) -> bool:
        """Takes a token behind an operand. Whether an operator or the end is next."""
        if it.kind == "binary":
            self.close(self.dialect.ranks[it.value], it.value in self.dialect.rightward)
            self.waiting.append(it)
            return False
        if it.kind != ")" or not self.depth:
            wanted = "expected ) or operator" if self.depth else "expected operator or end"
            raise self.fault("unexpected byte" if it.kind == "unknown" else wanted, it.place)
        self.close(0, False)
        self.waiting.pop()
        self.depth -= 1
        return True

    def read(self) -> Formula:
        is_behind, found = False, tokens(self.text, self.dialect)
        for it in found:
            is_behind = self.operator(it) if is_behind else self.operand(it)
        if not is_behind:
            raise self.fault("expected operand", len(self.text))
        if self.depth:
            raise self.fault("expected ) or operator", len(self.text))
        mixed = next(_mixed(found), None)
        if mixed:
            raise self.fault("expected ( around one of || and ^, which tools read differently", mixed.place)
        self.close(0, False)
        return self.formulas.pop()


def _mixed(found: List[Token]) -> Iterator[Token]:
    """The operators `^` and `||` that stand beside the other one without brackets."""
    beside: List[str] = [""]
    for it in found:
        if it.kind == "(":
            beside.append("")
        elif it.kind == ")":
            beside.pop()
        elif it.value in ("->", "<->"):
            beside[-1] = ""
        elif it.value in ("^", "||"):
            if beside[-1] not in ("", it.value):
                yield it
            beside[-1] = it.value


def parse(text: str, dialect: str = "ltl2ba") -> Formula:
    """Reads a formula.

    >>> print(parse('G("bus.req" => F[1:2] Ack)', "spot"))
    []("bus.req" -> X ("Ack" || X "Ack"))
    >>> print(parse("always (len(queue) == 3 implies eventually (x<3))", "spin"))
    []("len(queue) == 3" -> <>"x < 3")"""
    if dialect not in DIALECTS:
        raise ValueError(f"{dialect!r} is no dialect; there are {', '.join(DIALECTS)}")
    if dialect == "ltl2ba":
        _calls.names(_calls.encoded(text))
    if len(text) > LIMIT:
        raise TooLarge(f"limit: formula longer than {LIMIT} bytes")
    return Reader(text, DIALECTS[dialect]).read()
