"""What to write in place of spellings that other tools read and this language hasn't.

A hint is a list of parts, which are words and code by turns."""

import re

NAME = re.compile(r"[a-z][a-z0-9_]*")
WORD = re.compile(r"[A-Za-z0-9_]+")
# The form of a word, as the page tells it.
FORM = [
    "A word is written as ", "{p}; cycle {q,r}; {}", ". Each letter has the names that are true, in braces, with ", ",", " between two of them. First come "
    "the letters of the stem, if there are any, then ", "cycle", ", then the letters that repeat for ever. Between two letters stand ", ";", " and one blank, "
    "behind ", "cycle", " one blank, and nowhere else is a blank.",
]  # fmt: skip


def instead(seen, written):
    """The hint for an operator or a constant that is spelled in another way here."""
    return ["Write ", written, " for ", seen, "."]


XOR = ["There is no exclusive or: for ", "p xor q", " write ", "!(p <-> q)", "."]
WEAK = ["There is no weak until: for ", "p W q", " write ", "q V (p || q)", "."]
STRONG = ["There is no strong release: for ", "p M q", " write ", "q U (p && q)", "."]
COMPARED = [
    "There are no comparisons and no numbers: give a comparison such as ", "x > 0", " a name in lower case, such as ", "x_above_0",
    ", and use the name. That two formulas have the same truth is written ", "p <-> q", ".",
]  # fmt: skip
BEGIN = ["A name begins with a lower-case letter, and there are no numbers."]
BRACKETS = ["A formula has only the brackets ", "(", " and ", ")", "; braces are for the letters of a word."]
PAST = ["There are no operators for the past here."]
PATHS = ["There are no path quantifiers: a formula speaks of one word. For ", "A G p", " of CTL write ", "[]p", "."]

# Words that stand for an operator or a constant elsewhere, in any case, and single capitals.
SPELLED = {
    "not": "!", "and": "&&", "or": "||", "implies": "->", "iff": "<->", "until": "U", "release": "V", "releases": "V", "always": "[]", "globally": "[]",
    "eventually": "<>", "finally": "<>", "next": "X", "true": "true", "false": "false", "T": "true",
}  # fmt: skip
OTHERS = {
    "xor": XOR, "W": WEAK, "M": STRONG, "A": PATHS, "E": PATHS,
    **dict.fromkeys(("yesterday", "previous", "once", "historically", "since", "triggered", "Y", "O", "H", "S"), PAST),
}  # fmt: skip
# Unary operators that are read as names, so that the fault is behind them.
BEFORE = re.compile(r"\b(not|always|globally|eventually|finally|next|yesterday|previous|once|historically)\s*$")
# Other texts at the fault, the first one that fits.
SPELLINGS = [
    (r"<=>|<-->|<==>|[↔⇔≡]", lambda it: instead(it[0], "<->")),
    (r"=>|==>|-->|[→⇒⊃]", lambda it: instead(it[0], "->")),
    (r"&|∧|⋀", lambda it: instead(it[0], "&&")),
    (r"\||∨|⋁", lambda it: instead(it[0], "||")),
    (r"[~¬]", lambda it: instead(it[0], "!")),
    (r"\^|⊕|⊻", lambda it: [*XOR[:1], f"p {it[0]} q", *XOR[2:]]),
    (r"[□◻☐]", lambda it: instead(it[0], "[]")),
    (r"[◇◊⋄]", lambda it: instead(it[0], "<>")),
    (r"[○◯∘]", lambda it: instead(it[0], "X")),
    (r"⊤", lambda it: instead(it[0], "true")),
    (r"⊥", lambda it: instead(it[0], "false")),
    (r"<-", lambda it: ["For ", "p <- q", " write ", "q -> p", "."]),
    (r"!==?|[<>=]=?|[≤≥≠]|[-+*%]", lambda it: COMPARED),
    (r"1\b", lambda it: instead("1", "true")),
    (r"0\b", lambda it: instead("0", "false")),
    (r"[0-9]", lambda it: BEGIN),
    (r"[\"'`“‘]", lambda it: ["A name is written without quotes, in lower-case letters, digits and ", "_", f": here perhaps ", name_for(quoted(it)), "."]),
    (r"[{}]", lambda it: BRACKETS),
    (r"/\*|//|#", lambda it: ["A formula has no comments."]),
    (r";", lambda it: ["A formula is written without ", ";", "."]),
    (r"[^\W\d_]", lambda it: ["A name has the letters a to z, digits and ", "_", " alone."]),
]  # fmt: skip


def quoted(found):
    """What stands in quotes from a quote on."""
    return re.split(r"[\"'`”’]", found.string[found.end() :], maxsplit=1)[0]


def name_for(text):
    """A name like the text that is a proposition."""
    split = re.sub(r"(?<=[a-z0-9])(?=[A-Z])", "_", text[:60])
    plain = re.sub(r"[^a-z0-9]+", "_", split.lower()).strip("_")
    name = plain if NAME.fullmatch(plain) else f"p_{plain}".strip("_")
    return f"{name}_" if name in ("true", "false") else name


def around(text, at):
    """The letters, digits and `_` around a place: where they begin, and the whole."""
    begin = at
    while begin > 0 and WORD.fullmatch(text[begin - 1]):
        begin -= 1
    found = WORD.match(text, begin)
    return begin, found[0] if found else ""


def bracket(text, at):
    """The hint for a `[` behind a name or an operator, as in `req[3]` and `F[0:5] p`."""
    inner = re.match(r"\[\s*([^\]\s]{1,20})\s*\]?", text[at:])
    before = re.search(r"([A-Za-z0-9_]+|\[\]|<>)\s*$", text[max(0, at - 80) : at])
    if inner is None or before is None:
        return BRACKETS
    if before[1] == "X":
        return ["Write ", "X", " once for each step: ", "X X X p", " for ", "X[3] p", "."]
    if before[1] in ("G", "F", "U", "R", "V", "[]", "<>"):
        return ["Operators have no bounds: for ", "F[0:2] p", " write ", "p || X(p || X p)", ", and for ", "G[0:2] p", " write ", "p && X(p && X p)", "."]
    return ["A name has no index: write ", name_for(f"{before[1]}_{inner[1]}"), " for ", f"{before[1]}[{inner[1]}]", "."]


def dot(text, at):
    """The hint for a `.` within a name, as in `bus.req`."""
    found = re.search(r"[A-Za-z0-9_.]+$", text[max(0, at - 40) : at])
    behind = re.match(r"[A-Za-z0-9_.]+", text[at:])
    if found is None or behind is None:
        return None
    whole = found[0] + behind[0][:40]
    return ["A name has no ", ".", " in it: write ", name_for(whole), " for ", whole, "."]


def other_word(word):
    """The hint for a word that is an operator or a constant elsewhere."""
    key = word if len(word) == 1 else word.lower()
    written = SPELLED.get(key, word)
    return OTHERS.get(key) if written == word else instead(word, written)


def is_complete(kind):
    """Whether an operand ends before the fault."""
    return kind in ("expected operator or end", "expected ) or operator")


def letters(text, at, kind):
    """The hint for a word that the fault stands in, which isn't read as a name or isn't wanted."""
    begin, word = around(text, at)
    if re.fullmatch(r"[a-z0-9]?[WM][a-z0-9]?", word) and text[at] in "WM":
        return OTHERS[text[at]]
    known = BEGIN if word[0] == "_" else other_word(word)
    # An operator that stands where none may stand, and by itself, is no name.
    is_operator = text[at] in "GFXUVR" and (len(word) == 1 or is_complete(kind) and begin == at)
    if known or is_operator or not re.search("[A-Z]", word):
        return known
    return ["A name has lower-case letters, digits and ", "_", " alone: write ", name_for(word), " for ", word[:60], "."]


def formula_hint(text, place, kind):
    """What to write in place of what stands at the fault, a byte of the formula, or nothing."""
    at = len(text.encode("utf-8", "replace")[:place].decode("utf-8", "ignore"))
    before = BEFORE.search(text[max(0, at - 80) : at]) if is_complete(kind) else None
    if before:
        return other_word(before[1])
    if at >= len(text):
        return None
    if WORD.fullmatch(text[at]) and not text[at].isdigit():
        return letters(text, at, kind)
    if text[at] in "[.":
        return bracket(text, at) if text[at] == "[" else dot(text, at)
    if text[at] in "&|/!" and kind != "unexpected byte" and not text.startswith("!=", at):
        return None
    for spelling, hint in SPELLINGS:
        found = re.compile(spelling).match(text, at)
        if found:
            return hint(found)
    return None


def read_apart(text):
    """Words of a formula with a capital within, which is read as an operator, as in `Grant`."""
    for word in dict.fromkeys(WORD.findall(text)):
        if re.search("[A-Z]", word) and re.search("[a-z]{2}", word):
            yield word


def respelled(text):
    """The word that a text is but for blanks, commas and semicolons, or nothing."""
    letters, cycle = [], None
    for braces, begin, between, other in re.findall(r"(\{[^{}]*\})|(cycle)|([\s;,:]+)|(.)", text, re.S):
        if other or begin and cycle is not None:
            return None
        if begin:
            cycle = len(letters)
        if braces:
            names = re.findall(r"[^\s,;]+", braces[1:-1])
            if not all(NAME.fullmatch(it) and it not in ("true", "false") for it in names):
                return None
            letters.append("{" + ",".join(names) + "}")
    if cycle is None or cycle == len(letters):
        return None
    return "".join(f"{it}; " for it in letters[:cycle]) + "cycle " + "; ".join(letters[cycle:])
