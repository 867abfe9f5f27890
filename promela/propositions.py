"""The propositions of a formula: names of the model, and expressions of the model in braces."""

import re

from promela.models import NUMBERS, TOKEN
from promela.rooms import Refused

NAME = re.compile(r"[a-z][a-z0-9_]*")
CONSTANTS = "true", "false"
# Words of Promela, which can't be names.
RESERVED = set(
    """active assert atomic bit bool break byte c_code c_decl c_expr c_state c_track chan d_step do else empty enabled eval fi for full get_priority goto hidden
    if in init inline int len local ltl mtype nempty never nfull notrace od of pc_value pid printf printm priority proctype provided return run select
    set_priority short show trace typedef unless unsigned xr xs""".split()
)
# Names that Spin or the preprocessor gives a meaning of its own, and labels of claims.
TAKEN = {
    **{it: "has a meaning of its own in Promela" for it in ("skip", "timeout", "np_")},
    **{it: "is replaced by 1 by the preprocessor" for it in ("linux", "unix", "i386")},
    **{it: "is a label of the claim" for it in ("accept_init", "accept_all")},
}
# What an expression may have of the words of Promela, and what else is no question about the present state.
FUNCTIONS = {"len", "empty", "nempty", "full", "nfull"}
QUESTIONS = FUNCTIONS | {"enabled", "pc_value", "eval"}
OTHERS = "timeout", "np_", "_pid", "_"
TRUTHS = "true", "false", "skip"
# What an expression may ask for while parts of the search are left out; and what is no proposition, with what to write instead.
PLAIN = *NUMBERS, "constant", "array", "struct", "chan"
OTHER_KINDS = {
    "constant": "is a constant or a variable of type mtype; compare it with something, in braces",
    "array": "is an array; name one of its elements, in braces",
    "struct": "is a structure; name one of its fields, in braces",
    "chan": "is a channel; ask for the number of its messages, as {len(..) > 0}",
    "proctype": "is a type of processes",
}
SIGNS = re.compile(r"(?:[\w\s+*/%<>!&|^~()\[\].,:?@-]|==|<=|>=|!=)*", re.A)


class Formula:
    """A formula as it is given: pieces of formula and, in braces, of the model."""

    def __init__(self, text):
        self.pieces = re.split(r"\{([^{}]*)\}", text)
        self.expressions = list(dict.fromkeys(" ".join(it.split()) for it in self.pieces[1::2]))
        self.names = [it for it in dict.fromkeys(NAME.findall(" ".join(self.pieces[::2]))) if it not in CONSTANTS]
        for it in self.expressions:
            refuse_signs(it)

    def named(self, names):
        """The formula with a name for each expression."""
        return "".join(names[" ".join(it.split())] if k % 2 else it for k, it in enumerate(self.pieces))

    def place(self, byte, names):
        """The place in the given text of a byte of the named one."""
        given = named = 0
        for k, it in enumerate(self.pieces):
            size = len(it.encode("utf-8", "surrogateescape"))
            taken = len(names[" ".join(it.split())]) if k % 2 else size
            if byte < named + taken or k == len(self.pieces) - 1:
                return given + (0 if k % 2 else byte - named)
            given, named = given + size + 2 * (k % 2), named + taken
        return given


def refuse_signs(expression):
    if not expression:
        raise Refused("{} has no expression")
    if "//" in expression or "/*" in expression or "++" in expression or "--" in expression or not SIGNS.fullmatch(expression):
        raise Refused(f"{{{expression}}} is no expression that can be asked of a state: it has no assignment, quote, comment or semicolon")
    depth = 0
    for it in expression:
        depth += (it in "([") - (it in ")]")
        if depth < 0:
            break
    if depth:
        raise Refused(f"{{{expression}}} has brackets without a partner")


def fresh_names(count, taken):
    """Names for expressions that nothing else has."""
    begin = "e"
    while any(re.fullmatch(rf"{begin}\d+", it) for it in taken):
        begin += "_"
    return [f"{begin}{k}" for k in range(1, count + 1)]


def refuse_name(name):
    """Refuses a proposition that Spin would misread."""
    if name in RESERVED:
        raise Refused(f"{name} is a word of Promela, and can't be a proposition")
    if name in TAKEN:
        raise Refused(f"{name} {TAKEN[name]}, and can't be a proposition")


def refuse_other_than_variable(name, shown, model):
    """Refuses what is no variable whose value is true or false."""
    if model.is_global(name, NUMBERS):
        return
    for kind, told in OTHER_KINDS.items():
        if model.is_global(name, (kind,)):
            raise Refused(f"{shown} {told}")
    scopes = sorted(scope.strip("<>") for _, scope in model.declared.get(name, ()))
    if scopes:
        raise Refused(f"{shown} is declared in {scopes[0]}; in braces, {{{scopes[0]}:{name}}} names a variable there, and {{{scopes[0]}@{name}}} a label")
    raise Refused(f"{shown} isn't declared in {model.name}")


def is_plain(text, shown, model):
    """Whether a preprocessed expression asks for global variables and channels alone, so that Spin's reductions see all that changes it."""
    tokens = TOKEN.findall(text)
    alone = [it for it in tokens if it not in "()"]
    if len(alone) == 1 and not alone[0].isdigit() and alone[0] not in TRUTHS:
        refuse_other_than_variable(alone[0], shown, model)
    words = [it for it in tokens if it[0].isalpha() or it[0] == "_"]
    for it in words:
        if it in OTHERS or it in RESERVED - QUESTIONS:
            raise Refused(f"{shown} has {it}, which can't be asked of a state")
        if it in model.marked("hidden"):
            raise Refused(f"{shown} has {it}, which is declared as hidden: Spin's search forgets its value")
    fields = {it for before, it in zip(tokens, tokens[1:]) if before == "."}
    has_channel = any(model.is_global(it, ("chan",)) for it in words)
    if "local" in model.words or has_channel and not model.words.isdisjoint(("xr", "xs")):
        return False
    return all(it in fields or it in FUNCTIONS or it in TRUTHS or model.is_global(it, PLAIN) for it in words)


class Property:
    """A formula with names for its propositions, the meaning of each in the model, and whether reductions see all of it.

    `meanings` has a text of the preprocessed model for each name that isn't itself a variable; `shown` what is shown of each."""

    def __init__(self, formula, meanings, shown, plain, name=None):
        self.formula, self.meanings, self.shown, self.plain, self.name = formula, meanings, shown, plain, name
        self.has_next = "X" in formula
        self.propositions = [it for it in dict.fromkeys(NAME.findall(formula)) if it not in CONSTANTS]

    def definitions(self):
        return "".join(f"#define {it} ({text})\n" for it, text in self.meanings.items())


def given_property(formula, model):
    """The formula of the command line over a model that was asked for its names and expressions."""
    taken = {*model.words, *formula.names, *(word for it in model.expanded.values() for word in re.findall(r"\w+", it))}
    names = dict(zip(formula.expressions, fresh_names(len(formula.expressions), taken)))
    meanings, plain = {}, True
    for it in formula.names:
        refuse_name(it)
        text = model.expanded[it]
        if text != it:
            refuse_signs(text)
            meanings[it] = text
        plain = is_plain(text, it, model) and plain
    for it, name in names.items():
        text = model.expanded[it]
        refuse_signs(text)
        meanings[name] = text
        plain = is_plain(text, f"{{{it}}}", model) and plain
    shown = {name: it for it, name in names.items()}
    return Property(formula.named(names), meanings, shown, plain)
