"""Blocks `ltl` of a model: Spin says with all brackets how it reads one, and this text is put into other words."""

import re

from promela.models import refuse_by
from promela.propositions import CONSTANTS, NAME, NUMBERS, RESERVED, TAKEN, Property, fresh_names, is_plain
from promela.rooms import Refused

UNARY = "!", "[]", "<>", "X"
# Spin writes an implication by its negated first operand; an arrow is part of an expression.
BINARY = "U", "V", "W", "&&", "||", "<->"
# What Spin calls the numbers that are always and never true.
TRUTHS = {"1": "true", "true": "true", "skip": "true", "0": "false", "false": "false"}


def reading(block, model):
    """How Spin reads a block: the text that it prints of it before it translates it. What it is given begins with X, which it prints and then refuses."""
    part = model.room.part()
    (part / "block.pml").write_text(f"{model.text}\nltl {block.name} {{ X (\n{block.place}\n{block.text}) }}\n", encoding="utf-8", errors="surrogateescape")
    ran = model.room.run("reading a block", model.tools["spin"], "-a", "block.pml", folder=part)
    told = re.search(rf"^ltl {re.escape(block.name)}: X \((.*)\)$", ran.text(), re.M)
    if not told:
        refuse_by(ran, "spin", f"the block {block.name}")
    return told[1]


def group(text, begin):
    """The place behind the bracket that closes the one at `begin`."""
    depth = 0
    for k in range(begin, len(text)):
        depth += (text[k] == "(") - (text[k] == ")")
        if not depth:
            return k + 1
    raise Refused(f"Spin's reading of a block has brackets without a partner: {text}")


def without_brackets(text):
    while text.startswith("(") and group(text, 0) == len(text):
        text = text[1:-1]
    return text


def parts(text):
    """An operator and its operands, or no operator and the text, which is an expression of the model."""
    text = without_brackets(text)
    for it in UNARY:
        if text.startswith(f"{it} (") and group(text, len(it) + 1) == len(text):
            return it, [text[len(it) + 2 : -1]]
    if text.startswith("("):
        end = group(text, 0)
        found = re.match(r" (\S+) (?=\()", text[end:])
        if found and found[1] in BINARY and group(text, end + found.end()) == len(text):
            return found[1], [text[1 : end - 1], text[end + found.end() + 1 : -1]]
    return None, [text]


def written(text, name_of):
    """The formula in the words of ltl2ba. What is still to be written waits in a list, so that no depth is too great."""
    waiting, done = [text], []
    while waiting:
        it = waiting.pop()
        if isinstance(it, tuple):
            done.append(it[0])
            continue
        sign, operands = parts(it)
        if sign is None:
            done.append(name_of(operands[0]))
        elif sign == "W":
            left, right = operands
            waiting += [("))",), right, (" || ",), left, (" V (",), right, ("(",)]
        elif len(operands) == 1:
            waiting += [(")",), operands[0], (f"{sign}(",)]
        else:
            waiting += [(")",), operands[1], (f" {sign} ",), operands[0], ("(",)]
    return "".join(done)


def block_property(block, model):
    """The property of a block."""
    text, found = reading(block, model), {}
    names = iter(fresh_names(len(text), {*model.words, *re.findall(r"\w+", text)}))

    def name_of(atom):
        if atom in TRUTHS:
            return TRUTHS[atom]
        if atom not in found:
            is_name = NAME.fullmatch(atom) and atom not in CONSTANTS and atom not in RESERVED and atom not in TAKEN and model.is_global(atom, NUMBERS)
            found[atom] = atom if is_name else next(names)
        return found[atom]

    formula = written(text, name_of)
    plain = all([is_plain(it, it, model) for it in found])
    meanings = {name: it for it, name in found.items() if name != it}
    return Property(formula, meanings, dict(meanings), plain, block.name)
