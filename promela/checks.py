"""One check of a model: the claim, the search, the run, and that the run violates the formula."""

import re
import sys

from promela.blocks import block_property
from promela.models import Model
from promela.propositions import Formula, fresh_names, given_property
from promela.reports import legend, table
from promela.rooms import OutOfTime, Refused
from promela.searches import Search
from promela.trails import replayed

# The most bytes of a word that ltleval reads.
WORD_BYTES = 65_536


def refuse_formula(room, programs, formula):
    """Refuses what is no formula, with the place in the text that was given."""
    names = dict(zip(formula.expressions, fresh_names(len(formula.expressions), formula.names)))
    ran = room.run("reading the formula", programs["ltleval"], "-f", formula.named(names), "-w", "cycle {}", has_limit=True)
    said = re.fullmatch(r"ltleval: formula: byte (\d+): (.*)\n", ran.text())
    if said:
        raise Refused(f"formula: byte {formula.place(int(said[1]), names)}: {said[2]}")
    if ran.status not in (0, 1) or ran.text() not in ("true\n", "false\n"):
        raise Refused(ran.text().strip() or f"ltleval ended with status {ran.status}")


def claim_of(room, programs, prop):
    """The claim of the negation's automaton, reduced."""
    ran = room.run("translating", programs["ltl2ba"], "-H", "-f", f"!({prop.formula})", has_limit=True)
    if ran.status or not ran.text().startswith("HOA:"):
        raise Refused(ran.text().strip() or f"ltl2ba ended with status {ran.status}")
    room.put("claim.hoa", ran.text())
    ran = room.run("reducing", programs["ltlreduce"], "-c", "-A", "claim.hoa", has_limit=True)
    if ran.status or not ran.text().startswith("never {"):
        raise Refused(ran.text().strip() or f"ltlreduce ended with status {ran.status}")
    return ran.text()


def all_violate(room, programs, prop, run):
    """Whether ltlcheck says that the formula is false on all words that begin as the run does, and what it said."""
    room.put("beginning.hoa", (run if prop.has_next else run.squeezed()).automaton(prop.propositions))
    ran = room.run("confirming", programs["ltlcheck"], "-A", "beginning.hoa", "-f", f"!({prop.formula})", has_limit=True)
    return (ran.status, ran.text()) == (0, "contained\n"), ran.text()


def first_violating(room, programs, prop, run):
    """The shortest beginning of a run behind which all words violate the formula."""
    violates, said = all_violate(room, programs, prop, run)
    if not violates:
        raise Refused(f"Spin reports a violation, but ltlcheck doesn't confirm it: {said.strip()}\n{run.word()}")
    short, long = 0, len(run.states)
    while long - short > 1:
        middle = (short + long) // 2
        if all_violate(room, programs, prop, run.beginning_of(middle))[0]:
            long = middle
        else:
            short = middle
    return run.beginning_of(long)


def confirmed(room, programs, prop, run):
    """The run, and the word on which ltleval has said that the formula is false. If the run has no cycle, ltlcheck has said so of all words that begin as it
    does. A word that is too long has letters that repeat once each, if there is no X."""
    if run.stem is None:
        run = first_violating(room, programs, prop, run)
    word = run.word()
    if len(word) > WORD_BYTES and not prop.has_next:
        word = run.squeezed().word()
    if len(word) > WORD_BYTES:
        advice = "a smaller --depth may find a shorter one"
        raise Refused(f"Spin reports a violation, but its run has {len(run.states)} states, too many for ltleval to confirm it; {advice}")
    ran = room.run("confirming", programs["ltleval"], "-f", prop.formula, "-w", word, has_limit=True)
    if (ran.status, ran.text()) != (1, "false\n"):
        raise Refused(f"Spin reports a violation, but ltleval doesn't confirm it: {ran.text().strip()}\n{word}")
    return run, word


def check(room, programs, model, prop, options):
    """The lines of the answer, and the status."""
    base = f'{model.text}\n# 1 "formula"\n{prop.definitions()}'
    claim = claim_of(room, programs, prop)
    found = Search(room, programs, base, claim, prop.has_next or not prop.plain, options.fair).found(options.depth)
    if not found:
        return ["holds"], 0
    run, word = confirmed(room, programs, prop, replayed(room, programs, found, base, prop.propositions))
    return ["violated", *table(run, prop.propositions, prop.shown), *legend(prop.shown), f"word: {word}"], 1


def answer(room, programs, options):
    """Prints the answer, and returns the status."""
    if options.formula is not None:
        formula = Formula(options.formula)
        refuse_formula(room, programs, formula)
        model = Model(room, programs, options.model, options.defines, [*formula.names, *formula.expressions])
        lines, status = check(room, programs, model, given_property(formula, model), options)
        print("\n".join(lines))
        return status
    model = Model(room, programs, options.model, options.defines, [])
    if not model.blocks:
        raise Refused(f"{model.name} has no block ltl, and no formula is given")
    worst = 0
    for it in model.blocks:
        try:
            lines, status = check(room, programs, model, block_property(it, model), options)
            print(f"{it.name}: " + "\n".join(lines), flush=True)
        except OutOfTime:
            raise
        except Refused as refusal:
            print(f"{it.name}: no answer", flush=True)
            print(f"ltlspin: {it.name}: {refusal}", file=sys.stderr)
            status = 3
        worst = max(worst, status) if 1 not in (worst, status) else 1
    return worst
