"""What the page answers: sections on formulas, pairs of formulas and words."""

from web.hints import FORM, formula_hint, read_apart, respelled
from web.markup import address, advice, block, code, folded, link, marked, number, section, sentence, shown
from web.pictures import picture
from web.timelines import timeline

EXAMPLES = [
    ("[](p -> <>q)", "", ""),
    ("[]<>p", "<>[]p", ""),
    ("p U q", "!(!p R !q)", ""),
    ("[](wants -> <>has)", "", "{}; cycle {wants}; {wants,has}; {}"),
    ("p W q", "", ""),
]


class Formula:
    """A formula: its file, and its automaton, which is the reduced one if the request asks for it and there is one."""

    def __init__(self, room, name, text):
        self.text, self.file = text, room.put(name, text)
        self.ran = room.run("ltl2ba", "-H", "-F", self.file)
        self.has_automaton = self.ran.status == 0
        self.is_formula = self.ran.place() is None and "formula longer" not in self.ran.message
        self.canonical, self.shown, self.given, self.unreduced = text, self.ran, "", ""
        # The automaton without its name, which would be a picture's title.
        self.unnamed = room.folder / f"{name}.hoa"
        if self.has_automaton:
            self.read()
            if room.reduces:
                self.reduce(room)

    def read(self):
        """The sizes of the automaton that is shown."""
        self.states = self.edges = 0
        with open(self.shown.output, encoding="utf-8", errors="replace") as lines, open(self.unnamed, "w", encoding="utf-8") as unnamed:
            for line in lines:
                self.edges += line.startswith("[")
                self.states += line.startswith("State:")
                if line.startswith('name: "'):
                    self.canonical = line[len('name: "') :].rstrip().removesuffix('"')
                else:
                    unnamed.write(line)

    def reduce(self, room):
        """Takes the reduced automaton in place of the formula's own, or tells why there is none."""
        made = room.run("ltlreduce", "-A", str(self.ran.output)) if room.has("ltlreduce") else None
        if made and made.status == 0:
            self.given, self.shown = self.sizes(), made
            self.read()
        else:
            self.unreduced = made.fault() if made else "ltlreduce is not built"

    def sizes(self):
        return f"{number(self.states, 'state', 'states')} and {number(self.edges, 'edge', 'edges')}"

    def claim(self, room):
        """The never claim of the automaton that is shown."""
        return room.run("ltlreduce", "-c", "-A", str(self.ran.output)) if self.given else room.run("ltl2ba", "-F", self.file)


def fault(ran, text):
    """Why there is no answer, with the place in the formula and what to write there."""
    place = ran.place()
    if place is None:
        return sentence(ran.fault(), "no")
    hint = formula_hint(text, place, ran.message.rpartition(": ")[2])
    return "\n".join([sentence(ran.fault(), "no"), marked(text, place), *([advice(hint)] if hint else [])])


def word_fault(ran, word, formulas, reduces):
    """Why there is no answer for a word, with the place in it and how words are written."""
    place = ran.place()
    if place is None:
        return sentence(ran.fault(), "no")
    other = respelled(word)
    ask = link(address(*(it.text for it in formulas), word=other, reduces=reduces), code(other)) if other else ""
    meant = [f"<p>Perhaps this is meant: {ask}</p>"] if other else []
    return "\n".join([sentence(ran.fault(), "no"), marked(word, place), *meant, advice(FORM)])


def automaton(room, formula, title, word, *more):
    """The formula as it was read, and its automaton, with a run on the word if there is one."""
    if not formula.has_automaton:
        return section(title, fault(formula.ran, formula.text))
    texts = [("The never claim, for Spin", formula.claim(room)), ("The automaton in the Hanoi Omega-Automata format", formula.shown)]
    details = "".join(folded(it, block(*ran.text()) if ran.status == 0 else sentence(ran.fault(), "no")) for it, ran in texts)
    size = f"{formula.given}; reduced, it has {formula.sizes()}" if formula.given else formula.sizes()
    read = f"<p>It is read as {code(formula.canonical)}. Its automaton has {size}.</p>"
    if formula.unreduced:
        read += sentence(f"It isn’t reduced: {formula.unreduced}.", "aside")
    apart = list(read_apart(formula.text))[:1]
    note = advice(["A capital within ", apart[0], " is read as an operator: a name has lower-case letters, digits and ", "_", " alone."]) if apart else ""
    return section(title, read, note, *more, picture(room, formula, word), details)


def holds(room, formula, word):
    """Whether the formula holds on the word, or nothing, and the run that says so."""
    ran = room.run("ltleval", "-F", formula.file, f"-w={word}")
    return {0: True, 1: False}.get(ran.status), ran


def word_of(ran):
    """The word that a check found, or nothing if it is too long to be shown."""
    text, left_out = ran.text()
    return None if left_out else text.split("\n")[1]


def disagrees(word):
    return sentence(f"ltleval doesn’t agree about the word {word}", "no")


def truths(room, formula):
    """Whether some word satisfies the formula, and whether all words do, each with a word that shows it."""
    if not formula.has_automaton:
        return ""
    anything = Formula(room, "anything", "true")
    checks = [(formula, room.put("nothing", "false"), True), (anything, formula.file, False)]
    said = {
        (True, 0): "It isn’t satisfiable: it holds on no word.",
        (True, 1): "It is satisfiable: it holds on ",
        (False, 0): "It is valid: it holds on every word.",
        (False, 1): "It isn’t valid: it fails on ",
    }
    parts = []
    for automata, file, wanted in checks:
        ran = room.run("ltlcheck", "-A", str(automata.ran.output), "-F", file)
        told = said.get((wanted, ran.status))
        if told is None:
            parts.append(sentence(f"Whether it is {'satisfiable' if wanted else 'valid'} isn’t known. {ran.fault()}", "no"))
        elif ran.status == 0:
            parts.append(sentence(told, "said"))
        else:
            parts.append(shown_by(room, formula, told, word_of(ran), wanted))
    return "\n".join(parts)


def shown_by(room, formula, told, word, wanted):
    """A sentence that ends with a word, on which the formula holds or not, as the sentence says."""
    if word is None:
        return f'<p class="said">{shown(told)}a word that is too long to be shown.</p>'
    truth = holds(room, formula, word)[0]
    if truth is not None and truth != wanted:
        return disagrees(word)
    return f'<p class="said">{shown(told)}{link(address(formula.text, word=word, reduces=room.reduces), code(word))}.</p>'


RELATIONS = {
    "equivalent": "They are equivalent: the same words satisfy both.",
    "first implies second": "The first implies the second, and not the other way round.",
    "second implies first": "The second implies the first, and not the other way round.",
    "incomparable": "Neither implies the other.",
}


def pair(room, first, second):
    """Whether the first formula implies the second, whether they are equivalent, and words on which they differ."""
    title = "The two formulas"
    ran = room.run("ltlcompare", "-F", first.file, "-G", second.file)
    text, left_out = ran.text()
    relation, *lines = text.split("\n")
    if ran.status not in (0, 1) or relation not in RELATIONS:
        return section(title, sentence(ran.fault(), "no"))
    parts = [apart(room, first, second, *it.partition(": ")[::2]) for it in lines[:-1]]
    if left_out:
        parts.append(sentence("A word that tells them apart is too long to be shown."))
    return section(title, sentence(RELATIONS[relation], "yes" if ran.status == 0 else "said"), *parts)


def apart(room, first, second, label, word):
    """The word of a comparison on which one formula holds and the other doesn't."""
    is_first = label == "first only"
    judged = [holds(room, it, word)[0] for it in (first, second)]
    if None not in judged and judged != [is_first, not is_first]:
        return disagrees(word)
    holding, failing = ("first", "second") if is_first else ("second", "first")
    lines = [timeline(room, word, it.canonical) for it in (first, second)]
    return "\n".join([
        f"<p>On this word the {holding} one holds, and the {failing} one doesn’t: {code(word)}</p>",
        *(f"{sentence(f'The {which} formula on it:', 'aside')}\n{it}" for which, it in zip(("first", "second"), lines) if it),
        f'<p class="aside">{link(address(first.text, second.text, word, reduces=room.reduces), "Ask about this word")}</p>',
    ])  # fmt: skip


def on_word(room, formulas, word):
    """The formulas that hold on the word. One that can't be read is named, and the word is looked at even if no formula can."""
    parts, asked = [f"<p>{code(word)}</p>"], [it for _, it in formulas]
    if not any(it.is_formula for it in asked):
        truth, ran = holds(room, Formula(room, "anything", "true"), word)
        parts += [word_fault(ran, word, asked, room.reduces)] if truth is None else []
    for which, formula in formulas:
        if not formula.is_formula:
            parts.append(sentence(f"{which} can’t be read, so nothing is known of it on this word."))
            continue
        truth, ran = holds(room, formula, word)
        if truth is None:
            parts.append(word_fault(ran, word, asked, room.reduces))
            break
        parts.append(f'<p class="{"yes" if truth else "said"}">{which} {"holds" if truth else "doesn’t hold"} on it.</p>')
        parts.append(timeline(room, word, formula.canonical))
    return section("The word", *parts)


def answers(room, formula, second, word):
    """The answers to a request, the shortest ones first."""
    if not formula:
        return section("The formula", sentence("There is no formula in the first field, so nothing is answered.", "no"))
    texts = {"The first formula": formula, "The second formula": second} if second else {"The formula": formula}
    formulas = [(title, Formula(room, f"formula{k}", text)) for k, (title, text) in enumerate(texts.items())]
    parts = []
    if second and all(it.is_formula for _, it in formulas):
        parts.append(pair(room, *(it for _, it in formulas)))
    if word:
        parts.append(on_word(room, formulas, word))
    for title, it in formulas:
        parts.append(automaton(room, it, title, word, "" if second else truths(room, it)))
    here = link(address(formula, second, word, reduces=room.reduces), "a link to it")
    return "\n".join([*parts, f'<p class="aside">The address of this page has all that was asked for: {here}.</p>'])


def picture_alone(room, formula, word):
    """The picture of a formula's automaton at its full size."""
    one = Formula(room, "formula0", formula)
    back = f'<p class="aside">{link(address(formula, word=word, reduces=room.reduces), "The formula’s page")}</p>'
    if not one.has_automaton:
        return section("The picture", fault(one.ran, one.text), back)
    about = f"<p>{code(one.canonical)}{f' on {code(word)}' if word else ''}</p>"
    return section("The picture", about, back, picture(room, one, word, at_full_size=True))


def examples():
    rows = []
    for formula, second, word in EXAMPLES:
        what = code(formula) + (f" and {code(second)}" if second else "") + (f" on {code(word)}" if word else "")
        rows.append(f"<li>{link(address(formula, second, word), what)}</li>")
    return "\n".join(rows)
