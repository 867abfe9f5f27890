"""The module agrees with the programs: in every text, array, verdict, word, graph and timeline."""

import random
import re
import unittest
from concurrent.futures import ThreadPoolExecutor

from tests.support import formulas, ltl2ba, program, ran, words

COUNT, SEED = 1000, 77
FLAGS = {"rewrite": "-l", "keep_implied": "-o", "keep_equal": "-p"}


def hoa_of(it):
    """What the arrays of an automaton are in HOA format: the lines from the propositions on, without those of its kind."""
    lines = [f"AP: {len(it.propositions)}" + "".join(f' "{name}"' for name in it.propositions)]
    for state in it.states:
        lines.append(f"State: {state}" + (" {0}" if state in it.accepting and not it.is_generalized else ""))
        for edge in it.edges_of(state):
            numbers = [("" if asked else "!") + str(it.propositions.index(name)) for name, asked in edge.label.literals]
            sets = f" {{{' '.join(map(str, sorted(edge.sets)))}}}" if edge.sets else ""
            lines.append(f"[{'&'.join(numbers) or 't'}] {edge.target}{sets}")
    return lines


class TestPrograms(unittest.TestCase):
    @classmethod
    def setUpClass(cls):
        for name in "ltl2ba", "ltlcheck", "ltleval", "ltldraw", "ltlclaim", "ltlreduce":
            program(name)
        cls.formulas = formulas(COUNT, SEED)
        cls.pool = ThreadPoolExecutor()

    @classmethod
    def tearDownClass(cls):
        cls.pool.shutdown()

    def all_hold(self, check, items):
        """Every check gives no fault."""
        faults = [it for it in self.pool.map(check, items) if it]
        self.assertEqual(faults, [])

    def test_texts_and_arrays(self):
        def fault(asked):
            number, formula = asked
            chance = random.Random(number)
            options = {name: chance.random() < 0.5 for name in FLAGS} if number % 3 == 0 else {"rewrite": True, "keep_implied": False, "keep_equal": False}
            flags = [FLAGS[name] for name, value in options.items() if value == (name != "rewrite")]
            try:
                made = ltl2ba.translate(formula, **options)
                sets = ltl2ba.translate(formula, **options, generalized=True)
            except ltl2ba.TooLarge as refusal:
                seen = ran("ltl2ba", *flags, "-H", "-f", formula), ran("ltl2ba", *flags, "-G", "-f", formula)
                return None if any(it[1:] == (f"ltl2ba: {refusal}\n", 3) for it in seen) else (formula, str(refusal), seen)
            wanted = [ran("ltl2ba", *flags, *layout, "-f", formula) for layout in ([], ["-H"], ["-G"])]
            seen = [(text, "", 0) for text in (made.to_claim(), made.to_hoa(), sets.to_hoa())]
            for automaton, (text, _, _) in (made, wanted[1]), (sets, wanted[2]):
                shown = [it for it in text.split("\n") if re.match(r"AP:|State:|\[", it)]
                if hoa_of(automaton) != shown:
                    return formula, flags, hoa_of(automaton), shown
            told = re.search(r"^Acceptance: (\d+)", wanted[2][0], re.M)[1]
            return None if seen == wanted and sets.sets == int(told) else (formula, flags, seen, wanted)

        self.all_hold(fault, enumerate(self.formulas))

    def test_graphs(self):
        def fault(formula):
            for is_generalized in False, True:
                try:
                    made = ltl2ba.translate(formula, generalized=is_generalized)
                except ltl2ba.TooLarge:
                    continue
                drawn = ran("ltldraw", given=made.to_hoa())
                try:
                    seen = made.to_dot(), "", 0
                except ltl2ba.HoaError as refusal:
                    seen = "", f"ltldraw: {refusal}\n", 3
                if drawn != seen:
                    return formula, is_generalized, drawn, seen
            return None

        self.all_hold(fault, self.formulas)

    def test_reductions(self):
        def fault(formula):
            for is_generalized in False, True:
                try:
                    given = ltl2ba.translate(formula, generalized=is_generalized)
                except ltl2ba.TooLarge:
                    continue
                made = given.reduced()
                told, message, status = ran("ltlreduce", given=given.to_hoa())
                shown = [it for it in told.split("\n") if re.match(r"AP:|State:|\[", it)]
                untitled = "".join(it for it in made.to_hoa().splitlines(True) if not it.startswith("name:"))
                if (untitled, "", 0) != (told, message, status) or hoa_of(made) != shown:
                    return formula, is_generalized, untitled, told, message
                if made.formula != given.formula or (made.sets, len(made.edges)) > (max(1, given.sets), len(given.edges)):
                    return formula, is_generalized, made.formula, made.sets, len(made.edges)
                if not ltl2ba.check(made, formula) or made.to_dot() != ran("ltldraw", given=made.to_hoa())[0]:
                    return formula, is_generalized, "check or graph"
            return None

        self.all_hold(fault, self.formulas)

    def test_claims(self):
        def fault(asked):
            number, formula = asked
            try:
                claim = ltl2ba.translate(formula).to_claim()
            except ltl2ba.TooLarge:
                return None
            if number % 2:
                place = random.Random(number).randrange(len(claim))
                claim = claim[:place] + claim[place + 1 :]
            told = ran("ltlclaim", given=claim)
            try:
                seen = ltl2ba.claim_to_hoa(claim), "", 0
            except ltl2ba.ClaimError as refusal:
                place = re.search(r"line (\d+), column (\d+)", str(refusal)).groups()
                if place != (str(refusal.line), str(refusal.column)):
                    return claim, place
                seen = "", f"ltlclaim: {refusal}\n", 3
            return None if told == seen else (claim, told, seen)

        self.all_hold(fault, enumerate(self.formulas))

    def test_verdicts(self):
        def fault(pair):
            left, right = pair
            try:
                made = ltl2ba.translate(left)
                verdict = ltl2ba.check(made, right)
            except ltl2ba.TooLarge:
                return None
            shown, _, status = ran("ltlcheck", "-f", right, given=made.to_hoa())
            return None if (f"{verdict}\n", 0 if verdict else 1) == (shown, status) else (pair, verdict, shown)

        self.all_hold(fault, zip(self.formulas, self.formulas[1:] + self.formulas[:1]))

    def test_words(self):
        def fault(pair):
            formula, word = pair
            truth = ltl2ba.holds(formula, word)
            if ltl2ba.holds(formula, str(word)) != truth or ltl2ba.holds(ltl2ba.Formula.parse(formula), word) != truth:
                return pair
            shown, _, _ = ran("ltleval", "-f", formula, "-w", str(word))
            return None if shown == f"{'true' if truth else 'false'}\n" else (pair, shown)

        self.all_hold(fault, zip(self.formulas, words(COUNT, SEED)))

    def test_timelines(self):
        def fault(pair):
            formula, word = pair
            shown, _, status = ran("ltldraw", "-t", str(word), "-f", formula)
            return None if (f"{ltl2ba.timeline(formula, word)}\n", 0) == (shown, status) else (pair, shown, str(ltl2ba.timeline(formula, word)))

        self.all_hold(fault, list(zip(self.formulas, words(COUNT, SEED + 1)))[:300])
        long = ltl2ba.Word([{"p"}] * 7, [{"q", "z1"}] * 105)
        self.assertIsNone(fault(("p U q", long)))
        self.assertEqual(ran("ltldraw", "-t", str(long))[0], f"{ltl2ba.timeline(None, long)}\n")

    def test_answers(self):
        """Each word of an answer does what the answer says, by the evaluator."""

        def fault(pair):
            left, right = pair
            try:
                compared, is_satisfiable, is_valid = ltl2ba.compare(left, right), ltl2ba.is_satisfiable(left), ltl2ba.is_valid(left)
                equivalent = ltl2ba.equivalent(left, right)
            except ltl2ba.TooLarge:
                return None
            truths = [(compared.only_left, True, False), (compared.only_right, False, True), (compared.both, True, True)]
            told = [(word, one, two) for word, one, two in truths if word and (ltl2ba.holds(left, word), ltl2ba.holds(right, word)) != (one, two)]
            if isinstance(is_satisfiable, ltl2ba.Satisfiable) and not ltl2ba.holds(left, is_satisfiable.word):
                told.append(is_satisfiable)
            if isinstance(is_valid, ltl2ba.Violated) and ltl2ba.holds(left, is_valid.word):
                told.append(is_valid)
            if bool(equivalent) != compared.equivalent or bool(is_satisfiable) != bool(compared.only_left or compared.both):
                told.append((equivalent, compared, is_satisfiable))
            return (pair, told) if told else None

        self.all_hold(fault, zip(self.formulas[:500], self.formulas[500:]))
        self.assertTrue(ltl2ba.equivalent("p U q || []p", "q V (p || q)"))

    def test_messages(self):
        for formula in "p U", "p && 1", "", "(p", "p)", "p q", "<", "\x00", "[]" * 40000, " && ".join(f"p{i}" for i in range(257)):
            given = {"given": formula}
            wanted = ran("ltl2ba", "-F", "/dev/stdin", **given)
            with self.assertRaises(ltl2ba.LtlError) as caught:
                ltl2ba.translate(formula)
            self.assertEqual((f"ltl2ba: {str(caught.exception).splitlines()[0]}\n", 3), wanted[1:])


if __name__ == "__main__":
    unittest.main()
