"""Texts, lengths and depths that nobody expects: each is answered or refused, and nothing crashes."""

import copy
import gc
import pickle
import random
import sys
import threading
import unittest
from concurrent.futures import ThreadPoolExecutor

from tests.support import formulas, ltl2ba
from ltl2ba import ClaimError, Formula, FormulaError, HoaError, LtlError, TooLarge, Word, WordError, _calls, check, claim_to_hoa, holds, translate

DEEP = 30000


class TestTexts(unittest.TestCase):
    def test_formulas(self):
        for text in "", " ", "\0", "p\0", "\ud800", "é", "p && é", "p" * 70000, "(" * 65536, "p U", "\n\np U\n", "\x7f":
            with self.assertRaises(LtlError) as caught:
                translate(text)
            str(caught.exception), repr(caught.exception)
            with self.assertRaises(LtlError):
                Formula.parse(text)
            for dialect in "spot", "spin":
                try:
                    Formula.parse(text, dialect)
                except LtlError as fault:
                    str(fault)

    def test_places(self):
        for text, place, shown in ("p && é", 5, "    p && é\n         ^"), ("p\n && (q", 7, "     && (q\n          ^"), ("p" * 100 + " q", 101, None):
            with self.assertRaises(FormulaError) as caught:
                translate(text)
            self.assertEqual(caught.exception.place, place if shown is None or "\n" not in text else 8)
            if shown:
                self.assertEqual(str(caught.exception).partition("\n")[2], shown)

    def test_words(self):
        cycles = (f"cycle {it}" for it in ("", "{p,}", "{p} ", "{p}; cycle {q}", "{true}", "{\0}", "{é}", '{"}'))
        for text in "", "{p}", "cycle", "{p};cycle {p}", *cycles:
            with self.assertRaises(WordError) as caught:
                Word.parse(text)
            str(caught.exception)
        with self.assertRaises(TooLarge):
            Word.parse("; ".join(["{p}"] * 20000) + "; cycle {p}")
        with self.assertRaises(WordError):
            Word([], [])
        with self.assertRaises(IndexError):
            Word([], [{"p"}])[-1]

    def test_words_at_random(self):
        """A text of plain characters is read exactly if the library reads it."""
        chance = random.Random(5)
        for _ in range(3000):
            text = "".join(chance.choice(["{", "}", "p", "q", ",", "; ", "cycle ", "{p}", "true", ";", " "]) for _ in range(chance.randrange(8)))
            try:
                _calls.holds(b"true", text.encode())
                is_word = True
            except WordError as fault:
                is_word, place = False, fault.place
            try:
                self.assertEqual(str(Word.parse(text).canonical) != "", is_word)
            except WordError as fault:
                self.assertEqual((is_word, fault.place), (False, place), text)

    def test_automata(self):
        for text, line in ("", 1), ("HOA: v2\n", 1), ("HOA: v1\n\nStates: 99999999999999999999", 3), ("HOA: v1\n/* AP: 1 \"P\"", 2), ("\0", 1), ("é", 1):
            with self.assertRaises(HoaError) as caught:
                check(text, "p")
            self.assertEqual(caught.exception.line, line, text)
        with self.assertRaises(TooLarge):
            translate(" && ".join(f"<>p{i}" for i in range(20)))
        with self.assertRaises(ValueError):
            translate("p", generalized=True).to_claim()

    def test_claims(self):
        for text, place in ("", (1, 1)), ("never {\n  do :: é od }", (2, 9)), ("never { p }\n\n x", (3, 2)), ("never { \udc80 }", (1, 9)), (b"never { \0 }", (1, 9)), ("never { goto S }", (1, 14)):
            with self.assertRaises(ClaimError) as caught:
                claim_to_hoa(text)
            self.assertEqual((caught.exception.line, caught.exception.column), place, text)
        self.assertIn("--BODY--", claim_to_hoa(f"never {{ {'(' * DEEP}p{')' * DEEP} }}"))

    def test_depths(self):
        for text in "!" * DEEP + "p", "(" * (DEEP // 2) + "p" + ")" * (DEEP // 2), "X" * 4000 + "p", " && ".join(["p"] * 7000):
            it = Formula.parse(text)
            self.assertEqual(it, Formula.parse(text))
            hash(it), repr(it), it.propositions, len(list(it.subformulas()))
            self.assertEqual(copy.deepcopy(it) if len(it.canonical) < 40000 else it, it)
        del it
        gc.collect()
        with self.assertRaises(TooLarge):
            Formula.parse("X[99999999999999999999]p", "spot")
        with self.assertRaises(FormulaError):
            Formula.parse("F[5:2]p", "spot")

    def test_growing_objects(self):
        it = ltl2ba.proposition("p")
        for _ in range(200):
            it = it & it
        self.assertEqual(len(list(it.subformulas())), 201)
        self.assertTrue(it == it and str(it).startswith("<formula of"))
        other = ltl2ba.proposition("p")
        for _ in range(200):
            other = other & other
        self.assertEqual(it, other)
        for call in (lambda: it.canonical), (lambda: translate(it)), (lambda: pickle.dumps(it)):
            with self.assertRaises(TooLarge):
                call()

    def test_pickles(self):
        for it in Formula.parse('G(Req -> F "bus.x") W a xor b', "spot"), Word.parse('{"X y"}; cycle {p}'), FormulaError("m", "t", 1), HoaError("m", 3), ClaimError("m", 3, 4):
            other = pickle.loads(pickle.dumps(it))
            self.assertEqual(str(other), str(it))

    def test_objects_are_no_truth_values(self):
        p = ltl2ba.proposition("p")
        with self.assertRaises(TypeError):
            bool(p)
        with self.assertRaises(ValueError):
            ltl2ba.proposition('say "p"')
        with self.assertRaises(ValueError):
            Formula("U", (p,))


class TestThreads(unittest.TestCase):
    def test_many_threads(self):
        """Threads that call at the same time get what one gets."""
        asked = formulas(200, 9)

        def answer(formula):
            try:
                made = translate(formula)
                return made.to_hoa(), made.edges, str(check(made, "<>[]p")), holds(formula, "{p}; cycle {q}; {r}")
            except TooLarge as refusal:
                return str(refusal)

        wanted = [answer(it) for it in asked]
        with ThreadPoolExecutor(8) as pool:
            for _ in range(3):
                self.assertEqual(list(pool.map(answer, asked)), wanted)

    def test_small_stack(self):
        """A thread with 128 KiB of stack answers for long formulas."""
        found = []
        before = threading.stack_size(131072)
        try:
            thread = threading.Thread(target=lambda: found.append(_calls.text(b"!" * 65535 + b"p", ltl2ba._calls.abi.Options())))
            thread.start()
            thread.join()
        finally:
            threading.stack_size(before)
        self.assertEqual(len(found), 1)


if __name__ == "__main__":
    sys.exit(unittest.main())
