"""Formulas as three tools write them: against the library, against tables, and against Spin if it is installed."""

import os
import random
import shutil
import subprocess
import tempfile
import unittest
from pathlib import Path

from tests.support import TOP, formulas, ltl2ba, program
from ltl2ba import Formula, FormulaError, LtlError, equivalent, translate

SIGNS = "p", "q", "r", "true", "(", ")", "!", "[]", "<>", "X", "G", "F", "U", "V", "R", "&&", "||", "/\\", "\\/", "->", "<->", " ", "pUq", "&", "W", "1"
BINARY, UNARY, NAMES, CLOSING = ["&&", "||", "->", "<->", " U ", "V"], ["", "!", "[]", "X ", "("], "pqr", ["", "", ")"]
# Texts, and formulas of the library that have their meaning.
SPOT = [
    ("a U b U c", "a U (b U c)"),
    ("a R b U c", "a V (b U c)"),
    ("a -> b <-> c", "a -> (b <-> c)"),
    ("a <-> b -> c", "a <-> (b -> c)"),
    ("a -> b -> c", "a -> (b -> c)"),
    ("a | b & c", "a || (b && c)"),
    ("a xor b & c", "!(a <-> (b && c))"),
    ("a ^ b", "!(a <-> b)"),
    ("F a U G b", "(<>a) U ([]b)"),
    ("GFa", "[]<>a"),
    ("XXa", "X X a"),
    ("~a => b <=> c", "!a -> (b <-> c)"),
    ("a --> b <--> c", "a -> (b <-> c)"),
    ("0 | 1 & TRUE & !False", "false || (true && true && !false)"),
    ("a W b", "[]a || (a U b)"),
    ("a M b", "b U (a && b)"),
    ("a W b W c", "[]a || (a U ([]b || (b U c)))"),
    ("X[3] a", "X X X a"),
    ("X[0] a", "a"),
    ("F[1:3] a", "X a || X X a || X X X a"),
    ("G[0..2] a", "a && X a && X X a"),
    ("F[2:] a", "X X <>a"),
    ("G[1:$] a", "X []a"),
    ("() a", "X a"),
    ("[](a)", "[]a"),
]
SPOT_NAMES = [("Ab.c_1 & \"x > 0\"", ("Ab.c_1", "x > 0")), ("aUb", ("aUb",)), ("_a", ("_a",)), ("Up U Wp", ("Up", "Wp")), ('"p" & p', ("p",))]
SPOT_REFUSED = "a ^ b | c", "a | b ^ c", "F1", "F[2]a", "F[3:1] a", 'a & ""', 'a & "\t"', "a & 2", "X[", "a @ b", 'a "b"'
SPIN = [
    ("p -> q -> r", "(p -> q) -> r"),
    ("p <-> q -> r", "(p <-> q) -> r"),
    ("p || q && r", "p || (q && r)"),
    ("[] p U q", "([]p) U q"),
    ("<> p U q && r", "((<>p) U q) && r"),
    ("always p until q", "([]p) U q"),
    ("p && q U r || p", "(p && (q U r)) || p"),
    ("p U q U r", "(p U q) U r"),
    ("p V q V r", "(p V q) V r"),
    ("[] p && q", "([]p) && q"),
    ("! p U q", "(!p) U q"),
    ("p U [] q U r", "(p U []q) U r"),
    ("p W q", "[]p || (p U q)"),
    ("p U q W r", "[](p U q) || ((p U q) U r)"),
    ("p until q release r", "(p U q) V r"),
    ("always eventually p", "[]<>p"),
    ("p implies q equivalent r", "(p -> q) <-> r"),
    ("p weakuntil 0 || p stronguntil 1", "[]p || true"),
    ("[](p) || <>(q)", "[]p || <>q"),
]
SPIN_NAMES = [
    ("x>3 && y == 2", ("x > 3", "y == 2")),
    ("x <-> y<3", ("x", "y < 3")),
    ("x->y", ("x", "y")),
    ("len(queue) == 3 -> a[i-1] != b.c", ("len(queue) == 3", "a[i - 1] != b.c")),
    ("proc[0]@label U Free", ("proc[0]@label", "Free")),
    ("x > -1", ("x > -1",)),
    ("!(x == 3) && !a[i+1]", ("x == 3", "a[i + 1]")),
]
SPIN_REFUSED = "p &", "p /\\ q", "G p", "2", "p R q", "1 == 1", "(x + 1) > 2", "p q", "!x == 3", "[]!x > 3", "[] x == 3", "eventually x > 3"


class TestOwn(unittest.TestCase):
    def test_as_the_library(self):
        """A text is refused at the same place, or has the same canonical text."""
        chance, read = random.Random(11), 0
        for number in range(4000):
            signs = [SIGNS] * chance.randrange(1, 9) if number % 2 else [["p"], *[BINARY, UNARY, NAMES, CLOSING] * chance.randrange(6)]
            text = "".join(map(chance.choice, signs))
            try:
                wanted = translate(text).formula
            except LtlError as fault:
                with self.assertRaises(type(fault)) as caught:
                    Formula.parse(text)
                self.assertEqual(str(caught.exception), str(fault))
                continue
            read += 1
            self.assertEqual(Formula.parse(text).canonical, wanted, text)
        self.assertGreater(read, 500)

    def test_faults_of_the_reader(self):
        """The reader of this module finds the library's faults at the same places."""
        from ltl2ba.dialects import DIALECTS, Reader

        chance, refused = random.Random(12), 0
        for _ in range(4000):
            text = "".join(chance.choice(SIGNS) for _ in range(chance.randrange(1, 9)))
            try:
                translate(text)
            except FormulaError as fault:
                refused += 1
                with self.assertRaises(FormulaError) as caught:
                    Reader(text, DIALECTS["ltl2ba"]).read()
                self.assertEqual(str(caught.exception), str(fault), text)
        self.assertGreater(refused, 500)

    def test_round_trip(self):
        for text in formulas(300, 21):
            it = Formula.parse(text)
            self.assertEqual(Formula.parse(str(it), "spot"), it)
            self.assertEqual(Formula.parse(it.canonical), it)
            self.assertEqual(translate(it), translate(text))


class TestTables(unittest.TestCase):
    def check(self, rows, dialect):
        for text, wanted in rows:
            self.assertTrue(equivalent(Formula.parse(text, dialect), wanted), text)

    def test_spot(self):
        self.check(SPOT, "spot")

    def test_spin(self):
        self.check(SPIN, "spin")

    def test_table_of_the_page(self):
        """Each cell of the table in docs/PYTHON.md is what its dialect reads."""
        page = (TOP / "docs/PYTHON.md").read_text(encoding="utf-8")
        table = page.partition("| | `ltl2ba` | `spot` | `spin` |\n|---|---|---|---|\n")[2].partition("\n\n")[0]
        rows = [[it.replace("\\|", "|") for it in line.strip("| ").split(" | ")] for line in table.split("\n")]
        self.assertGreater(len(rows), 5)
        for text, *cells in rows:
            for dialect, cell in zip(("ltl2ba", "spot", "spin"), cells):
                it = Formula.parse(text.strip("`"), dialect)
                self.assertEqual(it, ltl2ba.proposition(text.strip("`")) if cell == "a proposition" else Formula.parse(cell.strip("`")), (text, dialect))

    def test_names(self):
        for rows, dialect in (SPOT_NAMES, "spot"), (SPIN_NAMES, "spin"):
            for text, names in rows:
                it = Formula.parse(text, dialect)
                self.assertEqual(it.propositions, names, text)
                self.assertEqual(translate(it).propositions, names)

    def test_refused(self):
        for texts, dialect in (SPOT_REFUSED, "spot"), (SPIN_REFUSED, "spin"):
            for text in texts:
                with self.assertRaises(FormulaError, msg=text):
                    Formula.parse(text, dialect)
        with self.assertRaises(ValueError):
            Formula.parse("p", "ltl")

    def test_names_in_answers(self):
        it = Formula.parse('G("bus.req" -> F Ack)', "spot")
        made = translate(it)
        self.assertEqual(made.formula, '[]("bus.req" -> <>"Ack")')
        self.assertIn('AP: 2 "bus.req" "Ack"\n', made.to_hoa())
        self.assertIn('name: "[](\\"bus.req\\" -> <>\\"Ack\\")"\n', made.to_hoa())
        self.assertIn(":: (!(bus.req)) || (Ack) -> goto", made.to_claim())
        self.assertIn('label="!bus.req || Ack"', made.to_dot().replace("\\n", " "))
        word = ltl2ba.check(made, 'false').word
        self.assertTrue(ltl2ba.holds(it, word))
        self.assertTrue(set(word.propositions) <= {"bus.req", "Ack"})
        self.assertTrue(ltl2ba.check(made.to_hoa(), it))
        self.assertEqual(ltl2ba.check(made.to_hoa(), "false").word.propositions, word.propositions)
        self.assertFalse(ltl2ba.holds(it, ltl2ba.Word([], [{"bus.req"}])))
        with self.assertRaises(LtlError):
            translate(ltl2ba.proposition("Req") & ltl2ba.proposition("quoted__52_eq"))
        claim = translate(Formula("[]", (ltl2ba.proposition("a */ b"),))).to_claim()
        self.assertEqual(claim.count("*/"), 2)
        self.assertTrue(claim.startswith('never { /* []"a * / b" */\n'))


class TestSpin(unittest.TestCase):
    def test_against_spin(self):
        """Spin's own search finds what the reader reads, by tools/reads."""
        missing = [it for it in ("spin", os.environ.get("CC", "cc").split()[0]) if not shutil.which(it)]
        if missing:
            self.skipTest(f"formulas in Spin's spelling, for want of {missing[0]}")
        with tempfile.TemporaryDirectory() as folder:
            os.symlink(program("ltleval"), Path(folder, "ltleval"))
            around = {**os.environ, "PATH": f"{folder}:{os.environ['PATH']}"}
            for text, _ in SPIN:
                own = Formula.parse(text, "spin").canonical
                ran = subprocess.run([TOP / "tools/reads", "-b", text, own], capture_output=True, text=True, env=around, timeout=300, check=False)
                self.assertEqual(ran.stdout, f"{own}\n", text)


if __name__ == "__main__":
    unittest.main()
