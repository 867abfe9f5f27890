"""What notebooks and networkx are given."""

import importlib.util
import os
import re
import shutil
import unittest
from unittest import mock

from tests.support import TOP, ltl2ba
from ltl2ba import Formula, HoaError, Word, proposition, timeline, translate

HOSTILE = '<script>&"'.replace('"', "'")


class TestNotebook(unittest.TestCase):
    @unittest.skipUnless(shutil.which("dot"), "pictures, for want of dot")
    def test_picture(self):
        it = translate(Formula.parse('G(Req -> F "a & b")', "spot"))
        shown = it._repr_svg_()
        self.assertTrue(shown.startswith("<svg") and shown.rstrip().endswith("</svg>"), shown)
        self.assertEqual(len(re.findall('class="node"', shown)), len(it.states))
        self.assertIn("a &amp; b", shown)
        self.assertIsNone(it._repr_html_())
        self.assertNotIn("<script", translate(proposition(HOSTILE)).to_svg())

    def test_table(self):
        with mock.patch.dict(os.environ, {"PATH": "/nowhere"}):
            it = translate(proposition(HOSTILE))
            self.assertIsNone(it._repr_svg_())
            shown = it._repr_html_()
            sets = translate("[]<>p", generalized=True)._repr_html_()
        self.assertNotIn("<script", shown)
        self.assertEqual(shown.count("<tr>"), 1 + len(it.edges))
        self.assertIn("<th>sets</th>", sets)
        large = translate(" && ".join(f"<>p{i}" for i in range(5)))
        self.assertIsNone(large._repr_svg_())
        self.assertIn("of them not shown", large._repr_html_())

    def test_many_sets(self):
        many = translate(" || ".join(f"<>p{i}" for i in range(33)), generalized=True)
        self.assertEqual(many.sets, 33)
        self.assertLess(len(many.edges), 200)
        self.assertIsNone(many._repr_svg_())
        self.assertIn("<table>", many._repr_html_())
        with self.assertRaises(HoaError):
            many.to_dot()

    def test_timeline(self):
        word = Word([{HOSTILE}], [{"p"}, set()])
        it = timeline(proposition(HOSTILE) & "p", word)
        shown = it._repr_html_()
        self.assertEqual((shown.count(">*<"), shown.count(">.<")), (2, 7))
        self.assertNotIn("<script", shown + word._repr_html_() + Word([], [set()])._repr_html_())

    def test_picture_of_the_page(self):
        """The table of docs/pictures/timeline.dot has the marks of the timeline that the page shows."""
        drawn = (TOP / "docs/pictures/timeline.dot").read_text(encoding="utf-8")
        marks = [re.findall(r">([*.])</font>", row) for row in drawn.split("<tr>")[2:]]
        it = timeline("[](req -> <>grant)", "{req}; {grant}; cycle {req}; {}")
        self.assertEqual(marks, [["*" if mark else "." for mark in line.marks] for line in it.lines])

    @unittest.skipUnless(importlib.util.find_spec("networkx"), "graphs of networkx, for want of it")
    def test_networkx(self):
        it = translate("[](p -> <>q)")
        graph = it.to_networkx()
        self.assertEqual((len(graph.nodes), len(graph.edges)), (len(it.states), len(it.edges)))
        self.assertEqual({state for state, data in graph.nodes(data=True) if data["accepting"]}, set(it.accepting))
        self.assertEqual([str(data["label"]) for _, _, data in graph.edges(0, data=True)], [str(edge.label) for edge in it.edges_of(0)])

    def test_bytes(self):
        """Texts may be bytes."""
        it = translate(b"[]<>p")
        self.assertEqual(it, translate("[]<>p"))
        self.assertTrue(ltl2ba.check(it.to_hoa().encode(), b"<>p"))
        self.assertTrue(ltl2ba.holds(b"p", b"cycle {p}"))
        with self.assertRaises(ltl2ba.FormulaError):
            translate(b"\xff")
        with self.assertRaises(ltl2ba.HoaError):
            ltl2ba.check(b"HOA: v1 \xff\n\xfe", "p")


if __name__ == "__main__":
    unittest.main()
