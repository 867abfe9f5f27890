"""Linear temporal logic over a proved library: automata of formulas, checks, and words.

>>> from ltl2ba import check, holds, translate
>>> automaton = translate("[](req -> <>grant)")
>>> automaton
<Automaton of [](req -> <>grant): 3 states, 8 edges>
>>> check(automaton, "<>grant")
Violated(word=<Word cycle {}>)
>>> holds("[](req -> <>grant)", "{req}; cycle {grant}; {}")
True

The library, libltl2ba.so, is proved: each call gives what its contract promises, for every input. This module is not proved. It hands texts and numbers over,
and what it makes of the answers is tested. Calls may be made in any number of threads, which work at the same time.

- `translate` makes an `Automaton`; `holds`, `check`, `implies`, `equivalent`, `compare`, `is_satisfiable` and `is_valid` answer questions; `timeline` shows
  where subformulas hold on a `Word`.
- `claim_to_hoa` reads a never claim, as Spin and other tools print it, for `check`.
- `Formula.parse` reads formulas as this library, Spot or Spin write them; `propositions`, `G`, `F`, `X`, `U`, `V`, `R`, `W`, `M`, `iff` and the operators of
  Python make formulas of objects.
- `FormulaError`, `WordError`, `HoaError`, `ClaimError` and `TooLarge` say why a text was refused, and where."""

from ltl2ba.automata import Automaton, Edge, Label, translate
from ltl2ba.checking import (
    Comparison,
    Contained,
    Satisfiable,
    Unsatisfiable,
    Violated,
    check,
    compare,
    equivalent,
    holds,
    implies,
    is_satisfiable,
    is_valid,
)
from ltl2ba.claims import claim_to_hoa
from ltl2ba.errors import ClaimError, FormulaError, HoaError, LtlError, TooLarge, WordError
from ltl2ba.formulas import Formula
from ltl2ba.operators import F, G, M, R, U, V, W, X, false, iff, proposition, propositions, true
from ltl2ba.timelines import Timeline, timeline
from ltl2ba.words import Word

__version__ = "1.1"

__all__ = [
    *("Automaton", "Edge", "Label", "translate"),
    *("Comparison", "Contained", "Satisfiable", "Unsatisfiable", "Violated"),
    *("check", "compare", "equivalent", "holds", "implies", "is_satisfiable", "is_valid"),
    *("claim_to_hoa", "ClaimError", "FormulaError", "HoaError", "LtlError", "TooLarge", "WordError"),
    *("Formula", "F", "G", "M", "R", "U", "V", "W", "X", "false", "iff", "proposition", "propositions", "true"),
    *("Timeline", "timeline", "Word"),
]
