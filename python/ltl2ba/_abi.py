"""What the header ltl2ba.h declares, for ctypes: numbers, structures and calls. A test compares all of it with the header."""

from __future__ import annotations

import ctypes
from ctypes import POINTER, c_bool, c_char_p, c_size_t, c_uint8, c_uint32, c_uint64

# The number of the shared object: libltl2ba.so.1.
ABI = 1

DONE, VIOLATED, USAGE, REFUSED, OUT_OF_MEMORY, FAILED, TOO_SHORT = range(7)

(
    NO_REFUSAL,
    NO_MEANING,
    NO_MEMORY,
    LONG_FORMULA,
    BAD_FORMULA,
    TOO_MANY_PROPOSITIONS,
    TOO_MANY_ROWS,
    TOO_MANY_ELEMENTARY_ROWS,
    LARGE_AUTOMATON,
    LONG_WORD,
    BAD_WORD,
    BAD_AUTOMATON,
    LARGE_PRODUCT,
) = range(13)
BAD_CLAIM = 16

CLAIM, HOA, GENERALIZED = range(3)
TRANSLATOR, CHECKER, EVALUATOR, COMPARER = range(4)
DRAWER, REDUCER = 6, 7
NEITHER_ALONE, FIRST_FORMULA, SECOND_FORMULA = range(3)


class Refusal(ctypes.Structure):
    """`struct ltl2ba_refusal`: why a call was refused."""

    _fields_ = [("kind", c_uint32), ("fault", c_uint32), ("place", c_size_t)]


class ClaimRefusal(ctypes.Structure):
    """`struct ltlclaim_refusal`: why a claim was refused."""

    _fields_ = [("kind", c_uint32), ("fault", c_uint32), ("line", c_size_t), ("column", c_size_t)]


class Options(ctypes.Structure):
    """`struct ltl2ba_options`: the options of a translation."""

    _fields_ = [("no_rewrite", c_bool), ("keep_implied", c_bool), ("keep_equal", c_bool), ("layout", c_uint32)]


class State(ctypes.Structure):
    """`struct ltl2ba_state`."""

    _fields_ = [("first_edge", c_size_t), ("accepting", c_bool)]


class Edge(ctypes.Structure):
    """`struct ltl2ba_edge`."""

    _fields_ = [("asked_true", c_uint64 * 4), ("asked_false", c_uint64 * 4), ("sets", c_uint64 * 4), ("target", c_size_t)]


class Name(ctypes.Structure):
    """`struct ltl2ba_name`."""

    _fields_ = [("offset", c_size_t), ("length", c_size_t)]


class Counts(ctypes.Structure):
    """`struct ltl2ba_counts`."""

    _fields_ = [("states", c_size_t), ("edges", c_size_t), ("names", c_size_t), ("sets", c_size_t), ("refusal", Refusal)]


class Found(ctypes.Structure):
    """`struct ltlcheck_found`."""

    _fields_ = [("length", c_size_t), ("contained", c_bool)]


class Compared(ctypes.Structure):
    """`struct ltlcompare_found`."""

    _fields_ = [
        ("first_only_length", c_size_t),
        ("second_only_length", c_size_t),
        ("first_implies_second", c_bool),
        ("second_implies_first", c_bool),
        ("subject", c_uint32),
        ("refusal", Refusal),
    ]


_TEXT = [c_char_p, c_size_t]
_END = [POINTER(c_size_t), POINTER(Refusal)]
_ARRAYS = [POINTER(State), c_size_t, POINTER(Edge), c_size_t, POINTER(Name), c_size_t]

# The bytes of the row of an edge.
EDGE_SIZE = ctypes.sizeof(Edge)

# The parameters of each call. A text that is read or written is a pointer to bytes and a length.
CALLS = {
    "ltl2ba_text": [*_TEXT, POINTER(Options), *_TEXT, *_END],
    "ltl2ba_names": [*_TEXT, *_TEXT, *_END],
    "ltl2ba_automaton": [*_TEXT, POINTER(Options), *_ARRAYS, POINTER(Counts)],
    "ltleval_holds": [*_TEXT, *_TEXT, POINTER(c_bool), POINTER(Refusal)],
    "ltlcheck_verdict": [*_TEXT, *_TEXT, *_TEXT, POINTER(Found), POINTER(Refusal)],
    "ltlcompare_verdict": [*_TEXT, *_TEXT, *_TEXT, *_TEXT, POINTER(Compared)],
    "ltldraw_dot": [*_TEXT, *_TEXT, *_END],
    "ltlclaim_hoa": [*_TEXT, *_TEXT, POINTER(c_size_t), POINTER(ClaimRefusal)],
    "ltlreduce_hoa": [*_TEXT, *_TEXT, *_END],
    "ltlclaim_message": [POINTER(ClaimRefusal), *_TEXT, POINTER(c_size_t)],
    "ltl2ba_message": [c_uint32, POINTER(Refusal), *_TEXT, POINTER(c_size_t)],
}


def declare(library: ctypes.CDLL) -> ctypes.CDLL:
    """The library, where each call knows its parameters and its result."""
    for name, parameters in CALLS.items():
        call = getattr(library, name)
        call.argtypes, call.restype = parameters, c_uint8
    return library
