"""The calls of the library, over bytes: each gives all that the library answers, or raises the error that stands for its refusal.

A call whose buffer is too short says which length it needs, and is made again with that. No buffer is shared, so any number of threads may call."""

from __future__ import annotations

import ctypes
import struct
from ctypes import byref, c_bool, c_size_t, string_at
from typing import NamedTuple, Optional, Tuple

from ltl2ba import _abi as abi
from ltl2ba._shared import load
from ltl2ba.errors import ClaimError, FormulaError, HoaError, TooLarge, WordError

LIBRARY = load()
# The lengths of the first buffers and arrays.
_BYTES, _STATES, _EDGES, _NAMES = 2048, 16, 64, 16
# Whose line says why a formula was refused: that of the comparer names the first or the second formula.
FIRST, SECOND = abi.COMPARER + abi.FIRST_FORMULA, abi.COMPARER + abi.SECOND_FORMULA
_STATE, _EDGE, _NAME = struct.Struct("@N?0N"), struct.Struct("@12QN"), struct.Struct("@2N")


class Arrays(NamedTuple):
    """An automaton as the library writes it: the rows of states, edges and names as bytes, and the number of acceptance sets."""

    states: bytes
    edges: bytes
    names: bytes
    sets: int

    def state_rows(self) -> list[Tuple[int, bool]]:
        """The first edge of each state, and whether it is accepting."""
        return [(first, is_accepting) for first, is_accepting in _STATE.iter_unpack(self.states)]

    def edge_rows(self) -> list[Tuple[int, ...]]:
        """Four words each of the propositions that are asked to be true, to be false, and of sets; and the target."""
        return list(_EDGE.iter_unpack(self.edges))

    def name_rows(self) -> list[Tuple[int, int]]:
        """The offset of each name in the formula's text, and its length."""
        return [(offset, length) for offset, length in _NAME.iter_unpack(self.names)]


def encoded(text: str | bytes) -> bytes:
    """The bytes of a text. What isn't UTF-8 becomes bytes that the library refuses."""
    if isinstance(text, bytes):
        return text
    try:
        return text.encode("utf-8", "surrogateescape")
    except UnicodeEncodeError:
        return text.encode("utf-8", "surrogatepass")


def decoded(text: str | bytes) -> str:
    """The text of bytes, of which `encoded` makes the same bytes."""
    return text if isinstance(text, str) else text.decode("utf-8", "surrogateescape")


def _shown(text: bytes) -> str:
    return text.decode("utf-8", "replace")


def message(program: int, refusal: abi.Refusal) -> str:
    """The line that a program prints for a refusal, without its name."""
    room = 128
    while True:
        buffer, length = ctypes.create_string_buffer(room), c_size_t()
        if LIBRARY.ltl2ba_message(program, byref(refusal), buffer, room, byref(length)) != abi.TOO_SHORT:
            return string_at(buffer, length.value).decode("ascii").rstrip("\n").partition(": ")[2]
        room = length.value


def _refused(program: int, refusal: abi.Refusal, formula: bytes, word: bytes = b"") -> Exception:
    """The error that stands for a refusal."""
    if refusal.kind == abi.NO_MEMORY:
        return MemoryError("out of memory")
    told = message(program, refusal)
    if refusal.kind == abi.BAD_FORMULA:
        return FormulaError(told, _shown(formula), refusal.place)
    if refusal.kind == abi.BAD_WORD:
        return WordError(told, _shown(word), len(_shown(word[: refusal.place])))
    if refusal.kind == abi.BAD_AUTOMATON:
        return HoaError(told, refusal.place)
    return TooLarge(told)


def text(formula: bytes, options: abi.Options, program: int = abi.TRANSLATOR) -> bytes:
    """The text of a formula's automaton. A refusal is told with the line of the program."""
    room = _BYTES
    while True:
        buffer, length, refusal = ctypes.create_string_buffer(room), c_size_t(), abi.Refusal()
        status = LIBRARY.ltl2ba_text(formula, len(formula), byref(options), buffer, room, byref(length), byref(refusal))
        if status == abi.DONE:
            return string_at(buffer, length.value)
        if status != abi.TOO_SHORT:
            raise _refused(program, refusal, formula)
        room = length.value


def names(formula: bytes) -> list[str]:
    """The names of a formula's propositions, by first occurrence."""
    room = _BYTES
    while True:
        buffer, length, refusal = ctypes.create_string_buffer(room), c_size_t(), abi.Refusal()
        status = LIBRARY.ltl2ba_names(formula, len(formula), buffer, room, byref(length), byref(refusal))
        if status == abi.DONE:
            return string_at(buffer, length.value).decode("ascii").split("\0")[:-1]
        if status != abi.TOO_SHORT:
            raise _refused(abi.TRANSLATOR, refusal, formula)
        room = length.value


def automaton(formula: bytes, options: abi.Options) -> Arrays:
    """The automaton of a formula."""
    rooms = _STATES, _EDGES, _NAMES
    while True:
        counts = abi.Counts()
        states, edges, held = (abi.State * rooms[0])(), (abi.Edge * rooms[1])(), (abi.Name * rooms[2])()
        given = states, rooms[0], edges, rooms[1], held, rooms[2]
        status = LIBRARY.ltl2ba_automaton(formula, len(formula), byref(options), *given, byref(counts))
        if status == abi.DONE:
            return Arrays(
                string_at(states, counts.states * _STATE.size),
                string_at(edges, counts.edges * _EDGE.size),
                string_at(held, counts.names * _NAME.size),
                counts.sets,
            )
        if status != abi.TOO_SHORT:
            raise _refused(abi.TRANSLATOR, counts.refusal, formula)
        rooms = max(1, counts.states), max(1, counts.edges), max(1, counts.names)


def holds(formula: bytes, word: bytes) -> bool:
    """Whether a formula holds at the first position of a word."""
    truth, refusal = c_bool(), abi.Refusal()
    status = LIBRARY.ltleval_holds(formula, len(formula), word, len(word), byref(truth), byref(refusal))
    if status not in (abi.DONE, abi.VIOLATED):
        raise _refused(abi.EVALUATOR, refusal, formula, word)
    return truth.value


def verdict(formula: bytes, hoa: bytes, program: int = abi.CHECKER) -> str | None:
    """The text of a word that the automaton accepts and that violates the formula, or None if there is none. A refusal is told with the line of the program."""
    room = _BYTES
    while True:
        buffer, found, refusal = ctypes.create_string_buffer(room), abi.Found(), abi.Refusal()
        status = LIBRARY.ltlcheck_verdict(formula, len(formula), hoa, len(hoa), buffer, room, byref(found), byref(refusal))
        if status == abi.VIOLATED:
            return string_at(buffer, found.length).decode("ascii")
        if status == abi.DONE:
            return None
        if status != abi.TOO_SHORT:
            raise _refused(program, refusal, formula)
        room = found.length


def compared(first: bytes, second: bytes) -> Tuple[Optional[str], Optional[str]]:
    """The text of a word that satisfies the first formula alone, and that of a word that satisfies the second one alone; None where there is no such word."""
    rooms = _BYTES, _BYTES
    while True:
        buffers, found = [ctypes.create_string_buffer(it) for it in rooms], abi.Compared()
        given = buffers[0], rooms[0], buffers[1], rooms[1]
        status = LIBRARY.ltlcompare_verdict(first, len(first), second, len(second), *given, byref(found))
        lengths = found.first_only_length, found.second_only_length
        if status in (abi.DONE, abi.VIOLATED):
            one, two = (string_at(it, length).decode("ascii") for it, length in zip(buffers, lengths))
            return one or None, two or None
        if status != abi.TOO_SHORT:
            raise _refused(abi.COMPARER + found.subject, found.refusal, second if found.subject == abi.SECOND_FORMULA else first)
        rooms = max(1, lengths[0]), max(1, lengths[1])


def dot(hoa: bytes) -> bytes:
    """The picture of an automaton, as a graph for Graphviz."""
    room = 2 * _BYTES
    while True:
        buffer, length, refusal = ctypes.create_string_buffer(room), c_size_t(), abi.Refusal()
        status = LIBRARY.ltldraw_dot(hoa, len(hoa), buffer, room, byref(length), byref(refusal))
        if status == abi.DONE:
            return string_at(buffer, length.value)
        if status != abi.TOO_SHORT:
            raise _refused(abi.DRAWER, refusal, b"")
        room = length.value


def reduced(hoa: bytes) -> bytes:
    """A smaller automaton that accepts the same words, as a text in HOA format."""
    room = 2 * _BYTES
    while True:
        buffer, length, refusal = ctypes.create_string_buffer(room), c_size_t(), abi.Refusal()
        status = LIBRARY.ltlreduce_hoa(hoa, len(hoa), buffer, room, byref(length), byref(refusal))
        if status == abi.DONE:
            return string_at(buffer, length.value)
        if status != abi.TOO_SHORT:
            raise _refused(abi.REDUCER, refusal, b"")
        room = length.value


def _claim_refused(refusal: abi.ClaimRefusal) -> Exception:
    """The error that stands for the refusal of a claim."""
    if refusal.kind == abi.NO_MEMORY:
        return MemoryError("out of memory")
    room = 128
    while True:
        buffer, length = ctypes.create_string_buffer(room), c_size_t()
        if LIBRARY.ltlclaim_message(byref(refusal), buffer, room, byref(length)) != abi.TOO_SHORT:
            told = string_at(buffer, length.value).decode("ascii").rstrip("\n").partition(": ")[2]
            return ClaimError(told, refusal.line, refusal.column)
        room = length.value


def claim_hoa(claim: bytes) -> bytes:
    """The automaton of a never claim, as a text in HOA format."""
    room = _BYTES
    while True:
        buffer, length, refusal = ctypes.create_string_buffer(room), c_size_t(), abi.ClaimRefusal()
        status = LIBRARY.ltlclaim_hoa(claim, len(claim), buffer, room, byref(length), byref(refusal))
        if status == abi.DONE:
            return string_at(buffer, length.value)
        if status != abi.TOO_SHORT:
            raise _claim_refused(refusal)
        room = length.value
