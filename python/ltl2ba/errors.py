"""The errors. Each is a ValueError whose text is the line of the program, and for a formula or a word the place of the fault.

>>> from ltl2ba import FormulaError, translate
>>> try:
...     translate("p U")
... except FormulaError as fault:
...     print(fault)
...     print(fault.place)
formula: byte 3: expected operand
    p U
       ^
3

If memory is refused, the error is MemoryError."""

from __future__ import annotations

# The most characters that are shown before and after the place of a fault.
_AROUND = 60


def caret_lines(text: str, place: int) -> str:
    """The line of a text that has the place, as far as it is near, and a caret below the place."""
    start = text.rfind("\n", 0, place) + 1
    end = text.find("\n", place)
    line, column = text[start : len(text) if end < 0 else end], place - start
    first = max(0, column - _AROUND)
    shown = "".join(it if it.isprintable() else " " for it in line[first : column + _AROUND])
    before, after = ".. " if first else "", " .." if column + _AROUND < len(line) else ""
    return f"    {before}{shown}{after}\n    {' ' * (len(before) + column - first)}^"


class LtlError(ValueError):
    """A text was refused."""


class TooLarge(LtlError):
    """A text, an automaton or a product of automata exceeds a limit. Its text says which one."""


class _AtPlace(LtlError):
    """A fault at a place of a text."""

    def __init__(self, message: str, text: str, place: int) -> None:
        super().__init__(message, text, place)
        self.message, self.text, self.place = message, text, place

    @property
    def caret(self) -> str:
        """The line with the fault, and a line with a caret below it."""
        return caret_lines(self.text, self.place)

    def __str__(self) -> str:
        return f"{self.message}\n{self.caret}"


class FormulaError(_AtPlace):
    """A text is no formula. `place` is the number of characters before the fault."""


class WordError(_AtPlace):
    """A text is no word. `place` is the number of characters before the fault."""


class HoaError(LtlError):
    """A text is no automaton that is read. `line` is the line of the fault, from 1."""

    def __init__(self, message: str, line: int) -> None:
        super().__init__(message, line)
        self.message, self.line = message, line

    def __str__(self) -> str:
        return self.message


class ClaimError(LtlError):
    """A text is no never claim that is read. `line` and `column` are the place of the first fault, in bytes, from 1."""

    def __init__(self, message: str, line: int, column: int) -> None:
        super().__init__(message, line, column)
        self.message, self.line, self.column = message, line, column

    def __str__(self) -> str:
        return self.message
