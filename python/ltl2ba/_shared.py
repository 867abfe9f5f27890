"""Finds the shared object libltl2ba.so and loads it."""

from __future__ import annotations

import ctypes
import os
import sys
from typing import Iterator

from ltl2ba._abi import ABI, declare

# The variable of the environment that names another shared object.
VARIABLE = "LTL2BA_LIBRARY"
FILE = f"libltl2ba.so.{ABI}"
_HERE = os.path.dirname(os.path.realpath(__file__))


def places() -> Iterator[str]:
    """Where the shared object may be: beside this file (in a wheel), in the repository of this file, where the system's loader looks, and below the prefix
    of Python or of this file."""
    yield os.path.join(_HERE, FILE)
    repository = os.path.dirname(os.path.dirname(_HERE))
    if os.path.isdir(os.path.join(repository, "crates/ltl_c")):
        yield os.path.join(repository, "crates/ltl_c/out", FILE)
    yield FILE
    above = [repository, os.path.dirname(repository), os.path.dirname(os.path.dirname(repository))]
    yield from (os.path.join(it, "lib", FILE) for it in (sys.prefix, *above))


def load() -> ctypes.CDLL:
    """Loads the shared object. ctypes gives up the lock of the interpreter during each call of such a library."""
    asked = os.environ.get(VARIABLE)
    faults = []
    for place in [asked] if asked else places():
        if os.sep in place and not os.path.exists(place):
            continue
        try:
            return declare(ctypes.CDLL(place))
        except (OSError, AttributeError) as fault:
            faults.append(str(fault))
    raise ImportError(f"{asked or FILE} can't be loaded ({'; '.join(faults) or 'no such file'}); ./build ltl_c makes it, and {VARIABLE} names another place")
