"""Automata of never claims, as Spin and other tools print them.

>>> from ltl2ba import check
>>> hoa = claim_to_hoa("never { first: do :: p -> goto accept :: true od; accept: do :: p od }")
>>> check(hoa, "<>[]p")
Contained()
>>> claim_to_hoa("never { do :: p > 1 od }")
Traceback (most recent call last):
ltl2ba.errors.ClaimError: claim: line 1, column 17: unsupported"""

from __future__ import annotations

from typing import Union

from ltl2ba import _calls


def claim_to_hoa(claim: Union[str, bytes]) -> str:
    """The automaton of a never claim in HOA format, as `ltlclaim` prints it: a text that `check` takes. It accepts exactly the words that the claim accepts.

    >>> from ltl2ba import translate, check
    >>> check(claim_to_hoa(translate("[]<>p").to_claim()), "[]<>p")
    Contained()"""
    return _calls.claim_hoa(_calls.encoded(claim)).decode("ascii")
