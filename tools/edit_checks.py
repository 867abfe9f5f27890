"""Checks of wrong bodies: which edits one check can try together, and what it says of each."""

import re
import sys
from pathlib import Path

sys.dont_write_bytecode = True
from edit_files import names_of

# A check's note that something which a function owes isn't proved, with its place in the code or in a proof file. Notes about missing names are left out.
OWED = re.compile(r"note: (src/\S+\.rt):(\d+):\d+: it is not proved that ")
PROOF = re.compile(r"(?:note: )?(?:\./)?proofs/(\S+)/\w+\.antt:\d+:\d+: error: (?!.*(?:has no field|is not in scope|has no `|was not admitted))")
# The most edits that are tried by one check.
TOGETHER = 24


def put_in(change, texts):
    """The texts with an edit put in, if each of its old texts stands in them exactly once."""
    texts = dict(texts)
    for file, old, new in change.pairs:
        if texts[file].count(old) != 1:
            return None
        texts[file] = texts[file].replace(old, new)
    return texts


def together(changes, texts):
    """The edits that may be tried by one check, each of other functions, with the texts that have them; and the edits that are left."""
    chosen, left, taken = [], [], set()
    for it in changes:
        after = put_in(it, texts) if taken.isdisjoint(it.functions) and len(chosen) < TOGETHER else None
        if after:
            chosen, texts = [*chosen, it], after
            taken.update(it.functions)
        else:
            left.append(it)
    return chosen, texts, left


def place_of(function):
    """The part of the crate that a check is asked for, so that it leaves out the callers: the function, or its module if its type or trait is in another
    file."""
    names = names_of(function)
    return "::".join(names[:-2] if function.is_elsewhere and len(names) > 2 else names)


def asked_for(chosen):
    """The words by which a check is asked for the functions of these edits."""
    return [word for place in sorted({place_of(of) for it in chosen for of in it.functions}) for word in ("--only", place)]


def evidence(lines, change, functions):
    """The first line of a check which says that something that an edited function owes isn't proved."""
    return next((line for of in change.functions if (line := evidence_of(lines, of, functions))), None)


def evidence_of(lines, of, functions):
    """The first line of a check which says that something that this function owes isn't proved."""
    is_only = len([it for it in functions[of.file] if (it.owner, it.name) == (of.owner, of.name)]) == 1
    for line in lines:
        owed, proof = OWED.match(line), PROOF.match(line)
        if owed and owed[1] == of.file and of.start <= int(owed[2]) <= of.last or proof and is_only and is_proof_of(of, proof[1].split("/")):
            return line
    return None


def is_proof_of(function, parts):
    """Whether a folder of proofs, by its parts, is that of the function. If the type is in another file, the folder is in that of the type's module."""
    names = names_of(function)
    return parts == names or function.is_elsewhere and function.owner is not None and parts[-2:] == names[-2:]


def texts_of(folder, names):
    """The files of code of a crate, by name."""
    return {name: (Path(folder) / name).read_text(encoding="utf-8") for name in names}
