"""Reads the edit files: wrong bodies, each of which the prover has to refuse. Also finds the functions of a crate, and the one whose body an edit changes."""

import re
from collections import namedtuple
from pathlib import Path

TOP = Path(__file__).resolve().parent.parent
# What an edit file says of itself, in lines that the kit doesn't read.
KINDS = "call", "what", "refused by"
# The line of an edit of docs/edits that ./test tries each time.
EACH_RUN = "# tried: in each run of the gate"

# A function's name, the type of its impl, that type with the trait's name behind it, whether the impl is a trait's, whether it is a trait's or its type is of
# another file, the file, the line of its first attribute or comment, the lines of its head and its end, and the line behind which its body begins.
Function = namedtuple("Function", "name of owner is_of_trait is_elsewhere file start first body last")
# An edit's name, what it replaces by what in which file, the function whose body has all of it, if there is one, and all functions whose bodies have a part.
Change = namedtuple("Change", "name pairs function functions")


def lines_of_crates():
    """What crates.txt says of each crate, in its order: the words behind the name, and all crates that it stands on without another between."""
    lines = (it.split("#")[0].partition(":") for it in (TOP / "crates.txt").read_text(encoding="utf-8").splitlines())
    return {name.split()[0]: (name.split()[1:], below.split()) for name, colon, below in lines if colon}


def crates_below():
    """The crates of this repository that each crate stands on, directly or not."""
    direct = {name: below for name, (_, below) in lines_of_crates().items()}

    def all_below(name):
        found, left = set(), [name]
        while left:
            new = {it for it in direct[left.pop()] if it in direct} - found
            found |= new
            left += new
        return sorted(found)

    return {name: all_below(name) for name in direct}


def edits_of(crate):
    """The edits of a crate by name: those in docs/edits, and those that `rt ci` tries."""
    return {it.stem: it for folder in (f"docs/edits/{crate}", f"crates/{crate}/must-fail") for it in sorted((TOP / folder).glob("*.edit"))}


def is_tried_in_each_run(edit):
    """Whether ./test tries an edit of docs/edits each time."""
    return EACH_RUN in edit.read_text(encoding="utf-8").split("\n")


def said_of(edit):
    """What an edit file says of itself."""
    lines = (it.partition(": ") for it in edit.read_text(encoding="utf-8").split("\n"))
    return {kind[2:]: rest.strip() for kind, colon, rest in lines if colon and kind[:2] == "# " and kind[2:] in KINDS and rest.strip()}


def put_in_by(edit):
    """What an edit file puts in. What the file says of itself, in other lines, has no part in a verdict."""
    lines = edit.read_text(encoding="utf-8").splitlines(keepends=True)
    return "".join(it for it in lines if it.startswith(("file:", "old:", "new:")))


def functions_of(folder):
    """The functions of a crate whose body has lines of its own, in the layout of `rt fmt`, by file."""
    return {it.relative_to(folder).as_posix(): functions_in(it.relative_to(folder).as_posix(), it) for it in sorted((folder / "src").rglob("*.rt"))}


def start_of(lines, number):
    """The line of the first attribute or comment of the function whose head is in this line."""
    while number > 1:
        above = number - 1
        if lines[above - 1].rstrip().endswith(")]") and "#[" not in lines[above - 1]:
            above = next((it for it in range(above, 0, -1) if "#[" in lines[it - 1]), above)
        if not re.match(r" *(#\[|//)", lines[above - 1]):
            break
        number = above
    return number


def functions_in(name, file):
    text = file.read_text(encoding="utf-8")
    found, of, owner, is_of_trait, is_elsewhere, head = [], "", "", False, False, None
    lines = text.splitlines()
    for number, line in enumerate(lines, 1):
        impl = re.match(r"impl(?:<.*?>)? (?:(\w+)(?:<.*>)? for )?&?(\w+)", line)
        start = re.match(r"( *)(?:pub(?:\([a-z]+\))? )?(?:const )?(?:unsafe )?fn (\w+)", line)
        if impl:
            is_here = re.search(rf"^(?:pub(?:\([a-z]+\))? )?(?:struct|enum) {impl[2]}\b", text, re.M)
            of, owner, is_of_trait, is_elsewhere = impl[2], impl[2] + (impl[1] or ""), bool(impl[1]), bool(impl[1]) or not is_here
        elif re.match(r"(?:pub )?trait ", line):
            is_of_trait = True
        elif line == "}" and (head is None or head[0]):
            of, owner, is_of_trait, is_elsewhere = "", "", False, False
        if start and (head is None or head[3] is None):
            head = [start[1], start[2], number, None]
        if head and head[3] is None and (line == f"{head[0]}{{" or (line.endswith("{") and (start or line.startswith(f"{head[0]})")))):
            head[3] = number
        elif head and head[3] and line == f"{head[0]}}}":
            found.append(Function(head[1], of, owner, is_of_trait, is_elsewhere, name, start_of(lines, head[2]), head[2], head[3], number))
            head = None
    return found


def change_of(edit, folder, functions):
    """The change that an edit file describes."""
    file, old, pairs, places = None, None, [], set()
    for line in edit.read_text(encoding="utf-8").splitlines():
        kind, _, rest = line.partition(": ")
        if kind == "file":
            file = rest.strip()
        elif kind == "old":
            old = rest
        elif kind.startswith("new"):
            text = (folder / file).read_text(encoding="utf-8")
            number = text[: text.find(old)].count("\n") + 1 if old in text else 0
            places.add(next((it for it in functions.get(file, []) if it.body < number < it.last), None))
            pairs.append((file, old, rest))
    changed = tuple(sorted(places - {None}, key=lambda it: (it.file, it.first)))
    return Change(edit.stem, pairs, changed[0] if len(changed) == len(places) == 1 else None, changed)


def names_of(function):
    """The names of a function's modules, its type and the function itself."""
    modules = [it for it in Path(function.file).with_suffix("").parts[1:] if it != "lib"]
    return [*modules, function.owner, function.name] if function.owner else [*modules, function.name]
