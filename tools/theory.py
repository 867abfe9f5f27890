"""Reads the modules of definitions and proofs: what is declared in which file and where, and what each file sees. It also reads what the code names of
them."""

import os
import re
from collections import defaultdict
from pathlib import Path

TOP = Path(__file__).resolve().parent.parent
FUNCTIONS = re.compile(r"/(Answers|Invariants|Proof)\.antt$")
NAME = r"[^\W\d][\w'≡≢-]*"
USE = re.compile(r"^(pub )?use Rattle\.([\w.]+?)(?:\.\{([^}]*)\}| as (\w+))?[ \t]*$", re.M)
KEYWORDS = re.compile(r"(?:(?:abbrev|unfoldable|opaque|pub|data|record|ruleset) )+")
SIGNATURE = re.compile(rf"({NAME}(?: {NAME})*) :(?:\s|$)")


def text(place):
    return (TOP / place).read_text(encoding="utf-8")


def files():
    """Proof files and code, without what is built."""
    for place, folders, names in os.walk(TOP / "crates"):
        folders[:] = sorted(it for it in folders if it != "out")
        yield from (str((Path(place) / it).relative_to(TOP)) for it in sorted(names) if it.endswith((".antt", ".rt")))


def module_of(place):
    """The module of a file: crates/ltl_spec/specs/Hoa/Tokens.antt is ltl_spec.specs.Hoa.Tokens."""
    return place[len("crates/"):-len(".antt")].replace("/", ".")


class Declaration:
    """A definition, a law or a type, with its constructors. `first` and `last` are its lines, with what stands under its `where`. The words around it are
    those of the modules that it stands in, whose heads are these lines."""

    def __init__(self, place, number, names, is_data, scope):
        self.place, self.number, self.names, self.is_data = place, number, names, is_data
        _, around, self.owner, self.heads = scope
        self.words = set(around)
        self.first = self.last = number

    def takes(self, number, line):
        self.words.update(re.findall(NAME, line))
        self.first = min(self.first, number)
        above = self
        while above:
            above.last, above = max(above.last, number), above.owner
        constructors = SIGNATURE.match(line.strip()) if self.is_data and line.startswith("  ") else None
        self.names += constructors[1].split() if constructors else []

    def is_seen_by(self, other):
        """Whether the other declaration sees this one. What stands under a `where` is seen in the declaration that owns it."""
        while other not in (None, self.owner):
            other = other.owner
        return other is self.owner


class Scopes:
    """The declarations of a file, line by line. A scope is a column, the words of the modules around, the declaration whose `where` it is, and the lines of
    the modules' heads."""

    def __init__(self, place):
        self.place, self.found, self.current = place, [], None
        self.scopes = [(0, frozenset(), None, ())]
        self.ahead, self.header = [], None

    def opens(self, column, words, owner, heads=()):
        _, around, _, above = self.scopes[-1]
        self.scopes.append((column, around | frozenset(words), owner, (*above, *heads)))

    def leaves(self, column):
        while column < self.scopes[-1][0]:
            self.current = self.scopes.pop()[2] or self.current

    def heads(self, number, column, code):
        """A line of a module's head, which may have several."""
        first, before, lines = self.header or (column, "", ())
        self.header = first, f"{before} {code}", (*lines, number)
        if code.endswith("where"):
            self.opens(first + 2, re.findall(NAME, self.header[1]), self.scopes[-1][2], self.header[2])
            self.header = None

    def starts(self, number, code):
        keywords = KEYWORDS.match(code)
        names = re.match(f"({NAME})", code[keywords.end():]) if keywords else SIGNATURE.match(code)
        if names:
            self.current = Declaration(self.place, number, names[1].split(), bool(keywords) and "data " in keywords[0], self.scopes[-1])
            self.found.append(self.current)
            for ahead in self.ahead:
                self.current.takes(*ahead)
            self.ahead = []

    def takes(self, number, line):
        column, code = len(line) - len(line.lstrip()), line.strip()
        if not code or code.startswith("--") or re.match("(pub )?mod ", code):
            return
        if self.header or re.match(r"(pub )?module ", code):
            self.leaves(column)
            self.heads(number, column, code)
        elif code == "where" and column > self.scopes[-1][0]:
            self.opens(column + 2, (), self.current)
        elif code == "mutual":
            self.leaves(column)
            self.opens(column + 2, (), self.scopes[-1][2])
        else:
            self.leaves(column)
            if column == self.scopes[-1][0] and code.startswith("unfolding "):
                self.ahead.append((number, line))
                return
            if column == self.scopes[-1][0]:
                self.starts(number, code)
            if self.current:
                self.current.takes(number, line)


class Theory:
    """What is declared in which file, and what each file sees and exports."""

    def __init__(self):
        self.texts = {it: text(it) for it in files()}
        self.declared = {it: self.declarations(it) for it in self.texts if it.endswith(".antt")}
        self.modules = {module_of(it): it for it in self.declared}
        self.own = {it: defaultdict(list) for it in self.declared}
        for place, all_of_it in self.declared.items():
            for declaration in all_of_it:
                for name in declaration.names:
                    self.own[place][name].append(declaration)
        self.exported = {it: self.exports(it) for it in self.declared}
        self.seen = {it: self.sees(it) for it in self.declared}

    def declarations(self, place):
        scopes = Scopes(place)
        for number, line in enumerate(USE.sub(lambda it: "\n" * it[0].count("\n"), self.texts[place]).split("\n"), 1):
            scopes.takes(number, line)
        return scopes.found

    def imports(self, place, public):
        """Each name that an import of the file brings, with the declarations that it may mean. The import of a whole module brings all of its names."""
        for is_public, module, names, _ in USE.findall(self.texts[place]):
            source = self.modules.get(module)
            if source is None or public and not is_public:
                continue
            known = self.own[source] if public else self.exported[source]
            for name in names.split(",") if names else known:
                there, _, here = name.strip().partition(" as ")
                yield here or there, known.get(there, [])

    def exports(self, place):
        return self.with_own(place, self.imports(place, True))

    def sees(self, place):
        return self.with_own(place, self.imports(place, False))

    def with_own(self, place, imported):
        known = defaultdict(list, {name: list(found) for name, found in self.own[place].items()})
        for name, found in imported:
            known[name] += found
        return known

    def named_by_code(self, place):
        """The modules, and the names in them, that a file of code names by paths with dots or with colons."""
        words = set(re.findall(NAME, self.texts[place]))
        paths = re.findall(r"\bRattle\.([\w.]+)", self.texts[place])
        for path in re.findall(r"\b\w+(?:::\w+)+", self.texts[place]):
            paths.append(re.sub("^crate\\.", f"{Path(place).parts[1]}.", path.replace("::", ".")))
        modules = {self.modules.get(it) for path in paths for it in (path.rstrip("."), path.rpartition(".")[0])}
        for module in modules - {None}:
            for name in words & self.exported[module].keys():
                yield from self.exported[module][name]

    def roots(self):
        for place in self.texts:
            if place.endswith(".rt"):
                yield from self.named_by_code(place)
            elif FUNCTIONS.search(place):
                yield from (it for it in self.declared[place] if it.owner is None)

    def reached(self, roots):
        """These declarations, and all that they name, directly or not."""
        found, waiting = set(), list(roots)
        while waiting:
            declaration = waiting.pop()
            if declaration not in found:
                found.add(declaration)
                seen = self.seen[declaration.place]
                waiting += (it for word in declaration.words if word in seen for it in seen[word] if it.is_seen_by(declaration))
        return found
