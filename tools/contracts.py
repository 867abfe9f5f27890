"""Reads the code: its types, its traits, and its functions with their contracts, and the names that each file has for modules and things of others."""

import re
from bisect import bisect_right

from theory import TOP

BLOCK = re.compile(r"^(?:pub(?:\([^)]*\))? )?(struct|enum|trait|type|const|impl)\b *([^\n]*(?:\n(?![}\n]| {4}\S).*)*)", re.M)
FUNCTION = re.compile(r"^( *)(pub(?:\([^)]*\))? )?(?:const )?(?:extern .C. )?fn (\w+)", re.M)
MEMBER = re.compile(r"^    ghost (\w+)(?: =|:) (?=\{)", re.M)
CLAUSE = re.compile(r"(requires|ensures)\b *(\w+)? *(?=\{)")
GHOST_USE = re.compile(r"ghost use Rattle\.([\w.]+?)(?:\.\{([^}]*)\}| as (\w+))?;")


def behind(text, at):
    """The position behind the bracket that closes the one at this position."""
    depth, quoted = 0, False
    while at < len(text):
        letter = text[at]
        if letter == '"' and text[at - 1] != "\\":
            quoted = not quoted
        elif not quoted:
            depth += (letter in "({[") - (letter in ")}]")
            if not depth:
                return at + 1
        at += 1
    return at


class Function:
    """A function: its owner, its place, its signature and its clauses."""

    def __init__(self, source, owner, match):
        text = source.text
        self.source, self.owner, self.name, self.is_public = source, owner, match[3], match[2] == "pub "
        at = start = match.end()
        self.clauses = []
        while at < len(text) and text[at] not in "{;":
            clause = CLAUSE.match(text, at) if text[at - 1].isspace() else None
            if text.startswith("//", at):
                at = text.find("\n", at)
            elif clause:
                self.clauses.append(text[clause.end() : behind(text, clause.end())])
                at = behind(text, clause.end())
            else:
                at = behind(text, at) if text[at] in "([" else at + 1
            if not self.clauses:
                self.signature = text[start:at]
        self.first, self.last = source.line_of(match.start()), source.line_of(len(text[:at].rstrip()) - 1)
        while re.match(r" *(///|#\[)", source.lines[self.first - 2]):
            self.first -= 1

    def title(self):
        return f"{self.owner.subject}::{self.name}" if self.owner else self.name


class Item:
    """A type, a constant, a trait or an impl, with its content."""

    def __init__(self, source, kind, head, start, end):
        self.source, self.kind, self.head, self.text = source, kind, head, source.text[start:end]
        self.first, self.last = source.line_of(start), source.line_of(end - 1)
        generics = re.match(r"impl\s*<", self.text)
        plain = re.sub(r"^<(?:[^<>]|<[^<>]*>)*>\s*", "", head) if generics else head
        trait, _, subject = plain.partition(" for ")
        self.trait = re.match(r"(?:\w+::)*(\w+)", trait)[1] if kind == "impl" and subject else None
        self.subject = re.match(r"&?(?:\w+::)*(\w+)", (subject or trait).strip())[1]
        self.members = {}
        if kind in ("trait", "impl"):
            for it in MEMBER.finditer(source.text, start, end):
                last = behind(source.text, it.end())
                self.members[it[1]] = source.line_of(it.start()), source.line_of(last - 1), source.text[it.end() : last]

    def fields(self):
        """The name of each field, or of each variant, and what follows it."""
        return re.findall(r"^    (?:pub(?:\([^)]*\))? )?(?!ghost\b)(\w+)\b:? ?(.*?),?$", self.text, re.M)


class Source:
    """A file of code."""

    def __init__(self, crate, place):
        self.crate, self.place = crate, place
        self.text = (TOP / place).read_text(encoding="utf-8")
        self.lines = self.text.split("\n")
        self.starts = [0]
        for line in self.lines:
            self.starts.append(self.starts[-1] + len(line) + 1)
        self.items = [self.item(it) for it in BLOCK.finditer(self.text)]
        self.named = {it.subject: it for it in self.items if it.kind != "impl"}
        self.functions = [Function(self, self.owner_of(it.start()), it) for it in FUNCTION.finditer(self.text)]
        self.uses = dict(self.paths())

    def line_of(self, at):
        return bisect_right(self.starts, at)

    def item(self, match):
        end = self.text.find("\n}", match.end()) + 2
        semicolon = self.text.find(";", match.start()) + 1
        brace = self.text.find("{", match.start())
        is_short = match[1] in ("type", "const") or 0 < semicolon < brace or brace < 0 or "{}" in match[0].split("\n")[-1]
        return Item(self, match[1], match[2], match.start(), (semicolon or match.end()) if is_short else end)

    def owner_of(self, at):
        line = self.line_of(at)
        return next((it for it in self.items if it.kind in ("trait", "impl") and it.first <= line <= it.last), None)

    def paths(self):
        """Each name that a `use` brings, with its path."""
        for tree in re.findall(r"^(?:pub )?use ([^;]*);", self.text, re.M):
            head, _, names = tree.partition("{")
            for name in names.rstrip("} \n").split(",") if names else [""]:
                path, _, alias = (head + name.strip()).partition(" as ")
                parts = [it for it in path.strip().split("::") if it != "self"]
                if parts[-1:] != [""]:
                    yield alias.strip() or parts[-1], tuple(parts)

    def ghost_uses(self, owner):
        """The lines `ghost use` of a trait or of an impl, or of the file outside of them."""
        return [it.groups() for it in GHOST_USE.finditer(self.text) if self.owner_of(it.start()) is owner]


class Code:
    """All files of code, by crate and place."""

    def __init__(self):
        self.sources = {}
        for path in sorted((TOP / "crates").glob("*/src/**/*.rt")):
            place = str(path.relative_to(TOP))
            self.sources[place] = Source(path.relative_to(TOP).parts[1], place)

    def source(self, crate, module):
        return self.sources.get(f"crates/{crate}/src/{module}.rt")

    def item(self, source, name, seen=()):
        """The type, constant or trait that has this name in the file, or nothing if it isn't one of this repository."""
        if name in source.named:
            return source.named[name]
        path = source.uses.get(name)
        if not path or (source.place, name) in seen:
            return None
        crate, rest = (source.crate, path[1:]) if path[0] == "crate" else (path[0], path[1:])
        if self.source(source.crate, path[0]) and not self.source(path[0], "lib"):
            crate, rest = source.crate, path
        for module in [*rest[:-1][::-1], "lib"]:
            found = self.source(crate, module)
            item = found and self.item(found, path[-1], (*seen, (source.place, name)))
            if item:
                return item
        return None

    def impl(self, item, trait):
        """The impl of the trait for the type, in the type's crate."""
        for source in self.sources.values():
            if source.crate == item.source.crate:
                for it in source.items:
                    if it.kind == "impl" and it.trait == trait and it.subject == item.subject and self.item(source, it.subject) is item:
                        return it
        return None
