"""What the verdict on a wrong body rests on, as a hash. The prover judges one function by its body and by the statements of all that this names: contracts,
never bodies, of what it calls; the types, constants and traits; the definitions that these cite; and the statements of the laws that its proof names.

So the hash of an edit of one body is made of the edit; the function with its proof; and of what these name, directly or not, of the function's crate and of
the crates below it. A method belongs to it if the function has its name and its type belongs to it, a method of a trait if its type does. A law is its
statement. Comments, blank lines and the places of all this have no part in it. The hash of any other edit is made of the whole crate and of all that
it names."""

import hashlib
import re
import sys
from functools import cache

sys.dont_write_bytecode = True
from contracts import Code
from edit_files import TOP, change_of, crates_below, edits_of, functions_of, names_of, put_in_by
from theory import KEYWORDS, NAME, USE, Theory

COMMENT = {".rt": re.compile(r'("(?:\\.|[^"\\])*")|//[^\n]*'), ".antt": re.compile(r"(?<!\S)--[^\n]*")}
# A type that the kit declares for proofs: its crate, its file and its name.
DECLARED = re.compile(r"(\w+)\.specs\.declared\.([\w.]+)\.(\w+)$")


def bare(text, kind=".rt"):
    """The text without comments, blank lines and indentation."""
    text = COMMENT[kind].sub(lambda it: it[1] if kind == ".rt" and it[1] else "", text)
    return "\n".join(it.strip() for it in text.split("\n") if it.strip())


def words_of(text):
    return set(re.findall(NAME, text)) | set(re.findall(r"\w+", text))


class Part:
    """Something that a verdict can rest on: a text, where it stands, and how the names in it are looked up."""

    def __init__(self, crate, text, kind, place, owner=None):
        self.crate, self.place, self.owner, self.kind = crate, place, owner, kind
        self.text = bare(text, kind)
        self.words = words_of(self.text)


class Ground:
    """All parts of the tree. What each of them names is looked up once."""

    def __init__(self):
        self.theory, self.code, self.below = Theory(), Code(), crates_below()
        self.bodies = {crate: functions_of(TOP / "crates" / crate) for crate in self.below}
        self.heads, self.methods = {}, {}
        for source in self.code.sources.values():
            for it in source.functions:
                self.heads[it] = Part(source.crate, "\n".join(source.lines[it.first - 1 : it.last]), ".rt", source, it.owner)
                if it.owner:
                    self.methods.setdefault(self.subject(it.owner), []).append(it)
        self.declared = {place: dict(self.declared_types(place)) for place in self.theory.declared}

    def subject(self, owner):
        """The type that an impl is of, or the trait itself."""
        return owner if owner.kind == "trait" else self.code.item(owner.source, owner.subject) or owner

    def declared_types(self, place):
        """The names in a file of proofs that stand for types of the code."""
        for _, module, names, alias in USE.findall(self.theory.texts[place]):
            found = DECLARED.match(module)
            source = found and self.code.source(found[1], found[2].split(".")[-1])
            if source and found[3] in source.named:
                yield from ((it.strip().rpartition(" ")[2], source.named[found[3]]) for it in (names or alias).split(","))

    @cache
    def item_part(self, item):
        """A type, a constant, a trait or an impl, without the bodies and heads of its functions."""
        source, lines = item.source, item.source.lines[item.first - 1 : item.last]
        file = source.place.split("/", 2)[2]
        for it in self.bodies[source.crate].get(file, []):
            if item.first <= it.first and it.last <= item.last:
                lines[it.first - item.first : it.last - item.first + 1] = [""] * (it.last - it.first + 1)
        return Part(source.crate, "\n".join(lines), ".rt", source, item if item.kind in ("impl", "trait") else None)

    @cache
    def law_part(self, declaration):
        """A definition with all that stands under it, or the statement of a law, with the heads of the modules around it."""
        lines = self.theory.texts[declaration.place].split("\n")
        start = lines[declaration.number - 1]
        column, last = len(start) - len(start.lstrip()), declaration.last
        keywords = KEYWORDS.match(start.strip())
        if not keywords or not set(keywords[0].split()) - {"pub", "opaque"}:
            last = declaration.number
            while last < declaration.last and lines[last].strip() and len(lines[last]) - len(lines[last].lstrip()) > column:
                last += 1
        text = "\n".join([*(lines[it - 1] for it in declaration.heads), *lines[declaration.number - 1 : last]])
        return Part(declaration.place.split("/")[1], text, ".antt", declaration.place, declaration)

    def named_in_theory(self, part):
        """What a definition or a law names, or a proof file of a function."""
        seen, types = self.theory.seen[part.place], self.declared[part.place]
        for word in part.words:
            yield from (it for it in seen.get(word, ()) if part.owner is None or it.is_seen_by(part.owner))
            if word in types:
                yield types[word]

    def named_in_code(self, part):
        """What code names: by ghost imports, by paths, and by the names of types, constants and free functions."""
        source, text = part.place, part.text
        owners = [None, part.owner] if part.owner else [None]
        for module, names, alias in (use for owner in owners for use in source.ghost_uses(owner)):
            known = self.theory.exported.get(self.theory.modules.get(module), {})
            for it in (names or "").split(","):
                there, _, here = it.strip().partition(" as ")
                if (here or there) in part.words or "◌" in there:
                    yield from known.get(there, ())
            if alias and alias in part.words:
                yield from (law for word in re.findall(rf"\b{alias}\.({NAME})", text) for law in known.get(word, ()))
        for path in re.findall(r"\b\w+(?:::\w+)+", text):
            module, _, name = re.sub("^crate\\.", f"{source.crate}.", path.replace("::", ".")).rpartition(".")
            yield from self.theory.exported.get(self.theory.modules.get(module), {}).get(name, ())
        for word in part.words:
            item = self.code.item(source, word) if word[0].isupper() else None
            if item:
                yield item
            elif not word[0].isupper():
                yield from self.free_functions(source, word)

    @cache
    def free_functions(self, source, name):
        """The functions of this name that aren't methods: those of the file, or else those of the crate that a `use` names, or of its own crate."""
        own = [it for it in source.functions if it.name == name and not it.owner]
        path = source.uses.get(name)
        crate = source.crate if not path or path[0] == "crate" else path[0]
        others = [it for place in self.code.sources.values() if place.crate == crate for it in place.functions]
        return tuple(own or [it for it in others if it.name == (path[-1] if path else name) and not it.owner])

    @cache
    def named_by(self, node):
        """The parts that a part names."""
        part = self.part(node)
        return tuple(self.named_in_theory(part) if part.kind == ".antt" else self.named_in_code(part))

    def part(self, node):
        """The part of a function, of a declaration or of an item."""
        if isinstance(node, Part):
            return node
        if node in self.heads:
            return self.heads[node]
        return self.law_part(node) if hasattr(node, "is_seen_by") else self.item_part(node)

    def under(self, crate, parts, called):
        """The texts of these parts and of all that they name, in the crate and the crates below it. `called` are the words of the code that is judged."""
        visible = {crate, *self.below[crate]}
        found, waiting = set(), list(parts)
        while waiting:
            node = waiting.pop()
            if node in found or self.part(node).crate not in visible:
                continue
            found.add(node)
            waiting += self.named_by(node)
            if hasattr(node, "subject"):
                waiting += self.of_type(node, called)
        return sorted({self.part(it).text for it in found})

    def of_type(self, item, called):
        """The impls of a type, and its methods that the judged code may call."""
        for it in self.methods.get(item, ()):
            if it.name in called or it.owner.kind == "trait" or it.owner.trait:
                yield from (it, it.owner)
        yield from (it for it in item.source.items if it.kind == "impl" and it.subject == item.subject)

    def of_function(self, crate, function, edit):
        """What the verdict on an edit of one body rests on."""
        source = self.code.sources[f"crates/{crate}/{function.file}"]
        owner = source.owner_of(source.starts[function.first - 1])
        own = Part(crate, "\n".join([*source.lines[function.start - 1 : function.last], *re.findall(r"^new: ?(.*)", edit, re.M)]), ".rt", source, owner)
        proofs = [it for it in self.theory.declared if it.startswith(f"crates/{crate}/proofs/{'/'.join(names_of(function))}/")]
        of_proof = [Part(crate, USE.sub("", self.theory.texts[it]), ".antt", it) for it in sorted(proofs)]
        return self.under(crate, [own, *of_proof, *([owner, self.subject(owner)] if owner else [])], own.words)

    @cache
    def of_crate(self, crate):
        """What the verdict on any other edit rests on: the crate, and all that it names."""
        sources = [it for it in self.code.sources.values() if it.crate == crate]
        laws = [it for place, found in self.theory.declared.items() if place.startswith(f"crates/{crate}/") for it in found]
        code = [Part(crate, it.text, ".rt", it) for it in sources]
        proofs = sorted(bare(text, ".antt") for place, text in self.theory.texts.items() if place.startswith(f"crates/{crate}/") and place.endswith(".antt"))
        parts = [*code, *laws, *(it for source in sources for it in (*source.items, *source.functions))]
        return proofs + self.under(crate, parts, set().union(*(it.words for it in code)))

    def number(self, kit, crate, edit):
        """The hash of an edit."""
        put_in = put_in_by(edit)
        function = change_of(edit, TOP / "crates" / crate, self.bodies[crate]).function
        texts = self.of_function(crate, function, put_in) if function else self.of_crate(crate)
        return hashlib.sha256("\n".join([kit, put_in, *texts]).encode()).hexdigest()[:16]

    def numbers(self, kit, places):
        """The hash of each of these edits, which are given by crate and name."""
        return {(crate, name): self.number(kit, crate, edits_of(crate)[name]) for crate, name in sorted(places)}
