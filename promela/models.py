"""A model as Spin reads it: preprocessed once, without its blocks `ltl`, and with the names that it declares."""

import re
from pathlib import Path

from promela.rooms import Refused

# What is told apart in a preprocessed text: strings, lines of the preprocessor, words, and single characters.
TOKEN = re.compile(r'"(?:\\.|[^"\\\n])*"|\'(?:\\.|[^\'\\\n])*\'|^[ \t]*#[^\n]*|\w+|\S', re.M)
EMBEDDED = "c_code", "c_expr", "c_decl", "c_state", "c_track"
# Types whose values are true or false: all numbers but 0 are true.
NUMBERS = "bit", "byte", "short", "int", "unsigned"


class Block:
    """A block `ltl`: its name, its formula as it is written, and the line and file where it begins."""

    def __init__(self, name, text, place):
        self.name, self.text, self.place = name, text, place


def shown_name(path):
    """The name of the model in Spin's messages and trails, which take no name that is long or has quotes in it."""
    return str(path) if re.fullmatch(r"[\w./+ -]{1,100}", str(path), re.A) else "model.pml"


def read(path):
    try:
        return Path(path).read_bytes().decode("utf-8", "surrogateescape")
    except (OSError, ValueError) as error:
        raise Refused(f"{path}: {getattr(error, 'strerror', None) or error}") from error


def first_lines(ran, count=6):
    return "\n".join(it for it in ran.lines() if it.strip())[:2000].split("\n")[:count]


def refuse_by(ran, program, what):
    """Refuses with what a program says."""
    raise Refused("\n".join([f"{program} refuses {what}:", *first_lines(ran)]))


class Model:
    """A preprocessed model. `expanded` has what the preprocessor makes of each text that is asked for."""

    def __init__(self, room, tools, path, defines, asked):
        self.room, self.tools, self.name = room, tools, shown_name(path)
        mark = f"ltlspin_{room.folder.name.rpartition('-')[2].lower()}_asked"
        probes = "".join(f"{mark}_{k} {it}\n" for k, it in enumerate(asked))
        place = room.put("unpreprocessed", f'# 1 "{self.name}"\n{read(path)}\n# 1 "formula"\n{mark}\n{probes}')
        words = [f"-D{it}" for it in defines]
        near = str(Path(path).parent.resolve())
        ran = room.run("preprocessing", tools["gcc"], "-std=gnu99", "-E", "-x", "c", "-w", "-iquote", near, *words, "-o", "preprocessed", str(place))
        if ran.status:
            refuse_by(ran, "the preprocessor", path)
        text, _, told = (room.folder / "preprocessed").read_bytes().decode("utf-8", "surrogateescape").partition(f"\n{mark}\n")
        pieces = re.split(rf"^{mark}_\d+\b", re.sub(r"^#.*$", "", told, flags=re.M), flags=re.M)[1:]
        if len(pieces) != len(asked):
            raise Refused(f"{path}: a comment or a string isn't closed")
        self.expanded = dict(zip(asked, (" ".join(it.split()) for it in pieces)))
        text, self.blocks = without_blocks(text)
        # An assertion is a step that is always possible; whether it fails has no part in the answer. (The checker's own option -A would have it ignore indices
        # that are out of range, too, and write where they lead.) What follows the word binds tighter.
        self.text = TOKEN.sub(lambda it: "true ||" if it[0] == "assert" else it[0], text)
        self.words = {it for it in TOKEN.findall(self.text) if it[0].isalpha() or it[0] == "_"}
        self.refuse_others()
        self.declared = self.declarations()

    def refuse_others(self):
        for it in EMBEDDED:
            if it in self.words:
                raise Refused(f"{self.name} has embedded C code ({it}), which Spin doesn't run when it shows a trail")
        if "never" in self.words:
            raise Refused(f"{self.name} has a never claim of its own, and Spin checks one at a time: take it out")

    def declarations(self):
        """The names of the model by Spin's table: for each, its kinds as pairs of type and scope."""
        self.room.put("table.pml", self.text)
        ran = self.room.run("reading the model", self.tools["spin"], "-d", "table.pml")
        if ran.status:
            refuse_by(ran, "spin", self.name)
        found = {}
        for line in ran.lines():
            cells = [it.strip() for it in line.split("\t")]
            if len(cells) >= 4:
                name, is_array = cells[1].partition("[")[::2]
                kind = "array" if is_array else "constant" if cells[4:5] == ["<constant>"] else cells[0]
                found.setdefault(name, set()).add((kind, cells[3]))
        return found

    def is_global(self, name, kinds):
        return any(kind in kinds and scope == "<:global:>" for kind, scope in self.declared.get(name, ()))

    def marked(self, word):
        """The names in declarations that begin with a word as `hidden`."""
        found = set()
        for part in re.findall(rf"\b{word}\b([^;]*)", self.text) if word in self.words else ():
            found.update(re.findall(r"\w+", part))
        return found


def without_blocks(text):
    """The text with empty lines in place of its blocks, and the blocks."""
    kept, blocks, behind, line, file = [], [], 0, 1, ""
    tokens = list(TOKEN.finditer(text))
    k = counted = nameless = 0
    while k < len(tokens):
        it = tokens[k]
        line += text.count("\n", counted, it.start())
        counted = it.start()
        marked = re.match(r'\s*# (\d+) "([^"]*)"', it[0])
        if marked:
            line, file = int(marked[1]) - 1, marked[2]
        elif it[0] == "ltl":
            opened = next((n for n in (k + 1, k + 2) if n < len(tokens) and tokens[n][0] == "{"), None)
            closed = opened and closing(tokens, opened)
            if not closed:
                raise Refused(f"{file}:{line}: the block ltl has no end")
            name = tokens[k + 1][0] if opened == k + 2 else f"ltl_{nameless}"
            nameless += opened == k + 1
            blocks.append(Block(name, text[tokens[opened].end() : tokens[closed].start()], f'# {line} "{file}"'))
            kept.append(text[behind : it.start()] + "\n" * text.count("\n", it.start(), tokens[closed].end()))
            behind = tokens[closed].end()
            k = closed
        k += 1
    return "".join(kept) + text[behind:], blocks


def closing(tokens, opened):
    """The place of the brace that closes an opened one."""
    depth = 0
    for k in range(opened, len(tokens)):
        depth += (tokens[k][0] == "{") - (tokens[k][0] == "}")
        if not depth:
            return k
    return None
