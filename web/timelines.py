"""Timelines: the positions of a word at which each subformula holds, as a table with the marks on the left."""

from web.markup import block, code, number

# The limits of a table.
POSITIONS, FORMULAS = 100, 60


class Timeline:
    """A timeline as ltldraw prints it: a mark for each position in each row, and the length of the stem.

    Lines before the first one with marks are its header. `rows` is empty if the text is no timeline."""

    def __init__(self, lines):
        self.rows, self.stem, self.size = [], None, 0
        for line in lines:
            if not self.takes(line.rstrip("\n")):
                self.rows = []
                return

    def takes(self, line):
        begin = next((k for k, it in enumerate(line) if it in "*."), None)
        if begin is None:
            return not self.rows and not line.strip("0123456789 |")
        # A label has no `*` and no `.`, and doesn't end with a bar.
        label = line[:begin].rstrip()
        marks = (["|"] if label.endswith("|") else []) + line[begin:].split()
        stem = marks.index("|") if "|" in marks else -1
        marks = [it for k, it in enumerate(marks) if k != stem]
        if self.rows and (stem, len(marks)) != (self.stem, self.size) or any(it not in ("*", ".") for it in marks) or not 0 <= stem < len(marks):
            return False
        self.stem, self.size = stem, len(marks)
        self.rows.append((label.removesuffix("|").rstrip(), marks[:POSITIONS]))
        return True

    def head(self, shown):
        """The numbers of the positions, below the names of the word's parts."""
        stem = min(self.stem, shown)
        parts = [("stem", stem, ""), ("cycle", shown - stem, ' class="cycle"')]
        above = "".join(f'<th scope="colgroup" colspan="{count}"{kind}>{name}</th>' for name, count, kind in parts if count)
        numbers = "".join(f'<th scope="col"{self.kind(k)}>{k}</th>' for k in range(shown))
        return f"<thead>\n<tr>{above}<td></td></tr>\n<tr>{numbers}<td></td></tr>\n</thead>"

    def kind(self, k, mark=""):
        """The class of a cell: whether the cycle begins there, and whether something holds there."""
        names = (["cycle"] if k == self.stem else []) + (["on"] if mark == "*" else [])
        return f' class="{" ".join(names)}"' if names else ""

    def row(self, label, marks, whole):
        cells = "".join(f"<td{self.kind(k, it)}>{'●' if it == '*' else '·'}</td>" for k, it in enumerate(marks))
        about = ' class="whole"' if label == whole else ""
        return f'<tr{about}>{cells}<th scope="row">{code(label)}</th></tr>'

    def html(self, formula):
        """The table, and what is left out of it. The row of the whole formula stands out, which is the last one unless the formula is a proposition."""
        whole = formula if formula in (label for label, _ in self.rows) else self.rows[-1][0]
        shown, left_out = min(self.size, POSITIONS), max(0, len(self.rows) - FORMULAS)
        rows = "\n".join(self.row(label, marks, whole) for label, marks in self.rows[left_out:])
        table = f"<table>\n{self.head(shown)}\n<tbody>\n{rows}\n</tbody>\n</table>"
        box = f'<div class="timeline" tabindex="0" role="region" aria-label="Timeline">\n{table}\n</div>'
        notes = [number(left_out, "subformula", "subformulas")] if left_out else []
        notes += [number(self.size - shown, "position", "positions")] if self.size > shown else []
        return box + (f'\n<p class="aside">{" and ".join(notes)} more, which <code>ltldraw -t</code> prints.</p>' if notes else "")


def timeline(room, word, formula):
    """The positions of the word at which each subformula holds, if ltldraw is there."""
    if not room.has("ltldraw"):
        return ""
    ran = room.run("ltldraw", "-t", word, "-f", formula)
    if ran.status != 0:
        return ""
    with open(ran.output, encoding="utf-8", errors="replace") as lines:
        read = Timeline(lines)
    return read.html(formula) if read.rows else block(*ran.text(), "timeline")
