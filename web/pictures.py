"""Pictures of automata: drawn by ltldraw and dot, filtered, and shown at the width of the page or at full size."""

import html
import math
import os
import re
import xml.etree.ElementTree

from web.markup import address, block, folded, link, number, sentence, shown

# The limits: edges of a picture at all, edges of a picture within an answer, bytes of a picture.
EDGES, EDGES_WITHIN, PICTURE = 400, 60, 1 << 21
# A point of a picture's size, in pixels of the page.
POINT = 4 / 3


class Picture:
    """Filters a picture in SVG: keeps elements and attributes that only draw, in black, white and red as the page has them."""

    SHAPE = "fill", "stroke", "stroke-width", "stroke-dasharray"
    KEPT = {
        "svg": ("width", "height", "viewBox"),
        "g": ("class", "transform"),
        "ellipse": ("cx", "cy", "rx", "ry", *SHAPE),
        "polygon": ("points", *SHAPE),
        "polyline": ("points", *SHAPE),
        "path": ("d", *SHAPE),
        "text": ("x", "y", "text-anchor", "font-family", "font-size", "font-weight", "font-style", *SHAPE),
    }
    COLOURS = {"black": "currentColor", "white": "none", "transparent": "none", "red": "var(--run)"}

    def __init__(self, text):
        self.parts = []
        root = xml.etree.ElementTree.fromstring(text)
        wide = re.fullmatch(r"([0-9.]{1,9})pt", root.get("width", ""))
        # The width in pixels, if it is told.
        self.width = math.ceil(float(wide[1]) * POINT) if wide and wide[1].count(".") < 2 else 0
        self.takes(root)

    def takes(self, element):
        name = element.tag.rpartition("}")[2] if isinstance(element.tag, str) else ""
        if name in self.KEPT:
            kept = {it: self.COLOURS.get(value, value) for it, value in element.attrib.items() if it in self.KEPT[name]}
            if name == "text":
                kept.setdefault("fill", "currentColor")
            right = {it: value for it, value in kept.items() if re.fullmatch(r"[\w\s.,#%()+-]*", value) and "url" not in value}
            self.parts.append(f"<{name}" + "".join(f' {it}="{html.escape(value)}"' for it, value in right.items()) + ">")
            self.parts.append(shown(element.text or "") if name == "text" else "")
            for inner in element:
                self.takes(inner)
            self.parts.append(f"</{name}>")

    def html(self, about, legend):
        """The picture and its legend. Two empty canvases, each half as wide as the picture, stand above it: side by side they make room for the whole width,
        and one below the other for half of it, so that the style sheet needs no numbers to keep the picture's width between these."""
        half = f'<canvas width="{math.ceil(self.width / 2)}" height="0" aria-hidden="true"></canvas>'
        inner = f'<div class="sized"><div>{half}{half}</div>{"".join(self.parts)}</div>'
        box = f'<div class="picture" role="img" tabindex="0" aria-label="{html.escape(about)}">{inner}</div>'
        return f"<figure>\n{box}\n<figcaption>{legend}</figcaption>\n</figure>"


def sizes(formula):
    return f"{number(formula.states, 'state', 'states')}, {number(formula.edges, 'edge', 'edges')}"


def labels(text):
    """The labels of the arrows of a picture in DOT, with `\\n` at the end of a line."""
    for plain, marked in re.findall(r'-> \d+ \[label=(?:"((?:[^"\\]|\\.)*)"|<(.*)>)[,\]]', text):
        yield html.unescape(re.sub(r"<[^>]*>", "", marked.replace("<br/>", r"\n"))) if marked else plain


def legend(text):
    """A sentence on what a picture in DOT shows."""
    texts = list(labels(text))
    # The numbers of acceptance sets, in braces or in black circles.
    sets = r" (?:\{\d+(?: \d+)*\}|\(\d+\)|[⓿❶-❿⓫-⓴])+"
    told = {
        "a run is accepting if it visits double circles infinitely often": "peripheries=2" in text,
        "a label ends with its acceptance sets, of each of which an accepting run takes edges infinitely often": any(re.search(sets, it) for it in texts),
        "|| means “or”": any("||" in it for it in texts),
        "the lines of a label are joined by “or”": any(r"\n" in it and "||" not in it for it in texts),
        "1 always holds": any(re.search(rf"(?:^|\|\||\\n)\s*1(?:{sets})?\s*(?:$|\|\||\\n)", it) for it in texts),
        "an accepting run on the word is red": "color=red" in text,
    }
    return shown("; ".join(["An arrow without a source leads to the initial state", *(it for it, is_so in told.items() if is_so)]) + ".")


def none(reason, *rest):
    """Why there is no picture."""
    return sentence(f"There is no picture{reason}", "aside") + "".join(rest)


def drawing(room, formula, word):
    """The automaton's picture for dot. It shows a run on the word, if that is a word and not too long."""
    if word:
        drawn = room.run("ltldraw", f"-w={word}", given=formula.unnamed)
        if drawn.status == 0:
            return drawn
    return room.run("ltldraw", given=formula.unnamed)


def picture(room, formula, word, at_full_size=False):
    """A picture of the automaton, or why there is none."""
    if not room.has("ltldraw"):
        return none(": ltldraw, which draws automata, is not built.")
    if formula.edges > EDGES:
        return none(f": it would have more than {EDGES} edges.")
    whole = address(formula.text, word=word, path="/picture", reduces=room.reduces)
    if formula.edges > EDGES_WITHIN and not at_full_size:
        return f'<p class="aside">The picture has {formula.edges} edges, and is by itself: {link(whole, "the picture")}.</p>'
    drawn = drawing(room, formula, word)
    if drawn.status:
        return none(f". {drawn.fault()}")
    text = folded("The picture for Graphviz", block(*drawn.text()))
    if not room.has("dot"):
        return none(": it takes the program dot of Graphviz, which isn't installed (on Debian: apt install graphviz).", text)
    made = room.run("dot", "-Tsvg", "-Nfontname=Helvetica", "-Efontname=Helvetica", "-Gfontname=Helvetica", given=drawn.output)
    if made.status or os.path.getsize(made.output) > PICTURE:
        return none(f". {made.fault()}" if made.status else ": it is too large.", text)
    told = legend(drawn.text()[0]) + ("" if at_full_size else f" {link(whole, 'Full size')}")
    try:
        return Picture(made.output.read_text(encoding="utf-8")).html(f"The automaton: {sizes(formula)}", told) + text
    except (xml.etree.ElementTree.ParseError, UnicodeDecodeError):
        return none(": dot wrote none.", text)
