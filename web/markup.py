"""Texts as parts of a page. All that is shown is escaped here."""

import html
import re
import urllib.parse


def shown(text):
    """A text as it is put into a page: escaped, with a symbol for each character that can't be seen."""
    return html.escape("".join(chr(0x2400 + ord(it)) if ord(it) < 32 and it not in "\n\t" else it for it in text))


def address(formula, second="", word="", path="/", reduces=False):
    fields = [("f", formula), ("g", second), ("w", word), ("r", "1" if reduces else "")]
    return f"{path}?" + urllib.parse.urlencode([it for it in fields if it[1]])


def block(text, left_out=0, kind="text"):
    """A text with its lines, which can be scrolled by keys."""
    rest = f"\n<p>{left_out:,} more bytes are left out.</p>" if left_out else ""
    return f'<pre class="{kind}" tabindex="0">{shown(text)}</pre>{rest}'


def folded(title, inner):
    """What is shown when its title is chosen."""
    return f"<details><summary>{title}</summary>{inner}</details>"


def section(title, *parts):
    return f"<section>\n<h2>{shown(title)}</h2>\n" + "\n".join(it for it in parts if it) + "\n</section>"


def sentence(text, kind=""):
    return f'<p class="{kind}">{shown(text)}</p>' if kind else f"<p>{shown(text)}</p>"


def code(text, most=300):
    """A formula or a word within a sentence, or its beginning."""
    # An arrow stays in one piece.
    whole = re.sub(r"(?:&lt;)?-&gt;", r"<span>\g<0></span>", shown(text[:most]))
    return f"<code>{whole}{'…' if len(text) > most else ''}</code>"


def advice(parts):
    """A sentence of parts that are words and code by turns."""
    return '<p class="advice">' + "".join(code(it) if k % 2 else shown(it) for k, it in enumerate(parts)) + "</p>"


def link(where, inner):
    """A link around what is escaped already."""
    return f'<a href="{html.escape(where)}">{inner}</a>'


def number(count, one, more):
    return f"{count:,} {one if count == 1 else more}"


def marked(text, place):
    """The text around a fault, with the byte of the fault marked."""
    whole = text.encode("utf-8", "replace")
    while 0 < place < len(whole) and whole[place] & 0xC0 == 0x80:
        place -= 1
    behind = place + 1
    while behind < len(whole) and whole[behind] & 0xC0 == 0x80:
        behind += 1
    before, at, after = (it.decode("utf-8", "replace") for it in (whole[:place], whole[place:behind], whole[behind:]))
    front = ("…" if len(before) > 200 else "") + before[-200:]
    back = after[:200] + ("…" if len(after) > 200 else "")
    at = f"<mark>{shown(at)}</mark>" if at else '<mark class="end">end</mark>'
    return f'<pre class="fault" tabindex="0">{shown(front)}{at}{shown(back)}</pre>'
