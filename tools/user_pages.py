"""The pages of the repository as packages have them: for users of installed programs, who don't have the repository."""

import os
import re
from pathlib import Path

from binaries import Failed, run

TOP = Path(__file__).resolve().parent.parent
LICENCES = "COPYRIGHT", "LICENSE-APACHE", "LICENSE-MIT"
# A link to a file: what is shown, and the place. What isn't a place of a file may be a formula.
LINK = rf"(?<!!)\[([^\]\[]+)\]\(([\w-]*[./][\w./-]*(?:#[\w-]+)?|{'|'.join(LICENCES)})\)"
# Pages that only developers of the repository need, and parts of README.md that only they need, with what users get in their place. A part is a section, or
# a paragraph, with this beginning.
DEVELOPERS_PAGES = "docs/PROVING.md", "docs/WORKING.md", "docs/WRONG-BODIES.md", "docs/pictures/crates.svg"
DEVELOPERS_PARTS = {
    "`./run` needs": """These are the pages of the sources. If one begins at the top of the repository, begin in a copy of the folder of this page, since
examples write files. Scripts such as `./build` and `./test`, and the folders `crates` and `tools`, are in the repository alone.

""",
    "## Change it, check it": "",
    "## What is where": "",
}


def text(place):
    return (TOP / place).read_text(encoding="utf-8")


def page_places():
    """The pages for users, and what they show and use, as far as it is in git."""
    for place in run(["git", "ls-files", "README.md", "docs"], cwd=TOP).splitlines():
        if not place.startswith(("docs/edits/", "docs/man/")) and not place.endswith((".py", ".dot")) and place not in DEVELOPERS_PAGES:
            yield place


def without_developers_parts(page):
    for part, instead in DEVELOPERS_PARTS.items():
        end = r"(?=^## |\Z)" if part.startswith("## ") else r"\n\n"
        page, count = re.subn(rf"^{re.escape(part)}.*?{end}", instead, page, flags=re.M | re.S)
        if count != 1:
            raise Failed(f"README.md has {count} parts that begin with {part}")
    return page


def page_shown(place, places):
    """A page as the archive has it: with the installed programs in place of the scripts, without links to what isn't there and without developers' parts."""

    def link(found):
        to = os.path.normpath(f"{os.path.dirname(place)}/{found[2].partition('#')[0]}").lstrip("/")
        if to in places:
            return found[0]
        if to.startswith("examples/c"):
            return f"{found[1]} (in libltl2ba-dev)"
        return found[1] if to.startswith(("docs/man/", "include/")) or to in LICENCES else f"{found[1]} of the sources"

    page = without_developers_parts(text(place)) if place == "README.md" else text(place)
    page = re.sub(r"^ *\$ .*$", lambda it: re.sub(r"(?:\.\.?/)+run (?=ltl)", "", it[0]), page, flags=re.M)
    page = re.sub(r"(`\./(?:page|tutorial)[^`\n]*`), at the top of the repository,", r"\1", page)
    page = re.sub(r"(?<![\w./])\./(page|tutorial)\b(?![/.])", r"ltl2ba-\1", page)
    page = re.sub(r"(?<![\w./])(?:\.\.?/)+ltlspin\b(?![/.])", "ltlspin", page)
    return re.sub(LINK, link, page)


def pages():
    """The content of each page, and of what pages show and use, by its place in the repository."""
    places = set(page_places())
    return {it: page_shown(it, places).encode() if it.endswith(".md") else (TOP / it).read_bytes() for it in sorted(places)}
