#!/usr/bin/env python3
"""Draws docs/pictures. For each automaton that a page shows, NAME.dot is what ltldraw prints, and NAME.svg is what Graphviz' `dot` makes of it. The last
line of NAME.svg has the version of dot and the font by which it measured texts. Without dot no NAME.svg is written. crates.dot is written by `tools/pages
crates` and timeline.dot by hand, and only their images are drawn here.

Usage: docs/pictures.py [-p FOLDER] [TO]; the programs are those of the folder, or those that ./build made, and the pictures go to TO, or to docs/pictures."""

import os
import re
import shutil
import subprocess
import sys
from pathlib import Path

TOP = Path(__file__).resolve().parent.parent
# Each picture: its name, its automaton, which is a formula or a file, or a graph that is there already, and options of dot beside those of all pictures.
TABLE = [
    ("response", "[](p -> <>q)", []),
    ("starvation", "!([](wants -> <>has))", []),
    ("anyone", Path("docs/tutorial/anyone.hoa"), ["-Gnodesep=1", "-Granksep=0.8"]),
    ("turns", Path("docs/tutorial/turns.hoa"), ["-Gnodesep=1", "-Granksep=0.8"]),
    ("grant", "[](req -> <>grant)", []),
    ("timeline", Path("docs/pictures/timeline.dot"), []),
    ("crates", Path("docs/pictures/crates.dot"), []),
]
# A white ground, so that a picture can be seen on a dark page, too.
OPTIONS = ["-Tsvg", "-Gbgcolor=white", "-Gpad=0.15", "-Gfontname=Helvetica", "-Nfontname=Helvetica", "-Efontname=Helvetica"]


def graph(automaton, program):
    """What ltldraw prints for an automaton, or the graph that is there. `program` maps a name to the path of the program."""
    if isinstance(automaton, Path):
        text = (TOP / automaton).read_bytes()
        if automaton.suffix == ".dot":
            return text
    else:
        text = subprocess.run([program("ltl2ba"), "-H", "-f", automaton], stdout=subprocess.PIPE, check=True).stdout
    return subprocess.run([program("ltldraw")], input=text, stdout=subprocess.PIPE, check=True).stdout


def image(text, options):
    """What dot makes of a picture, with the version and the font that it used."""
    made = subprocess.run(["dot", "-v", *OPTIONS, *options], input=text, capture_output=True, env={**os.environ, "LC_ALL": "C.UTF-8"}, check=True)
    said = made.stderr.decode("utf-8", "replace")
    fonts = sorted(set(re.findall(r'^fontname: .*?"([^"]*)" */\S*$', said, re.M)))
    return made.stdout + f"<!-- dot {re.search('graphviz version (.*)', said)[1]}, font {', '.join(fonts) or 'unknown'} -->\n".encode()


def draw(folder, program):
    """Draws all pictures into a folder."""
    for name, automaton, options in TABLE:
        text = graph(automaton, program)
        (folder / f"{name}.dot").write_bytes(text)
        if shutil.which("dot"):
            (folder / f"{name}.svg").write_bytes(image(text, options))


def main(words):
    folder = Path(words.pop(1)) if words[:1] == ["-p"] else None
    to = words[1:] if folder else words
    draw(Path(to[0]) if to else TOP / "docs/pictures", lambda name: (folder or TOP / f"crates/{name}/out").resolve() / name)


if __name__ == "__main__":
    main(sys.argv[1:])
