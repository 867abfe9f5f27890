"""Tests what ./page answers: formulas, spellings of other tools, pairs, words, timelines and pictures."""

import html
import re
import shutil
import urllib.parse

from page_kit import advice, fault, path_of, seen, sentences

from web.pictures import Picture, legend
from web.timelines import Timeline

# Formulas with spellings of other tools: the formula, the byte that is marked, and what the page says to write.
SPELLINGS = [
    ("p W q", "W", "for p W q write q V (p || q)"), ("pWq", "W", "for p W q write q V (p || q)"), ("p M q", "M", "for p M q write q U (p && q)"),
    ("p & q", "&amp;", "Write && for &."), ("p | q", "|", "Write || for |."), ("p => q", "=", "Write -> for =>."), ("p <=> q", "&lt;", "Write <-> for <=>."),
    ("~p", "~", "Write ! for ~."), ("[]1", "1", "Write true for 1."), ("0 U p", "0", "Write false for 0."), ("p xor q", "x", "for p xor q write !(p <-> q)"),
    ("p ^ q", "^", "for p ^ q write !(p <-> q)"), ("(p xor q)", "x", "for p xor q write !(p <-> q)"), ("[]Req", "R", "write req for Req"),
    ("busReq && 1", "1", "Write true for 1."), ("x && reQ", "Q", "write re_q for reQ"), ("P -> q", "P", "write p for P"), ("True", "T", "Write true for True."),
    ('"x is 0" U p', "&quot;", "here perhaps x_is_0"), ("[]'bus'", "&#x27;", "here perhaps bus"), ("req[3] && p", "[", "write req_3 for req[3]"),
    ("bus.req U q", ".", "write bus_req for bus.req"), ("X[3] p", "[", "X X X p for X[3] p"), ("F[0:5] p", "[", "for F[0:2] p write p || X(p || X p)"),
    ("[](x > 0)", "&gt;", "such as x_above_0"), ("x != 1", "!", "such as x_above_0"), ("not p", "p", "Write ! for not."), ("p and q", "a", "Write && for and."),
    ("p UNTIL q", "N", "Write U for UNTIL."), ("always p", "p", "Write [] for always."), ("p ∧ q", "∧", "Write && for ∧."), ("A G p", "A", "write []p"),
    ("p;", ";", "without ;"), ("{p}", "{", "only the brackets ( and )"), ("p S q", "S", "no operators for the past"), ("é", "é", "the letters a to z"),
]  # fmt: skip
# What is said of operators that this language hasn't, as formulas that have to be equivalent.
MEANINGS = [
    ("(p U q) || []p", "q V (p || q)"), ("(p V q) && <>p", "q U (p && q)"), ("(p && !q) || (!p && q)", "!(p <-> q)"),
    ("p || X p || X X p", "p || X(p || X p)"), ("p && X p && X X p", "p && X(p && X p)"),
]  # fmt: skip


def try_formulas(page, count):
    status, headers, text = page.request()
    count.expect("the beginning", (status, headers["Content-Type"], "<form" in text, "<script" in text), (200, "text/html; charset=utf-8", True, False))
    count.expect("the style sheet", [(it[0], it[1]["Content-Type"]) for it in [page.request("/style.css")]], [(200, "text/css; charset=utf-8")])
    text = page.ask("[]<>p")
    count.expect("sizes", "2 states and 4 edges" in seen(text))
    count.expect("as it is read", "It is read as (p && []q)." in seen(page.ask("p && G q")))
    claim = "never { /* []<>p */\nT0_init:\n\tif\n\t:: (1) -> goto T0_init\n\t:: (p) -> goto accept_S1\n\tfi;\naccept_S1:\n"
    count.expect("the claim", claim in seen(text))
    count.expect("the automaton", 'HOA: v1\nname: "[]<>p"\nStates: 2\nStart: 0\nAP: 1 "p"\n' in seen(text) and "[t] 0\n[0] 1\n--END--\n" in seen(text))
    count.expect("a link to it", f'<a href="/?{html.escape(urllib.parse.urlencode({"f": "[]<>p"}))}">' in text)
    for formula, before, at in ("p W q", "p W q", "W"), ("p &&", "p &&end", "end"), ("p && é q", "p && é q", "é"), ("(p", "(pend", "end"):
        text = page.ask(formula)
        count.expect(f"the fault of {formula}", fault(text), ([before], [at]))
    count.expect("its kind", "ltl2ba: formula: byte 2: unexpected byte" in seen(page.ask("p W q")))
    text = page.ask("p " * 300 + "p")
    count.expect("a fault far behind", (fault(text)[1], len(fault(text)[0][0]) < 500), (["p"], True))


def try_spellings(page, count):
    """Spellings of other tools are answered with what to write. Where nothing is known of a fault, nothing is said."""
    for formula, at, written in SPELLINGS:
        text = page.ask(formula)
        count.expect(f"instead of {formula}", (fault(text), [written in it for it in advice(text)]), (([formula], [at]), [True]))
    for formula in "p q", "(p", "p && && q", "p &&", "p G q", "q GFp", "p a", "p ! q", ")":
        count.expect(f"nothing for {formula}", advice(page.ask(formula)), [])
    for one, other in MEANINGS:
        count.expect(f"{one} is {other}", "They are equivalent" in seen(page.ask(one, other)))
    for formula, word in ("Grant -> p", "Grant"), ("!myVar", "myVar"):
        count.expect(f"{formula} as it is read", [it.startswith(f"A capital within {word} is read as an operator") for it in advice(page.ask(formula))], [True])
    for formula in "GFp", "pUq", "G Fg", "Gp_1 U Xq":
        count.expect(f"{formula} as it is meant", advice(page.ask(formula)), [])


def try_truths(page, count):
    """A formula is satisfiable or not, and valid or not, and the words say so."""
    table = ("[]<>p", True, True), ("p || !p", True, False), ("p && !p", False, True), ("[](p -> X q) && <>p", True, True), ("[]p -> <>p", True, False)
    for formula, holds, fails in table:
        text = page.ask(formula)
        some = "It is satisfiable: it holds on " if holds else "It isn’t satisfiable: it holds on no word."
        every = "It isn’t valid: it fails on " if fails else "It is valid: it holds on every word."
        count.expect(f"{formula}, satisfiable and valid", [it.startswith(one) for it, one in zip(sentences(text, "said"), (some, every))], [True, True])
        words = re.findall(r'it (holds|fails) on <a href="([^"]*)"><code>([^<]*)</code></a>', text)
        count.expect(f"words of {formula}", [it[0] for it in words], ["holds"] * holds + ["fails"] * fails)
        for which, link, word in words:
            said = seen(page.request(html.unescape(link))[2])
            count.expect(f"{formula} on {word}", f"The formula {'holds' if which == 'holds' else 'doesn’t hold'} on it." in said)
    count.expect("of two formulas it isn't said", "satisfiable" in seen(page.ask("p", "q")), False)
    count.expect("of none", "satisfiable" in seen(page.ask("p &")), False)


def timelines(text):
    """Each timeline: the number of positions before the cycle, and the marks and the label of each row."""
    for table in re.findall(r'<div class="timeline".*?</div>', text, re.S):
        rows, stem = [], None
        for row in re.findall(r"<tr[^>]*>(.*?)</tr>", table.partition("<tbody>")[2], re.S):
            # The cells of the marks, and behind them that of the text.
            cells, label = re.fullmatch(r'((?:<td[^>]*>[●·]</td>)+)<th scope="row">(.*)</th>', row).groups()
            marks = re.findall(r"<td([^>]*)>(.)</td>", cells)
            rows.append(("".join("*" if it == "●" else "." for _, it in marks), seen(label)))
            stem = ["cycle" in it for it, _ in marks].index(True) if any("cycle" in it for it, _ in marks) else None
        yield stem, rows


def try_timelines(page, count, has_drawer):
    """Timelines have their marks on the left. Two formulas have one each."""
    if not has_drawer:
        print("skipped: timelines on the page, for want of ltldraw")
        return
    rows = [("*.*.", "p"), (".*..", "q"), ("**..", "<>q"), ("**.*", "(p -> <>q)"), ("....", "[](p -> <>q)")]
    count.expect("a timeline", list(timelines(page.ask("[](p -> <>q)", "", "{p}; {q}; cycle {p}; {}"))), [(2, rows)])
    long = [("*" + "." * 11 + "*", "p"), ("*" * 13, "<>p")]
    count.expect("thirteen positions", list(timelines(page.ask("<>p", "", "cycle {p}; " + "{}; " * 11 + "{p}"))), [(0, long)])
    text = page.ask("[](request_in -> <>response_out)", "[]<>request_in -> []<>response_out")
    labels = [[it for _, it in rows] for _, rows in timelines(text)]
    shared = ["request_in", "response_out"]
    one = [*shared, "<>response_out", "(request_in -> <>response_out)", "[](request_in -> <>response_out)"]
    other = [*shared, "<>request_in", "[]<>request_in", "<>response_out", "[]<>response_out", "([]<>request_in -> []<>response_out)"]
    count.expect("two timelines", labels, [one, other])
    count.expect("their last rows", [rows[-1][0][0] for _, rows in timelines(text)], [".", "*"])
    for formula, word, whole in ("p", "cycle {p,q}", "p"), (" p  U q ", "cycle {}", "(p U q)"):
        rows = re.findall(r'<tr class="whole">.*?<th scope="row">(.*?)</th>', page.ask(formula, "", word))
        count.expect(f"the row of {formula} stands out", [seen(it) for it in rows], [whole])
    text = page.ask(" && ".join(f"p{k}" for k in range(70)), "", "cycle " + "; ".join(["{}"] * 130))
    sizes = [(len(rows), len(rows[0][0])) for _, rows in timelines(text)]
    count.expect("a large one", (sizes, "79 subformulas and 30 positions more" in seen(text)), ([(60, 100)], True))


# Timelines as ltldraw prints them, with a line of digits at the top or with as many as the greatest position has digits.
PRINTED = [
    ("        | 0 1\np       | * .\n(p U q) | . *\n", 0, [("p", "*."), ("(p U q)", ".*")]),
    ("  0 | 1\np * | .\n", 1, [("p", "*.")]),
    ("           | 1\n  8 9 | 0 1\np * . | . *\n", 2, [("p", "*..*")]),
    ("true 0 1 | 2\n", 0, []), ("shown <b>\n", 0, []), ("  0\np *\n", 0, []), ("  | 0\np | *\nq | * .\n", 0, []), ("  | 0\np | *\nend\n", 0, []),
]  # fmt: skip


# Pictures as ltldraw prints them, and what their legends say and don't say.
DRAWN = [
    ('  0 -> 1 [label="!p\\nq"]\n  1 [peripheries=2]\n', ["visits double circles", "lines of a label"], ["|| means", "red", "1 always", "sets"]),
    ('  0 -> 1 [label="!p || q"]\n  1 [peripheries=2]\n', ["visits double circles", "|| means “or”"], ["lines of a label", "red"]),
    ('  0 -> 0 [label=<p &amp;&amp; q ||<br/><font color="red">1</font>>, color=red]\n', ["|| means “or”", "is red", "1 always"], ["circles", "lines of"]),
    ('  0 -> 0 [label="p {0}\\n1 {0 1}"]\n', ["acceptance sets", "1 always"], ["double circles"]),
    ('  0 -> 0 [label="p ⓿ ❶"]\n', ["acceptance sets"], ["double", "1 always"]),
    ('  0 -> 1 [label="p1 && !p {1}"]\n', ["acceptance sets"], ["1 always", "“or”"]),
    ('  0 -> 1 [label="1"]\n  I -> 1\n', ["1 always"], ["“or”", "sets"]),
]  # fmt: skip


def try_readings(count):
    """Timelines and pictures are read as ltldraw printed them before, and as it prints them now."""
    for text, stem, rows in PRINTED:
        read = Timeline(text.splitlines(keepends=True))
        count.expect(f"the timeline {text!r}", ([(label, "".join(marks)) for label, marks in read.rows], rows and read.stem), (rows, rows and stem))
    stopped = Timeline(["  | 0\n", "p | *\n", "<>p | *\n"]).html("[]p, as it was typed")
    count.expect("the last row stands out", re.findall('<tr class="whole">.*<th scope="row">(.*)</th>', stopped), ["<code>&lt;&gt;p</code>"])
    for text, there, lacking in DRAWN:
        said = html.unescape(legend(text))
        count.expect(f"the legend of {text}", ([it for it in there if it not in said], [it for it in lacking if it in said]), ([], []))
    for about, width, wanted in ("points", "150pt", 200), ("no width", None, 0), ("another unit", "5in", 0), ("no number", "1.2.3pt", 0):
        attribute = f' width="{width}"' if width else ""
        count.expect(f"a picture's width, {about}", Picture(f"<svg{attribute}/>").width, wanted)


def try_pairs(page, count):
    for first, second, wanted in (
        ("p U q", "!(!p R !q)", "They are equivalent"),
        ("[]p", "<>p", "The first implies the second, and not"),
        ("<>p", "[]p", "The second implies the first, and not"),
        ("p", "q", "Neither implies"),
    ):
        text = seen(page.ask(first, second))
        count.expect(f"{first} and {second}", wanted in text)
        words = re.findall(r"On this word the (first|second) one holds, and the (?:first|second) one doesn’t: ((?:\{[^}]*\}; )*cycle \{.*\})", text)
        count.expect(f"words of {first} and {second}", len(words), {"They": 0, "The ": 1, "Neit": 2}[wanted[:4]])
        for which, word in words:
            judged = seen(page.ask(first, second, word))
            one, other = ("first", "second") if which == "first" else ("second", "first")
            told = f"The {one} formula holds on it." in judged, f"The {other} formula doesn’t hold on it." in judged
            count.expect(f"{word} of {first} and {second}", told, (True, True))
    for first, second, kind in ("p U q", "!(!p R !q)", "yes"), ("[]p", "<>p", "said"), ("<>p", "[]p", "said"), ("p", "q", "said"):
        text = page.ask(first, second)
        count.expect(f"no error of {first} and {second}", (len(sentences(text, kind)), sentences(text, "no")), (1, []))
    text = page.ask("p", "q &&")
    count.expect("a fault in the second", (fault(text), "formulas" in seen(text)), ((["q &&end"], ["end"]), False))


def try_words(page, count):
    for formula, word, wanted in (
        ("[]<>p", "cycle {p}; {}", "The formula holds on it."),
        ("[]<>p", "{p}; cycle {}", "The formula doesn’t hold on it."),
        ("p", "-f; cycle {}", "ltleval: word: byte 0: bad word"),
        ("p", "={p}; cycle {}", "ltleval: word: byte 0: bad word"),
        ("p", "{p};cycle {}", "ltleval: word: byte 4: bad word"),
        ("p", "\0", "ltleval: no program can be given this"),
        ("p", "{}; " * 16_384 + "cycle {}", "ltleval: limit: word longer than 65536 bytes"),
        ("p", "{}; " * 40_000 + "cycle {}", "ltleval: no program can be given this"),
    ):
        count.expect(f"{formula} on {word[:40]}", wanted in seen(page.ask(formula, "", word)))
    text = page.ask("p", "", "{p};cycle {}")
    count.expect("the fault of a word", fault(text), (["{p};cycle {}"], ["c"]))
    count.expect("the form of a word", "A word is written as {p}; cycle {q,r}; {}. " in seen(text))
    for second, word, meant in ("", "{p};cycle {}", "{p}; cycle {}"), ("q", "cycle{p, q};", "cycle {p,q}"), ("", "{p}", None), ("", "{P}; cycle {}", None):
        links = re.findall(r'Perhaps this is meant: <a href="([^"]*)"><code>([^<]*)</code>', page.ask("p", second, word))
        count.expect(f"what {word} means", [it[1] for it in links], [meant] if meant else [])
        if meant and links:
            count.expect(f"{meant} is a word", "on it." in seen(page.request(html.unescape(links[0][0]))[2]))


def try_words_beside(page, count):
    """A word is looked at also beside texts that are no formulas, and what isn't answered is said."""
    for formula, second, word, wanted in (
        ("p W q", "", "{p}; cycle {}", ["The formula can’t be read, so nothing is known of it on this word."]),
        ("p W q", "", "{p};cycle {}", ["ltleval: word: byte 4: bad word", "The formula can’t be read"]),
        ("p", "q &&", "cycle {p}", ["The first formula holds on it.", "The second formula can’t be read"]),
        ("", "p", "cycle {p}", ["There is no formula"]),
    ):
        text = seen(page.ask(formula, second, word))
        count.expect(f"{word} beside {formula} and {second}", [it for it in wanted if it not in text], [])
    count.expect("a formula that doesn't hold is no error", sentences(page.ask("p", "", "cycle {}"), "no"), [])


def try_reductions(page, count):
    """With the mark, the reduced automaton is shown, and its size beside that of the formula's own."""
    for formula, second, word in ("[]<>p -> []<>q", "", ""), ("p U (q U r)", "", "{p}; cycle {r}"), ("[](p -> <>q)", "[]p", ""):
        plain, text = (page.ask(formula, second, word, reduces=it) for it in (False, True))
        sizes = r"Its automaton has (\d+) states? and (\d+) edges?"
        told = [tuple(map(int, it)) for it in re.findall(sizes + r"; reduced, it has (\d+) states? and (\d+) edges?\.", seen(text))]
        count.expect(f"both sizes of {formula}", [it[:2] for it in told], [tuple(map(int, it)) for it in re.findall(sizes, seen(plain))])
        count.expect(f"{formula} reduced", [it for it in told if it[2:] > it[:2] or it[3] > it[1]], [])
        shown = re.findall(r"HOA: v1\nStates: (\d+)\n", seen(text))
        count.expect(f"the text of {formula} reduced", [int(it) for it in shown], [it[2] for it in told])
        count.expect(f"the claim of {formula} reduced", len(re.findall(r"never \{\n", seen(text))), len(told))
        verdicts = [[*sentences(it, "said"), *sentences(it, "yes")] for it in (plain, text)]
        count.expect(f"the answers beside {formula} reduced", verdicts[1], verdicts[0])
        inner = [html.unescape(it) for it in re.findall(r'href="(/[^"]*)"', text)]
        count.expect(f"the links from {formula} reduced", [it for it in inner if not it.endswith("&r=1")], [])
    count.expect("the mark stays", [' value="1" checked>' in page.request(path_of("p") + it)[2] for it in ("&r=1", "")], [True, False])


def try_full_size(page, count):
    """The legend of a picture, and pictures by themselves."""
    text = page.ask("[](p -> <>q)")
    svg = re.findall(r"<svg.*?</svg>", text, re.S)
    said = "<figcaption>An arrow without a source leads to the initial state; a run is accepting if it visits double circles infinitely often; "
    where = re.findall(r'<figcaption>[^<]*<a href="([^"]*)">Full size</a></figcaption>', text)
    count.expect("a legend", said in text)
    count.expect("a link to its full size", where, ["/picture" + html.escape(path_of("[](p -> <>q)")[1:].partition("&")[0])])
    status, headers, whole = page.request(html.unescape(where[0]) if where else "/none")
    count.expect("its full size", (status, re.findall(r"<svg.*?</svg>", whole, re.S), "<form" in whole), (200, svg, False))
    policy = headers["Content-Security-Policy"] or ""
    count.expect("no script beside it", (policy.startswith("default-src 'none'; style-src 'self';"), headers["X-Frame-Options"]), (True, "DENY"))
    text = page.ask(" || ".join(f"[]<>p{k}" for k in range(25)))
    where = re.findall(r'picture has \d+ edges, and is by itself: <a href="([^"]*)">', text)
    count.expect("many edges", (len(where), "<svg" in text, bool(where) and "<svg" in page.request(html.unescape(where[0]))[2]), (1, False, True))
    count.expect("no picture of what isn't a formula", "Write && for &." in seen(page.request("/picture" + path_of("p & q")[1:])[2]))
    for text in '<script>alert(1)</script>', "'\"><img src=x onerror=alert(1)>", "$formula":
        for fields in (text, "", ""), ("p", "", text):
            body = page.request("/picture" + path_of(*fields)[1:])[2]
            count.expect(f"{text} is escaped beside a picture", any(it in body for it in ("<script", "<img", "onerror=alert(1)>")), False)


def try_pictures(page, count, has_drawer):
    text = page.ask("[](p -> <>q)")
    if not has_drawer:
        print("skipped: pictures on the page, for want of ltldraw")
    elif not shutil.which("dot"):
        print("skipped: pictures on the page, for want of Graphviz' dot")
    else:
        svg = re.findall(r"<svg.*?</svg>", text, re.S)
        count.expect("a picture", len(svg), 1)
        nodes = re.findall(r'<g class="node">', svg[0]) if svg else []
        count.expect("its states, and the arrow from nowhere", len(nodes) in (3, 4))
        long = "{}; " * 40_000 + "cycle {}"
        for word, wanted in ("cycle {p}; {}", (True, False)), ("{p}; cycle {}", (False, True)), ("{p}; cycle", (False, False)), (long, (False, False)):
            svg = re.findall(r"<svg.*?</svg>", page.ask("[]<>p", "", word), re.S)
            count.expect(f"the run on {word[:40]}", [("var(--run)" in it, "no run on this word is accepting" in seen(it)) for it in svg], [wanted])
        try_full_size(page, count)
