#!/usr/bin/env python3
"""Tests ./page: plain answers over HTTP, on the programs that the gate built, and how it handles malicious programs, requests and texts.

Usage: tests/page.py [-p FOLDER]; the programs are those of the folder, or those that the gate built. What isn't installed here is reported in a line that
begins with 'skipped: '. The last line is 'N passed, M failed'."""

import contextlib
import html
import os
import re
import shutil
import socket
import subprocess
import sys
import tempfile
import threading
import time
from concurrent.futures import ThreadPoolExecutor
from pathlib import Path

sys.dont_write_bytecode = True
sys.path[:0] = [str(Path(__file__).resolve().parent), str(Path(__file__).resolve().parent.parent)]

import page_answers as tries  # noqa: E402
from page_kit import PROGRAMS, SECONDS, TOP, Count, Page, fault, path_of, seen, sentences  # noqa: E402
from page_looks import try_looks  # noqa: E402

# Programs that misbehave, in place of the built ones. The formula says how.
MEAN = r"""import os, signal, sys, time
tool, words = os.path.basename(sys.argv[0]), sys.argv[1:]
def given(option):
    return words[words.index(option) + 1]
if tool == "ltldraw":
    print("shown <b>" if "-t" in words else 'digraph { a [label="<b>"] }')
elif tool == "dot":
    print('''<?xml version="1.0"?><!DOCTYPE svg PUBLIC "-//W3C//DTD SVG 1.1//EN" "http://127.0.0.1:1/none.dtd">
<svg xmlns="http://www.w3.org/2000/svg" width="9pt" onload="alert(1)"><script>alert(2)</script><a href="http://example.org"><text>linked</text></a>
<foreignObject><p>inner</p></foreignObject><g class="node" style="color: red"><text x="1" fill="url(#x)" onclick="alert(3)">&lt;b&gt;kept</text>
<path d="M1,2" stroke="black" fill="white"/></g></svg>''')
elif tool == "ltl2ba":
    formula = open(given("-F")).read()
    if formula == "slow":
        time.sleep(600)
    if formula == "busy":
        while True:
            pass
    if formula == "large":
        try:
            bytearray(3 << 30)
        except MemoryError:
            sys.exit("ltl2ba: out of memory")
    if formula == "long":
        signal.signal(signal.SIGXFSZ, signal.SIG_DFL)
        while True:
            os.write(1, b"HOA: v1\n" * 100000)
    if formula == "killed":
        os.kill(os.getpid(), 9)
    if formula == "shell":
        print("words:", words, file=sys.stderr)
        sys.exit(3)
    print('HOA: v1\nname: "<i>' + formula + '"\nStates: 1\n--BODY--\nState: 0\n[t] 0\n--END--')
elif tool == "ltlcheck":
    print("violated\n<u>; cycle {}")
    sys.exit(1)
elif tool == "ltlcompare":
    print("<u>alike" if open(given("-G")).read() == "third" else "incomparable\nfirst only: <u>; cycle {}\nsecond only: <u>; cycle {}")
    sys.exit(1)
else:
    print("true" if "first" in open(given("-F")).read() else "false")
    sys.exit(0 if "first" in open(given("-F")).read() else 1)
"""


def try_hostile(page, count):
    texts = '<script>alert(1)</script>', '"><img src=x onerror=alert(1)>', "'; touch owned; '", "$(touch owned) `touch owned`", "$formula ${answers}"
    for text in *texts, "&lt;b>\x1b[2J":
        for fields in (text, "", ""), ("p", text, ""), ("p", "q", text):
            body = page.request(path_of(*fields))[2]
            count.expect(f"{text} is escaped", any(it in body for it in ("<script", "<img", "onerror=alert(1)>", "<b>", "\x1b")), False)
            count.expect(f"{text} is shown", text.replace("\x1b", "␛") in html.unescape(body))
    count.expect("no shell", any(it.exists() for it in (TOP / "owned", Path("owned"))), False)
    longest = "p" + " && p" * 13_107
    text = page.ask(longest)
    count.expect("65,536 bytes", (len(longest), "Its automaton has" in seen(text), len(text) < 1_000_000), (65_536, True, True))
    count.expect("one more", "ltl2ba: limit: formula longer than 65536 bytes" in seen(page.ask(longest + " ")))
    count.expect("65,536 bytes that are escaped", fault(page.ask("<" * 65_536))[1], ["&lt;"])
    count.expect("much too long", page.status("/?f=" + "p" * 1_100_000), 414)
    count.expect("many fields", page.status("/?" + "f=p&" * 2000), 400)


def try_minutes(page, count):
    begun = time.monotonic()
    text = seen(page.ask("[](" + " U ".join(f"<>p{k}" for k in range(16)) + ")"))
    told = "ltl2ba was stopped: a run has 10 seconds" in text or "ltl2ba: out of memory" in text
    count.expect("a formula that takes minutes is stopped", (told, time.monotonic() - begun < 60), (True, True))


def try_requests(page, count):
    own, other = f"http://127.0.0.1:{page.port}", f"http://127.0.0.1:{page.port + 1}"
    for about, wanted, headers in (
        ("the other name of this machine", 200, {"Host": f"localhost:{page.port}"}),
        ("another host", 403, {"Host": f"example.org:{page.port}"}),
        ("another port", 403, {"Host": f"127.0.0.1:{page.port + 1}"}),
        ("no port", 403, {"Host": "127.0.0.1"}),
        ("no host", 403, {"Host": None}),
        ("two hosts", 403, {"Host": [f"127.0.0.1:{page.port}", "example.org"]}),
        ("its own origin", 200, {"Origin": own}),
        ("another origin", 403, {"Origin": "https://example.org"}),
        ("an origin on another port", 403, {"Origin": other}),
        ("a hidden origin", 403, {"Origin": "null"}),
        ("a link on itself", 200, {"Referer": f"{own}/?f=p"}),
        ("a link on another page", 403, {"Referer": "https://example.org/"}),
        ("a link on a page whose name begins so", 403, {"Referer": f"{own}.example.org/"}),
        ("from itself", 200, {"Sec_Fetch_Site": "same-origin"}),
        ("from the address bar", 200, {"Sec_Fetch_Site": "none"}),
        ("from another site", 403, {"Sec_Fetch_Site": "cross-site"}),
        ("from another port", 403, {"Sec_Fetch_Site": "same-site"}),
    ):
        for path in "/", path_of("p"), "/style.css", "/picture" + path_of("p")[1:]:
            count.expect(f"{about}, {path}", page.status(path, **headers), wanted)
    for method in "POST", "PUT", "DELETE", "OPTIONS", "TRACE", "get", "head", "X":
        status, headers, _ = page.request(path_of("p"), method)
        count.expect(f"method {method}", (status, headers["Allow"]), (405, "GET, HEAD"))
    for path in "/", path_of("p"), "/style.css", "/none":
        answers = [page.request(path, method) for method in ("GET", "HEAD")]
        heads = [(status, {name: it for name, it in headers.items() if name != "Date"}) for status, headers, _ in answers]
        count.expect(f"the head of {path}", (heads[1], answers[1][2]), (heads[0], ""))
    for path in "/page", "/../page", "/web/page.html", "/style.css?x", "/favicon.ico", "/web/server.py", "/picture.html":
        count.expect(f"path {path}", page.status(path), 404)
    _, headers, _ = page.request()
    count.expect("no frame", (headers["X-Frame-Options"], "frame-ancestors 'none'" in headers["Content-Security-Policy"]), ("DENY", True))
    count.expect("no script", headers["Content-Security-Policy"].startswith("default-src 'none'; style-src 'self';"))
    count.expect("for no other page", headers["Cross-Origin-Resource-Policy"], "same-origin")
    count.expect("no other address", [it for it in headers if it.lower().startswith("access-control")], [])


def try_silent(page, count):
    """Connections that say nothing, or only the beginning of a request, hold up no other one, and are closed after a while."""
    begun, open_ones = time.monotonic(), []
    with contextlib.ExitStack() as stack:
        for k in range(106):
            open_ones.append(stack.enter_context(socket.create_connection(("127.0.0.1", page.port), SECONDS)))
            if k % 2:
                open_ones[-1].sendall(b"GET / HT")
            if k == 5:
                count.expect("beside six silent connections", (page.status(), time.monotonic() - begun < 5), (200, True))
        count.expect("beside a hundred", (page.status(path_of("p")), time.monotonic() - begun < 9), (200, True))
        with contextlib.suppress(ConnectionError):
            count.expect("the last one is closed", (open_ones[-1].recv(1), 9 < time.monotonic() - begun < 60), (b"", True))
    with socket.create_connection(("127.0.0.1", page.port), SECONDS) as slow:
        for part in "GET / HTTP/1.1\r", f"\nHost: 127.0.0.1:{page.port}\r\n", "\r", "\n":
            slow.sendall(part.encode())
            time.sleep(0.1)
        count.expect("a request in pieces", slow.recv(15), b"HTTP/1.0 200 OK")


def try_times(page, count, formula, about):
    """A formula that takes too long is stopped, and others are answered meanwhile."""
    texts, begun = {}, time.monotonic()
    waiting = [threading.Thread(target=lambda k=k: texts.update({k: page.ask(formula)})) for k in range(2)]
    for it in waiting:
        it.start()
    time.sleep(0.5)
    meanwhile = seen(page.ask("[]<>first"))
    count.expect(f"{about}: another one meanwhile", ("Its automaton has" in meanwhile, [it.is_alive() for it in waiting]), (True, [True, True]))
    for it in waiting:
        it.join()
    count.expect(f"{about}: stopped", ["ltl2ba was stopped: a run has 10 seconds" in seen(it) for it in texts.values()], [True, True])
    count.expect(f"{about}: in time", 9 < time.monotonic() - begun < 60)


def put_mean(folder, *names):
    """Puts malicious programs into a folder."""
    for name in names:
        (Path(folder) / name).write_text(f"#!{sys.executable}\n{MEAN}", encoding="utf-8")
        (Path(folder) / name).chmod(0o755)


def try_mean(count):
    """Malicious programs are stopped, and what they write is escaped."""
    with tempfile.TemporaryDirectory() as folder:
        put_mean(folder, *PROGRAMS, "ltldraw", "dot")
        with Page("-p", folder) as page:
            text = page.ask("first", "second", "<u>; cycle {}")
            count.expect("what programs write is escaped", re.findall(r"<(?:b|i|u|script|a href=.http|foreignObject)\b", text), [])
            wanted = '<svg width="9pt"><g class="node"><text x="1">&lt;b&gt;kept</text><path d="M1,2" stroke="currentColor" fill="none"></path></g></svg>'
            count.expect("a picture", re.findall(r"<svg.*?</svg>", text, re.S)[0].replace("\n", ""), wanted)
            count.expect("as it is read", "It is read as <i>first." in seen(text))
            count.expect("a word that tells them apart", "On this word the first one holds, and the second one doesn’t: <u>; cycle {}" in seen(text))
            count.expect("that nobody agrees on", "ltleval doesn’t agree about the word <u>; cycle {}" in seen(text))
            count.expect("timelines", re.findall(r'<pre class="timeline" tabindex="0">([^<]*)\n</pre>', text), ["shown &lt;b&gt;"] * 4)
            count.expect("an answer that is none", sentences(page.ask("first", "third"), "no"), ["ltlcompare: status 1"])
            alone = page.request("/picture?f=first")[2]
            count.expect("a picture by itself", [it.replace("\n", "") for it in re.findall(r"<svg.*?</svg>", alone, re.S)], [wanted])
            count.expect("what is escaped beside it", re.findall(r"<(?:b|i|u|script|a href=.http|foreignObject)\b", alone), [])
            text = page.ask("first")
            count.expect("satisfiable", sentences(text, "said"), ["It is satisfiable: it holds on <u>; cycle {}."])
            count.expect("and valid, if a program is wrong", sentences(text, "no"), ["ltleval doesn’t agree about the word <u>; cycle {}"])
            try_times(page, count, "slow", "asleep")
            count.expect("busy", "ltl2ba was stopped: a run has 10 seconds" in seen(page.ask("busy")))
            count.expect("large", "ltl2ba: out of memory" in seen(page.ask("large")))
            count.expect("long", "ltl2ba was stopped: its output may have 64 MB" in seen(page.ask("long")))
            count.expect("killed", "ltl2ba was ended by signal 9" in seen(page.ask("killed")))
            count.expect("words", "words: ['-H', '-F', 'formula0']" in seen(page.ask("shell")))
            os.remove(f"{folder}/dot")
        with Page("-p", folder, PATH=folder) as page:
            count.expect("without dot", "apt install graphviz" in seen(page.ask("first")))
            os.remove(f"{folder}/ltldraw")
        with Page("-p", folder) as page:
            count.expect("without ltlreduce", "It isn’t reduced: ltlreduce is not built." in seen(page.ask("first", reduces=True)))
            text = seen(page.ask("first", "second", "{}; cycle {}"))
            count.expect("without ltldraw", ("ltldraw, which draws automata, is not built" in text, "The first formula holds on it." in text), (True, True))
        os.remove(f"{folder}/ltleval")
        ran = subprocess.run([TOP / "page", "-p", folder], capture_output=True, text=True, timeout=SECONDS, check=False)
        count.expect("not built", (ran.stdout, ran.stderr, ran.returncode), ("", f"page: {folder} has no program ltleval\n", 1))


def ran(*words, script=TOP / "page"):
    """The status and the two outputs of a page that doesn't serve."""
    it = subprocess.run([sys.executable, script, *words], capture_output=True, text=True, timeout=SECONDS, check=False)
    return it.returncode, it.stdout, it.stderr


def try_command_line(count):
    """The command line: the usage, a port, and a port that is taken."""
    usage = "usage: page [-h] [-p FOLDER] [-P PORT]\n"
    for words in ("-h",), ("--help",), ("-P", "80", "-h"):
        status, out, err = ran(*words)
        count.expect(f"help by {words}", (status, out.startswith(usage), "-P PORT" in out, "http:" in out, err), (0, True, True, False, ""))
    for words in ("8080",), ("-P",), ("-P", "0"), ("-P", "65536"), ("-P", "x"), ("-p",), ("--po", "80"):
        status, out, err = ran(*words)
        count.expect(f"usage of {words}", (status, out, err.startswith(usage)), (2, "", True))
    with tempfile.TemporaryDirectory() as folder, socket.socket() as taken:
        put_mean(folder, *PROGRAMS)
        taken.bind(("127.0.0.1", 0))
        taken.listen()
        port = taken.getsockname()[1]
        count.expect("a port that is taken", ran("-p", folder, "-P", str(port)), (1, "", f"page: port {port}: Address already in use\n"))
        taken.close()
        for k in range(2):
            with Page("-p", folder, "-P", str(port)) as page:
                count.expect(f"a port, start {k}", (page.port, page.status()), (port, 200))


def try_installed(count):
    """The page under another name beside its programs, with its other files in share/ltl2ba, and by a link to it."""
    with tempfile.TemporaryDirectory() as folder:
        there = Path(folder).resolve()
        shutil.copytree(TOP / "web", there / "share/ltl2ba/web")
        (there / "bin").mkdir()
        script = Path(shutil.copy(TOP / "page", there / "bin/ltl2ba-page"))
        count.expect("without its programs", ran(script=script), (1, "", f"ltl2ba-page: {there}/bin has no program ltl2ba\n"))
        put_mean(there / "bin", *PROGRAMS, "ltldraw", "dot")
        (there / "link").symlink_to(script)
        for it in script, there / "link":
            with Page(script=it, PYTHONDONTWRITEBYTECODE="") as page:
                text = page.ask("first")
                told = "It is read as <i>first." in seen(text), "kept" in text, page.status("/style.css")
                count.expect(f"installed, as {it.name}", told, (True, True, 200))
        count.expect("nothing is written there", [str(it) for it in there.rglob("__pycache__")], [])
        shutil.rmtree(there / "share")
        count.expect("without its files", ran(script=script), (1, "", "ltl2ba-page: the folder web is missing\n"))


def try_browser(page, count):
    browser = shutil.which("chromium") or shutil.which("chromium-browser")
    if not browser:
        print("skipped: the page in a browser, for want of chromium")
        return
    with tempfile.TemporaryDirectory() as folder:

        def tree(address):
            words = [browser, "--headless=new", "--no-sandbox", "--disable-gpu", f"--user-data-dir={folder}", "--dump-dom", address]
            with contextlib.suppress(subprocess.TimeoutExpired):
                return subprocess.run(words, capture_output=True, timeout=SECONDS, check=False).stdout.decode("utf-8", "replace")
            return "no answer"

        here = f"http://127.0.0.1:{page.port}"
        count.expect("a formula", "Its automaton has 2 states and 4 edges" in seen(tree(here + path_of("[]<>p"))))
        count.expect("a fault", "<mark>W</mark>" in tree(here + path_of("p W q")))
        count.expect("a pair", "They are equivalent" in seen(tree(here + path_of("p U q", "!(!p R !q)"))))
        shown = tree(here + path_of("<script>document.title = 'owned'</script>"))
        count.expect("a script", ("owned</title>" in shown, "<script" in shown), (False, False))
        other = Path(folder) / "other.html"
        other.write_text(f'<body><iframe src="{here}/"></iframe><img id="it" src="{here}/style.css"><p>end</p></body>', encoding="ascii")
        count.expect("in another page's frame", "Answer" in tree(other.as_uri()), False)


def try_page(count, folder):
    """Asks the page on the built programs. The formula that takes minutes is asked for beside the others."""
    minutes = Count()
    with Page(*(["-p", str(folder)] if folder else [])) as page:
        count.expect("the address", bool(page.port))
        if page.port:
            with ThreadPoolExecutor() as pool:
                waiting = pool.submit(try_minutes, page, minutes)
                has_drawer = (folder / "ltldraw" if folder else TOP / "crates/ltldraw/out/ltldraw").exists()
                for it in tries.try_formulas, tries.try_spellings, tries.try_truths, tries.try_pairs, tries.try_words, tries.try_words_beside, tries.try_reductions:
                    it(page, count)
                for it in try_hostile, try_requests, try_silent, try_browser:
                    it(page, count)
                for it in tries.try_timelines, tries.try_pictures, try_looks:
                    it(page, count, has_drawer)
                waiting.result()
    count.expect("it ends", page.process.returncode, 130)
    count.add(minutes)


def main(words):
    if words[:1] in (["-h"], ["--help"]):
        print(__doc__)
        return 0
    folder = Path(words[1]).resolve() if words[:1] == ["-p"] else None
    count, mean = Count(), Count()
    with ThreadPoolExecutor() as pool:
        # Malicious programs use up their time, which others need not wait for.
        waiting = pool.submit(try_mean, mean)
        for it in tries.try_readings, try_command_line, try_installed:
            it(count)
        try_page(count, folder)
        waiting.result()
    count.add(mean)
    print(f"{count.passed} passed, {count.failed} failed")
    return 1 if count.failed else 0


if __name__ == "__main__":
    sys.exit(main(sys.argv[1:]))
