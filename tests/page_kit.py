"""What the tests of ./page share: a page that is running, requests to it, and a count of what passed."""

import html
import http.client
import os
import re
import shutil
import signal
import subprocess
import sys
import urllib.parse
from pathlib import Path

TOP = Path(__file__).resolve().parent.parent
PROGRAMS = "ltl2ba", "ltlcheck", "ltlcompare", "ltleval"
SECONDS = 120


class Count:
    """The numbers of tests that passed and failed."""

    passed = failed = 0

    def expect(self, about, seen, wanted=True):
        self.passed, self.failed = self.passed + (seen == wanted), self.failed + (seen != wanted)
        if seen != wanted:
            print(f"{about}: {str(seen)[:400]}, and not {str(wanted)[:400]}")

    def add(self, other):
        self.passed, self.failed = self.passed + other.passed, self.failed + other.failed


class Page:
    """A page that is running, and requests to it."""

    def __init__(self, *words, script=TOP / "page", **variables):
        # A shell without job control lets what it starts in the background ignore SIGINT, by which the page is ended here.
        command = [shutil.which("env"), "--default-signal=INT", sys.executable, script, *words]
        self.process = subprocess.Popen(command, stdout=subprocess.PIPE, text=True, env={**os.environ, **variables})
        self.line = self.process.stdout.readline()
        told = re.fullmatch(r"http://127\.0\.0\.1:(\d+)/\n", self.line)
        self.port = int(told[1]) if told else 0

    def __enter__(self):
        return self

    def __exit__(self, *_):
        self.process.send_signal(signal.SIGINT)
        self.process.wait(SECONDS)

    def request(self, path="/", method="GET", **headers):
        """The status, the headers and the text of an answer."""
        connection = http.client.HTTPConnection("127.0.0.1", self.port, timeout=SECONDS)
        connection.putrequest(method, path, skip_host=True)
        for name, value in {"Host": f"127.0.0.1:{self.port}", **headers}.items():
            for it in value if isinstance(value, list) else [value] if value else []:
                connection.putheader(name.replace("_", "-"), it)
        connection.endheaders()
        answer = connection.getresponse()
        return answer.status, answer.headers, answer.read().decode("utf-8")

    def status(self, path="/", method="GET", **headers):
        return self.request(path, method, **headers)[0]

    def ask(self, formula, second="", word="", reduces=False):
        """The part of the answer between the form and the help."""
        status, _, text = self.request(path_of(formula, second, word) + "&r=1" * reduces)
        return text.partition("</form>")[2].partition("<summary>What can be asked")[0] if status == 200 else f"status {status}"


def path_of(formula, second="", word=""):
    return "/?" + urllib.parse.urlencode({"f": formula, "g": second, "w": word})


def seen(text):
    """The text that a reader sees, without markup."""
    return html.unescape(re.sub(r"<[^>]*>", "", text))


def fault(text):
    return [seen(it) for it in re.findall(r'<pre class="fault"[^>]*>(.*?)</pre>', text, re.S)], re.findall(r"<mark[^>]*>(.*?)</mark>", text)


def advice(text):
    """What the page says to write instead."""
    return [seen(it) for it in re.findall(r'<p class="advice">(.*?)</p>', text, re.S)]


def sentences(text, kind):
    """The sentences of a kind."""
    return [seen(it) for it in re.findall(rf'<p class="{kind}">(.*?)</p>', text, re.S)]
