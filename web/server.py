"""The server: who may ask, what is asked, and how many at a time."""

import http.server
import io
import selectors
import socketserver
import string
import sys
import tempfile
import time
import urllib.parse
from pathlib import Path

from web.answers import answers, examples, picture_alone
from web.hints import FORM
from web.markup import advice, shown
from web.runs import SECONDS, Room

FILES = Path(__file__).resolve().parent
# The limit on the first line of a request, in which each byte of a formula may take three, and on all that comes before a request's end.
LINE, HEAD = 1 << 20, (1 << 20) + (1 << 16)
# The number of requests at a time, while others wait, and the number of connections that may be open before their request is whole.
REQUESTS, CONNECTIONS = 4, 64
HEADERS = {
    "Content-Security-Policy": "default-src 'none'; style-src 'self'; img-src data:; form-action 'self'; base-uri 'none'; frame-ancestors 'none'",
    "X-Frame-Options": "DENY",
    "X-Content-Type-Options": "nosniff",
    "Cross-Origin-Opener-Policy": "same-origin",
    "Cross-Origin-Resource-Policy": "same-origin",
    "Referrer-Policy": "no-referrer",
    "Cache-Control": "no-store",
}


def filled(name, values):
    return string.Template((FILES / name).read_text(encoding="utf-8")).substitute(values)


class Handler(http.server.BaseHTTPRequestHandler):
    """One request, whose head the server has read."""

    timeout = SECONDS
    programs = {}
    command = ""

    def setup(self):
        super().setup()
        self.rfile.close()
        self.rfile = io.BytesIO(self.server.head)

    def log_message(self, *_):
        """Nothing is logged."""

    def version_string(self):
        return "page"

    def handle_one_request(self):
        try:
            self.raw_requestline = self.rfile.readline(LINE + 1)
            if len(self.raw_requestline) > LINE:
                self.requestline, self.request_version, self.command = "", "", ""
                self.answer(414, "The address is too long.")
            elif self.raw_requestline and self.parse_request():
                self.respond()
        except (TimeoutError, ConnectionError):
            pass
        except Exception as error:
            print(f"page: {type(error).__name__}: {error}", file=sys.stderr, flush=True)
            self.answer(500, "The page went wrong here.")
        self.close_connection = True

    def send_error(self, code, message=None, explain=None):
        self.answer(code, "This is no request for this page.")

    def answer(self, status, text, kind="text/plain"):
        body = text.encode("utf-8", "replace") if isinstance(text, str) else text
        self.send_response(status)
        for name, value in HEADERS.items():
            self.send_header(name, value)
        if status == 405:
            self.send_header("Allow", "GET, HEAD")
        self.send_header("Content-Type", f"{kind}; charset=utf-8")
        self.send_header("Content-Length", str(len(body)))
        self.end_headers()
        if self.command != "HEAD":
            self.wfile.write(body)

    def is_own(self):
        """Whether the request names this host, and comes from the page itself or from no page."""
        hosts = [f"{it}:{self.server.server_port}" for it in ("127.0.0.1", "localhost")]
        named = self.headers.get_all("Host", [])
        if len(named) != 1 or named[0] not in hosts:
            return False
        own, told = f"http://{named[0]}", self.headers.get_all
        return (
            all(it == own for it in told("Origin", []))
            and all(it.startswith(f"{own}/") for it in told("Referer", []))
            and all(it in ("same-origin", "none") for it in told("Sec-Fetch-Site", []))
        )

    def respond(self):
        path, _, query = self.path.partition("?")
        if not self.is_own():
            self.answer(403, "This page is for requests from itself, and from the address bar of a browser on this machine.")
        elif self.command not in ("GET", "HEAD"):
            self.answer(405, "This page answers GET and HEAD alone.")
        elif path == "/style.css" and not query:
            self.answer(200, (FILES / "style.css").read_bytes(), "text/css")
        elif path in ("/", "/picture"):
            self.show(path, query)
        else:
            self.answer(404, "There is no such page.")

    def show(self, path, query):
        try:
            fields = dict(urllib.parse.parse_qsl(query, errors="replace", max_num_fields=10))
        except ValueError:
            self.answer(400, "There are too many fields.")
            return
        formula, second, word = (fields.get(it, "").strip("\r\n") for it in "fgw")
        with tempfile.TemporaryDirectory() as folder:
            room = Room(self.programs, folder, bool(fields.get("r")))
            page = picture_page(room, formula, word) if path == "/picture" else main_page(room, formula, second, word)
        self.answer(200, page, "text/html")


def main_page(room, formula, second, word):
    """The page with the form, and the answers if something is asked."""
    is_asked = any((formula, second, word))
    names = dict(zip(("formula", "second", "word"), (shown(it.replace("\n", " ")) for it in (formula, second, word))))
    names.update(title=shown(f"{formula[:60]} – formulas") if formula else "Formulas", examples=examples(), form=advice(FORM))
    names.update(reduces=" checked" if room.reduces else "")
    names.update(answers=answers(room, formula, second, word) if is_asked else "")
    names.update({"focus": "", "open": ""} if is_asked else {"focus": " autofocus", "open": " open"})
    return filled("page.html", names)


def picture_page(room, formula, word):
    """The page with nothing but a picture."""
    return filled("picture.html", {"title": shown(f"{formula[:60]} – picture"), "answers": picture_alone(room, formula, word)})


class Waiting:
    """A connection whose request isn't whole."""

    def __init__(self, address):
        self.address, self.head, self.since = address, bytearray(), time.monotonic()

    def takes(self, data):
        """Takes what has come, and says whether the request is whole, or too long."""
        begin = max(0, len(self.head) - 3)
        self.head += data
        self.since = time.monotonic()
        return len(self.head) > HEAD or any(self.head.find(it, begin) >= 0 for it in (b"\n\r\n", b"\n\n"))


class Server(socketserver.ForkingMixIn, http.server.HTTPServer):
    """The server. Each request has a process of its own: limits are set between fork and exec, which threads forbid. The process is made when the request's
    head has come, so a connection that says nothing holds up no other one; it is closed after a while, or when there are too many of its kind."""

    max_children = REQUESTS
    request_queue_size = CONNECTIONS
    head = b""

    def handle_error(self, request, client_address):
        """The browser is told by the connection's end."""

    def serve(self):
        """Serves until a signal ends it."""
        self.socket.setblocking(False)
        self.open = selectors.DefaultSelector()
        self.open.register(self.socket, selectors.EVENT_READ)
        while True:
            for key, _ in self.open.select(1):
                if key.data is None:
                    self.admit()
                else:
                    self.hear(key.fileobj, key.data)
            self.dismiss()
            self.service_actions()

    def waiting(self):
        """The connections whose requests aren't whole, the one that has been silent for longest first."""
        return sorted((it for it in self.open.get_map().values() if it.data), key=lambda it: it.data.since)

    def admit(self):
        """Accepts a connection."""
        try:
            request, address = self.get_request()
        except OSError:
            return
        request.setblocking(False)
        self.open.register(request, selectors.EVENT_READ, Waiting(address))

    def hear(self, request, waiting):
        """Reads what a connection has sent, and has a whole request answered."""
        try:
            data = request.recv(1 << 16)
        except BlockingIOError:
            return
        except OSError:
            data = b""
        if data and not waiting.takes(data):
            return
        self.open.unregister(request)
        if not data:
            self.shutdown_request(request)
            return
        self.head = bytes(waiting.head)
        try:
            self.process_request(request, waiting.address)
        except OSError:
            self.shutdown_request(request)

    def dismiss(self):
        """Closes connections that are silent for too long, or too many."""
        waiting = self.waiting()
        for k, it in enumerate(waiting):
            if k < len(waiting) - CONNECTIONS or it.data.since + SECONDS < time.monotonic():
                self.open.unregister(it.fileobj)
                self.shutdown_request(it.fileobj)

    def finish_request(self, request, client_address):
        """Answers in the process of the request, which needs no other connection."""
        for it in list(self.open.get_map().values()):
            it.fileobj.close()
        self.open.close()
        super().finish_request(request, client_address)
