"""A browser without a window, for tests: loads pages at a given width, in light or dark, measures them and takes pictures of them.

It is Debian's `chromium`, which is told what to do over a pair of pipes."""

import base64
import contextlib
import itertools
import json
import os
import select
import shutil
import subprocess
import tempfile
import time

SECONDS = 120


def installed():
    """The path of the browser, or nothing."""
    return shutil.which("chromium") or shutil.which("chromium-browser")


class Browser:
    """A browser that is running."""

    def __init__(self):
        self.folder = tempfile.TemporaryDirectory(ignore_cleanup_errors=True)
        read, self.to = os.pipe()
        self.of, wrote = os.pipe()
        words = ["--headless=new", "--no-sandbox", "--disable-gpu", "--hide-scrollbars", f"--user-data-dir={self.folder.name}", "--remote-debugging-pipe"]
        # The browser reads what it is told from descriptor 3, and answers on descriptor 4.
        shell = ["bash", "-c", f'exec "$@" 3<&{read} 4>&{wrote}', "bash", installed(), *words, "about:blank"]
        self.process = subprocess.Popen(shell, stdin=subprocess.DEVNULL, stdout=subprocess.DEVNULL, stderr=subprocess.DEVNULL, pass_fds=(read, wrote))
        os.close(read)
        os.close(wrote)
        self.numbers, self.heard, self.session = itertools.count(1), b"", None
        target = next(it for it in self.tell("Target.getTargets")["targetInfos"] if it["type"] == "page")
        self.session = self.tell("Target.attachToTarget", targetId=target["targetId"], flatten=True)["sessionId"]
        self.tell("Page.enable")

    def __enter__(self):
        return self

    def __exit__(self, *_):
        with contextlib.suppress(OSError, TimeoutError):
            self.session = None
            self.tell("Browser.close")
        os.close(self.to)
        os.close(self.of)
        try:
            self.process.wait(10)
        except subprocess.TimeoutExpired:
            self.process.kill()
            self.process.wait()
        self.folder.cleanup()

    def message(self, until):
        """The next message of the browser."""
        while b"\0" not in self.heard:
            if not select.select([self.of], [], [], max(0, until - time.monotonic()))[0]:
                raise TimeoutError("the browser is silent")
            data = os.read(self.of, 1 << 20)
            if not data:
                raise OSError("the browser has ended")
            self.heard += data
        text, _, self.heard = self.heard.partition(b"\0")
        return json.loads(text)

    def tell(self, method, **given):
        """The answer to a command."""
        number, until = next(self.numbers), time.monotonic() + SECONDS
        command = {"id": number, "method": method, "params": given, **({"sessionId": self.session} if self.session else {})}
        data = json.dumps(command).encode() + b"\0"
        while data:
            data = data[os.write(self.to, data) :]
        while True:
            answer = self.message(until)
            if answer.get("id") == number:
                if "error" in answer:
                    raise ValueError(f"{method}: {answer['error']}")
                return answer["result"]

    def show(self, address, wide=1100, high=900, dark=False):
        """Loads a page in a window of this size, and waits until it is there."""
        self.tell("Emulation.setDeviceMetricsOverride", width=wide, height=high, deviceScaleFactor=1, mobile=False)
        self.tell("Emulation.setEmulatedMedia", features=[{"name": "prefers-color-scheme", "value": "dark" if dark else "light"}])
        told = self.tell("Page.navigate", url=address)
        if told.get("errorText"):
            raise ValueError(f"{address}: {told['errorText']}")
        until = time.monotonic() + SECONDS
        while self.message(until).get("method") != "Page.loadEventFired":
            pass

    def value(self, script):
        """The value of an expression in the page."""
        told = self.tell("Runtime.evaluate", expression=script, returnByValue=True)
        if "exceptionDetails" in told:
            raise ValueError(f"{script}: {told['exceptionDetails']}")
        return told["result"].get("value")

    def picture(self, file, whole=True):
        """Writes a picture of the page, in PNG, to a file."""
        data = self.tell("Page.captureScreenshot", format="png", captureBeyondViewport=whole)["data"]
        with open(file, "wb") as it:
            it.write(base64.b64decode(data))
