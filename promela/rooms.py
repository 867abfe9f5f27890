"""Runs of programs in a folder of their own, within limits of time and memory. The folder and what still runs end with the room."""

import contextlib
import os
import resource
import signal
import subprocess
import sys
import tempfile
import time
from pathlib import Path

# The most bytes that a program may write to a file, and the seconds between two lines of progress on a terminal.
OUTPUT, PAUSE = 1 << 32, 0.5
SIGNALS = signal.SIGINT, signal.SIGTERM, signal.SIGHUP


class Refused(Exception):
    """There is no answer, for this reason."""


class OutOfTime(Refused):
    """The time is over."""


class Ran:
    """A run that has ended: its status, and the file of what it wrote to both streams."""

    def __init__(self, status, output):
        self.status, self.output = status, output

    def text(self):
        return self.output.read_bytes().decode("utf-8", "replace")

    def lines(self):
        return self.text().splitlines()


def ended(number, _):
    """Ends this process by a signal; on the way out the room is left."""
    sys.exit(128 + number)


def hold_back(is_held):
    """Holds signals back, or lets them come."""
    signal.pthread_sigmask(signal.SIG_BLOCK if is_held else signal.SIG_UNBLOCK, (*SIGNALS, signal.SIGALRM))


def out_of_time(*_):
    raise OutOfTime("the time is over; --time gives more")


def wait_for(process, about, begun):
    """Waits for the end of a program. A terminal shows for how long this has taken. The number of the process stays its own until `end`."""
    ended_ones = os.WEXITED | os.WNOWAIT
    if not sys.stderr.isatty():
        os.waitid(os.P_PID, process.pid, ended_ones)
        return
    shown = time.monotonic()
    try:
        while not os.waitid(os.P_PID, process.pid, ended_ones | os.WNOHANG):
            time.sleep(PAUSE / 50)
            if time.monotonic() > shown + PAUSE:
                shown = time.monotonic()
                print(f"\r\x1b[K{about.format(shown - begun)}", end="", file=sys.stderr, flush=True)
    finally:
        print("\r\x1b[K", end="", file=sys.stderr, flush=True)


def end(process):
    """Ends what still runs of a program, and of what it has started itself, which has the number of the process as that of its group."""
    with contextlib.suppress(ProcessLookupError):
        os.killpg(process.pid, signal.SIGKILL)
    process.wait()


class Room:
    """A temporary folder, and runs of programs in it."""

    def __init__(self, seconds, megabytes):
        self.seconds, self.megabytes, self.count, self.begun = seconds, megabytes, 0, time.monotonic()

    def __enter__(self):
        # Until the first run, so that a signal finds what it has to remove.
        hold_back(True)
        # What this process was started to ignore, as by nohup, it ignores.
        self.signals = [it for it in SIGNALS if signal.getsignal(it) is not signal.SIG_IGN]
        for it in self.signals:
            signal.signal(it, ended)
        signal.signal(signal.SIGALRM, out_of_time)
        self.held = tempfile.TemporaryDirectory(prefix="ltlspin-")
        self.folder = Path(self.held.name).resolve()
        if self.seconds:
            signal.setitimer(signal.ITIMER_REAL, self.seconds)
        return self

    def __exit__(self, *_):
        hold_back(True)
        signal.setitimer(signal.ITIMER_REAL, 0)
        self.held.cleanup()
        for it in self.signals:
            signal.signal(it, signal.SIG_DFL)
        hold_back(False)

    def part(self):
        """A new folder below."""
        self.count += 1
        part = self.folder / f"part{self.count}"
        part.mkdir()
        return part

    def put(self, name, text):
        place = self.folder / name
        place.write_text(text, encoding="utf-8", errors="surrogateescape")
        return place

    def run(self, about, *words, folder=None, has_limit=False):
        """Runs a program to its end. Its memory is limited if `has_limit`."""
        self.count += 1
        output = self.folder / f"output{self.count}"
        most = (self.megabytes + 256) << 20 if has_limit else resource.RLIM_INFINITY

        def limited():
            hold_back(False)
            for what, value in (resource.RLIMIT_AS, most), (resource.RLIMIT_FSIZE, OUTPUT), (resource.RLIMIT_CORE, 0):
                hard = resource.getrlimit(what)[1]
                value = hard if value == resource.RLIM_INFINITY else value if hard == resource.RLIM_INFINITY else min(value, hard)
                resource.setrlimit(what, (value, value))

        # What a compiler leaves when it is ended is in the room, too.
        around = {**os.environ, "LC_ALL": "C", "TMPDIR": str(self.folder)}
        how = {"stdin": subprocess.DEVNULL, "stderr": subprocess.STDOUT, "cwd": folder or self.folder, "env": around}
        with open(output, "wb") as wrote:
            hold_back(True)
            try:
                process = subprocess.Popen(words, stdout=wrote, start_new_session=True, preexec_fn=limited, **how)
            except (OSError, ValueError) as error:
                raise Refused(f"{Path(words[0]).name} can't be run: {getattr(error, 'strerror', None) or error}") from error
        try:
            hold_back(False)
            wait_for(process, f"{about}, {{:.0f}} s", self.begun)
        finally:
            hold_back(True)
            end(process)
            hold_back(False)
        return Ran(process.returncode, output)
