"""Runs of programs within limits of time, memory and output, and what they said."""

import os
import re
import resource
import signal
import subprocess
from pathlib import Path

# The limits of a run: seconds, bytes of memory, bytes of output.
SECONDS, MEMORY, OUTPUT = 10, 1 << 30, 1 << 26
# The limit on the text of an output that is shown, in bytes.
TEXT = 100_000


def limited():
    """Sets the limits of the process that becomes the program."""
    for what, most in (resource.RLIMIT_AS, MEMORY), (resource.RLIMIT_CPU, SECONDS), (resource.RLIMIT_FSIZE, OUTPUT), (resource.RLIMIT_CORE, 0):
        hard = resource.getrlimit(what)[1]
        most = most if hard == resource.RLIM_INFINITY else min(most, hard)
        # At the hard limit of time a process is killed without a reason; at the soft one a signal tells the reason.
        resource.setrlimit(what, (most, hard if what == resource.RLIMIT_CPU else most))


class Ran:
    """A run that has ended or was stopped: its status, its message, and the file of its output."""

    def __init__(self, program, status, message, output):
        self.program, self.status, self.output = program, status, output
        self.message = message.removeprefix(f"{program}: ").strip()

    def text(self):
        """The output as far as it is shown, and the number of bytes that are left out."""
        with open(self.output, "rb") as it:
            return it.read(TEXT).decode("utf-8", "replace"), max(0, os.path.getsize(self.output) - TEXT)

    def place(self):
        """The position of the fault in a formula or in a word."""
        told = re.fullmatch(r"(?:formula|word): byte (\d+): .*", self.message)
        return int(told[1]) if told else None

    def fault(self):
        """Why there is no answer."""
        if self.status in (None, -signal.SIGXCPU):
            return f"{self.program} was stopped: a run has {SECONDS} seconds"
        if self.status == -signal.SIGXFSZ:
            return f"{self.program} was stopped: its output may have {OUTPUT >> 20} MB"
        if self.status < 0:
            return f"{self.program} was ended by signal {-self.status}"
        if self.status == 4:
            return f"{self.program}: {self.message}; a run has {MEMORY >> 30} GB"
        return f"{self.program}: {self.message or f'status {self.status}'}"


class Room:
    """A folder for the runs of one request, and whether it asks for reduced automata."""

    def __init__(self, programs, folder, reduces=False):
        self.programs, self.folder, self.count, self.reduces = programs, Path(folder), 0, reduces

    def put(self, name, text):
        (self.folder / name).write_text(text, encoding="utf-8", errors="replace")
        return name

    def has(self, program):
        return program in self.programs

    def run(self, program, *words, given=os.devnull):
        """Runs a program on a file as its input, within the limits."""
        self.count += 1
        output, message = self.folder / f"output{self.count}", self.folder / f"message{self.count}"
        around = {"PATH": os.defpath, "LANG": "C.UTF-8", "HOME": os.environ.get("HOME", str(self.folder))}
        with open(given, "rb") as read, open(output, "wb") as wrote, open(message, "wb") as told:
            how = {"stdin": read, "stdout": wrote, "stderr": told, "cwd": self.folder, "env": around, "preexec_fn": limited}
            try:
                status = subprocess.run([self.programs[program], *words], timeout=SECONDS, check=False, **how).returncode
            except subprocess.TimeoutExpired:
                status = None
            except (OSError, ValueError):
                return Ran(program, 3, "no program can be given this", output)
        return Ran(program, status, message.read_bytes()[:2000].decode("utf-8", "replace"), output)
