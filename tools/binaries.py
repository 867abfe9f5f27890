"""Programs and archives as binutils see them: what they are without symbols, and what they need of the C library."""

import re
import shutil
import subprocess
import tempfile
from pathlib import Path

TOOLS = "strip", "objcopy", "objdump"
# What GNU's C library is made of.
OF_LIBC = {"libc.so.6", "libm.so.6", "ld-linux-x86-64.so.2"}


class Failed(Exception):
    """A tool failed or is missing, or a program needs something unknown."""


def run(words, **how):
    ran = subprocess.run([str(it) for it in words], capture_output=True, text=True, check=False, **how)
    if ran.returncode:
        raise Failed(f"{words[0]} fails: {ran.stderr.strip()}")
    return ran.stdout


def is_program(content):
    return content.startswith(b"\x7fELF")


def is_archive(content):
    return content.startswith(b"!<arch>\n")


def loaded(program):
    """The bytes of a program that are loaded into memory."""
    with tempfile.TemporaryDirectory() as room:
        Path(room, "program").write_bytes(program)
        run(["objcopy", "-O", "binary", f"{room}/program", f"{room}/bytes"])
        return Path(room, "bytes").read_bytes()


def stripped(content):
    """A program without its symbol table, or an archive without what is only for debuggers."""
    missing = [it for it in TOOLS if not shutil.which(it)]
    if missing:
        raise Failed(f"{missing[0]} is missing; on Debian it is in the package binutils")
    with tempfile.TemporaryDirectory() as room:
        file = Path(room, "file")
        file.write_bytes(content)
        run(["strip", "--enable-deterministic-archives", "--strip-all" if is_program(content) else "--strip-debug", file])
        return file.read_bytes()


def without_symbols(files):
    """The same files, where programs and the library are stripped. What is loaded of a program stays the same."""
    found = dict(files)
    for place, (content, mode) in files.items():
        if is_program(content) or is_archive(content):
            found[place] = stripped(content), mode
            if is_program(content) and loaded(found[place][0]) != loaded(content):
                raise Failed(f"strip changes what is loaded of {place}")
    return found


def needed_libc(programs):
    """The oldest version of the C library that has all that the programs ask for."""
    found = set()
    with tempfile.TemporaryDirectory() as room:
        for name, content in programs.items():
            Path(room, "program").write_bytes(content)
            told = run(["objdump", "-p", f"{room}/program"])
            others = set(re.findall(r"^\s*NEEDED\s+(\S+)$", told, re.M)) - OF_LIBC
            versions = re.findall(r"^\s*0x\w+ 0x\w+ \d+ (\S+)$", told, re.M)
            unknown = [*others, *(it for it in versions if not re.fullmatch(r"GLIBC_\d+(\.\d+)+", it))]
            if unknown:
                raise Failed(f"{name} needs {unknown[0]}, which isn't known to be of the C library")
            found.update(tuple(int(it) for it in version.removeprefix("GLIBC_").split(".")) for version in versions)
    return ".".join(str(it) for it in max(found, default=(2, 2, 5)))
