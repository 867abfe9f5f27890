#!/usr/bin/env python3
"""Tests the Debian packages. In a new Debian 12 it installs them by dpkg, runs each program, compiles a program in C against the library, asks the module for
Python and the local page, removes the packages, and sees that nothing is left. In a new Debian 11, whose C library is too old, dpkg and apt have to refuse
them. lintian looks at them.

Usage: tests/debian.py [FOLDER]; the packages are those of the folder, or are made of the programs that the gate built, and of the library for C if it is
built. The systems are made by debootstrap, which needs root and a mirror of Debian, and are kept for the next run in a folder of the system's folder for
temporary files. What can't be had is reported in a line that begins with 'skipped: '. The last line is 'N passed, M failed'."""

import gzip
import os
import re
import shutil
import subprocess
import sys
import tempfile
import threading
import urllib.parse
import urllib.request
from concurrent.futures import ThreadPoolExecutor
from importlib.machinery import SourceFileLoader
from importlib.util import module_from_spec, spec_from_loader
from pathlib import Path

TOP = Path(__file__).resolve().parent.parent
MIRRORS = "http://deb.debian.org/debian", "http://archive.debian.org/debian"
# The systems, by their names at Debian, with the packages that they have beside the necessary ones, and the most seconds in which each may be made.
NEW, OLD = ("bookworm", "gcc,libc6-dev,pkgconf,python3"), ("bullseye", "")
SECONDS = 240
# Where the system itself writes when packages are installed and removed.
OF_SYSTEM = "var/lib/dpkg", "var/log", "var/cache", "var/lib/apt"
# An automaton that accepts one word alone; and runs of programs: words, input, output and status.
ALWAYS = 'HOA: v1\nStates: 1\nStart: 0\nAP: 1 "p"\nAcceptance: 1 Inf(0)\n--BODY--\nState: 0 {0}\n[0] 0\n--END--\n'
AS_HOA = ALWAYS.replace("Acceptance", "acc-name: Buchi\nAcceptance").replace("--BODY--", "properties: trans-labels explicit-labels state-acc\n--BODY--")
ANSWERS = [
    (["ltleval", "-f", "[]<>p", "-w", "{p}; cycle {}"], "", "false\n", 1),
    (["ltlcompare", "-f", "[]p", "-g", "p && X[]p"], "", "equivalent\n", 0),
    (["ltlcheck", "-f", "p"], ALWAYS, "contained\n", 0),
    (["ltlclaim"], "never { accept_init: do :: p -> goto accept_init od }", AS_HOA, 0),
    (["ltlcheck", "-f", "!p"], ALWAYS, "violated\ncycle {p}\n", 1),
]
MODULE = [
    ("check(translate('<>p'), '[]<>p')", "violated\n{p}; cycle {}"),
    ("holds('[]<>p', '{p}; cycle {}')", "False"),
    ("G(proposition('Req') >> F('p')).canonical", "[](quoted__52_eq -> <>p)"),
]
CALL = """#include <ltl2ba.h>
#include <stdio.h>
int main(void)
{
    uint8_t text[4096];
    size_t length;
    struct ltl2ba_options options = {.layout = LTL2BA_CLAIM};
    struct ltl2ba_refusal refusal;
    uint8_t status = ltl2ba_text((const uint8_t *)"[]<>p", 5, &options, text, sizeof text, &length, &refusal);
    fwrite(text, 1, length, stdout);
    return status;
}
"""


class Count:
    """Counts what was as expected."""

    def __init__(self):
        self.passed = self.failed = 0

    def expect(self, about, seen, wanted):
        self.passed, self.failed = self.passed + (seen == wanted), self.failed + (seen != wanted)
        if seen != wanted:
            print(f"{about}: {seen}, and not {wanted}")

    def contain(self, about, seen, wanted):
        self.expect(about, wanted if wanted in seen else seen, wanted)


def script(name):
    """A script of the repository, as a module."""
    sys.dont_write_bytecode = True
    loader = SourceFileLoader(name, str(TOP / name))
    module = module_from_spec(spec_from_loader(name, loader))
    loader.exec_module(module)
    return module


def made(to):
    """Packages of the programs that are built here."""
    maker = script("package")
    if not (TOP / "crates/ltl_c/out/libltl2ba.a").exists():
        print("skipped: the Debian package of the library for C, which ./build ltl_c makes")
    files, built = maker.collected((TOP / "crates/ltl_c/out/libltl2ba.a").exists())
    return list(maker.put_packages(files, lambda found: maker.proved("of a test", "unknown", built, found), to, 1_000_000_000))


def kept_systems():
    """The folder of systems that are kept for the next run. It belongs to this user alone."""
    folder = Path(tempfile.gettempdir(), f"ltl2ba-debian-{os.getuid()}")
    folder.mkdir(mode=0o700, exist_ok=True)
    about = folder.lstat()
    return folder if about.st_uid == os.getuid() and not folder.is_symlink() and not about.st_mode & 0o022 else None


def bootstrapped(folder, name, beside):
    """A new system, or None."""
    system, part = folder / name, folder / f"{name}.part"
    for mirror in MIRRORS:
        if system.exists():
            return system
        shutil.rmtree(part, ignore_errors=True)
        # What is mounted in the system while it is made is seen by these processes alone.
        words = ["timeout", "-k", "5", str(SECONDS), "unshare", "--mount", "debootstrap", "--variant=minbase", *([f"--include={beside}"] if beside else [])]
        around = {**os.environ, "PATH": f"{os.environ['PATH']}:/usr/sbin:/sbin", "DPKG_FORCE": "unsafe-io", "LC_ALL": "C"}
        ran = subprocess.run([*words, name, part, mirror], env=around, stdin=subprocess.DEVNULL, capture_output=True, check=False)
        if ran.returncode == 0:
            part.rename(system)
        elif ran.returncode == 124:
            break
    shutil.rmtree(part, ignore_errors=True)
    return system if system.exists() else None


class System:
    """A copy of a system."""

    def __init__(self, kept, room):
        self.top = Path(room, kept.name)
        subprocess.run(["cp", "-a", "--reflink=auto", kept, self.top], check=True)

    def words(self, *words):
        return ["chroot", self.top, *words]

    def run(self, *words, text=""):
        around = {"PATH": "/usr/sbin:/usr/bin:/sbin:/bin", "HOME": "/root", "LC_ALL": "C", "DEBIAN_FRONTEND": "noninteractive"}
        ran = subprocess.run(self.words(*words), env=around, input=text, capture_output=True, text=True, timeout=120, check=False)
        return ran.stdout, ran.stderr, ran.returncode

    def take(self, packages):
        """Puts the packages into the system's /root, and returns their names there."""
        return [f"/root/{Path(shutil.copy(it, self.top / 'root')).name}" for it in packages]

    def places(self):
        """All that is there, but for where the system itself writes."""
        found = set()
        for folder, folders, files in os.walk(self.top):
            below = os.path.relpath(folder, self.top)
            folders[:] = [it for it in folders if os.path.normpath(f"{below}/{it}") not in OF_SYSTEM]
            found.update(os.path.normpath(f"{below}/{it}") for it in (*folders, *files))
        return found


def try_programs(count, system):
    for words, text, shown, status in ANSWERS:
        count.expect(" ".join(words), system.run(*words, text=text), (shown, "", status))
    claim = system.run("ltl2ba", "-f", "[]<>p")
    here = subprocess.run([TOP / "crates/ltl2ba/out/ltl2ba", "-f", "[]<>p"], capture_output=True, text=True, check=False)
    count.expect("ltl2ba", claim, (here.stdout, here.stderr, 0))
    hoa = system.run("ltl2ba", "-H", "-f", "[]<>p")[0]
    drawn = system.run("ltldraw", text=hoa)
    count.expect("ltldraw", (drawn[0].startswith("digraph"), *drawn[1:]), (True, "", 0))
    shown = system.run("ltl2ba-tutorial", "check")
    count.expect("the tutorial", (shown[0].count("\n== "), shown[1:]), (5, ("", 0)))
    lacking = "ltlspin: spin is missing: the model checker Spin; on Debian it is the package spin\n"
    count.expect("ltlspin without Spin", system.run("ltlspin", "none.pml", "p"), ("", lacking, 3))
    return claim[0]


def try_page(count, system):
    """Asks the page of the system for a formula's automaton."""
    with subprocess.Popen(system.words("ltl2ba-page"), stdout=subprocess.PIPE, stderr=subprocess.PIPE, text=True) as page:
        timer = threading.Timer(30, page.kill)
        timer.start()
        address = page.stdout.readline().strip()
        count.contain("the page's address", address, "http://127.0.0.1:")
        if address:
            with urllib.request.urlopen(f"{address}?f={urllib.parse.quote('[]<>p')}", timeout=20) as answer:
                shown = answer.read().decode()
            count.expect("the page", (answer.status, "never {" in shown, "Inf(0)" in shown), (200, True, True))
            with urllib.request.urlopen(f"{address}style.css", timeout=20) as answer:
                count.expect("the page's style", (answer.status, answer.headers.get_content_type()), (200, "text/css"))
        timer.cancel()
        page.terminate()


def try_library(count, system, claim):
    (system.top / "root/call.c").write_text(CALL, encoding="ascii")
    compiled = system.run("sh", "-c", "gcc -std=c99 -Wall -Wextra -Werror -o /root/call /root/call.c $(pkg-config --cflags --libs ltl2ba)")
    count.expect("compiled", compiled, ("", "", 0))
    count.expect("the library's answer", system.run("/root/call"), (claim, "", 0))
    example = "gcc -std=c99 -Wall -Wextra -Werror -o /root/dot /usr/share/doc/libltl2ba-dev/examples/dot.c $(pkg-config --cflags --libs ltl2ba) && /root/dot"
    shown = system.run("sh", "-c", example)
    count.expect("the example", (shown[0].startswith("digraph"), *shown[1:]), (True, "", 0))


def try_module(count, system, claim):
    """The module for Python, and a program in C over the shared library."""
    for code, shown in MODULE:
        count.expect(code, system.run("python3", "-X", "dev", "-W", "error", "-c", f"from ltl2ba import *\nprint({code})"), (f"{shown}\n", "", 0))
    count.expect("its claim", system.run("python3", "-c", "from ltl2ba import *\nprint(translate('[]<>p').to_claim(), end='')"), (claim, "", 0))
    linked = system.run("sh", "-c", "ldd /root/call | grep -c libltl2ba.so.1")
    count.expect("the shared library is linked", linked, ("1\n", "", 0))


def try_sums(count, system, name, doc):
    """The sums of PROVED.txt, by the command that it names."""
    check = re.search(r"run in the folder of bin and lib: (.*)$", (doc / "PROVED.txt").read_text(encoding="utf-8"), re.M)[1]
    checked = system.run("sh", "-c", f"cd /usr && {check.replace('FILE', f'/usr/share/doc/{name}/PROVED.txt')}")
    count.expect(f"sums of {name}", (set(re.findall(r": (.*)$", checked[0], re.M)), checked[1:]), ({"OK"}, ("", 0)))


def try_files(count, system, names):
    """Looks at the packages' files: sums, manual pages, links of pages."""
    for name in names:
        count.expect(f"{name} is whole", system.run("dpkg", "--verify", name), ("", "", 0))
        doc = system.top / "usr/share/doc" / name
        wanted = ["copyright", "changelog.gz", *(["PROVED.txt"] if name != "python3-ltl2ba" else [])]
        count.expect(f"documents of {name}", [it for it in wanted if not (doc / it).exists()], [])
        if "PROVED.txt" in wanted:
            try_sums(count, system, name, doc)
        listed = [it.lstrip("/") for it in system.run("dpkg", "-L", name)[0].split()]
        for it in (it for it in listed if it.startswith("usr/share/man/") and it.endswith(".gz")):
            packed = (system.top / it).read_bytes()
            shown = gzip.decompress(packed).decode()
            # No name and no time, and packed as well as can be.
            count.expect(f"{it} is packed by gzip -9n", (packed[3:8], packed[8]), (bytes(5), 2))
            alias = re.fullmatch(r"\.so (\S+)\n", shown)
            count.expect(f"{it} is a page", (system.top / f"usr/share/man/{alias[1]}.gz").exists() if alias else "\n.TH " in f"\n{shown}", True)
        for it in (it for it in listed if it.endswith(".md")):
            text = re.sub(r"^```.*?^```$|^    [^\n]*$|`[^`]*`", "", (system.top / it).read_text(encoding="utf-8"), flags=re.M | re.S)
            links = re.findall(r"\]\(([^)#:\s]+)(?:#[^)]*)?\)", text)
            count.expect(f"links of {it}", [link for link in links if not (system.top / it).parent.joinpath(link).exists()], [])


def try_new(count, kept, packages, room):
    system = System(kept, room)
    before, names = system.places(), [it.name.partition("_")[0] for it in packages]
    there = system.take(packages)
    shown = system.run("dpkg", "-i", *there)
    count.expect("dpkg -i", shown[1:], ("", 0))
    claim = try_programs(count, system)
    try_page(count, system)
    if "libltl2ba-dev" in names:
        try_library(count, system, claim)
    if "python3-ltl2ba" in names:
        try_module(count, system, claim)
    try_files(count, system, names)
    count.expect("dpkg -P", system.run("dpkg", "-P", *names)[1:], ("", 0))
    for it in (*there, "/root/call.c", "/root/call", "/root/dot"):
        (system.top / it.lstrip("/")).unlink(missing_ok=True)
    count.expect("what is left", sorted(system.places() ^ before), [])


def try_old(count, kept, packages, room):
    system = System(kept, room)
    package = next(it for it in system.take(packages) if "ltl2ba-proved" in it)
    shown = system.run("apt-get", "install", "-y", "--no-install-recommends", package)
    count.expect("apt-get refuses", (shown[2] != 0, (system.top / "usr/bin/ltl2ba").exists()), (True, False))
    count.contain("why", shown[0] + shown[1], "Depends: libc6 (>= 2.")
    shown = system.run("dpkg", "-i", package)
    count.contain("dpkg refuses", shown[1], "ltl2ba-proved depends on libc6 (>= 2.")
    count.expect("its status", (shown[2], system.run("dpkg-query", "-W", "-f", "${Status}", "ltl2ba-proved")[0]), (1, "install ok unpacked"))


def try_lintian(count, packages):
    if not shutil.which("lintian"):
        print("skipped: what lintian says of the Debian packages, for want of lintian")
        return
    for it in packages:
        ran = subprocess.run(["lintian", "--allow-root", it], capture_output=True, text=True, check=False)
        count.expect(f"lintian of {it.name}", re.findall(r"^[EW]: .*$", ran.stdout, re.M), [])


def try_systems(count, packages, room):
    missing = [it for it in ("debootstrap", "unshare", "chroot") if not shutil.which(it, path=f"{os.environ['PATH']}:/usr/sbin")]
    if missing or os.getuid() != 0:
        print(f"skipped: the Debian packages in new systems, for want of {missing[0] if missing else 'root'}")
        return
    folder = kept_systems()
    if not folder:
        print("skipped: the Debian packages in new systems, since the folder for them belongs to others")
        return
    with ThreadPoolExecutor() as pool:
        systems = list(pool.map(lambda it: bootstrapped(folder, *it), (NEW, OLD)))
    for (name, _), kept, trial in zip((NEW, OLD), systems, (try_new, try_old)):
        if kept:
            trial(count, kept, packages, room)
        else:
            print(f"skipped: the Debian packages in {name}, which debootstrap didn't make in {SECONDS} seconds")


def main(words):
    if words[:1] in (["-h"], ["--help"]):
        print(__doc__)
        return 0
    count, missing = Count(), [it for it in ("dpkg-deb", "strip", "objcopy", "objdump") if not shutil.which(it)]
    if missing and not words:
        print(f"skipped: the Debian packages, for want of {missing[0]}")
    else:
        with tempfile.TemporaryDirectory() as room:
            packages = sorted(Path(words[0]).resolve().glob("*.deb"), reverse=True) if words else made(Path(room))
            try_lintian(count, packages)
            try_systems(count, packages, room)
    print(f"{count.passed} passed, {count.failed} failed")
    return 1 if count.failed else 0


if __name__ == "__main__":
    sys.exit(main(sys.argv[1:]))
