#!/usr/bin/env python3
"""Tests ./run, ./build, ./install, ./package, tools/edits, tools/dead_code and tools/wrong_bodies on a copy of the tree that has no code but the heads of its
programs, with a stand-in for the prover: it records what it was asked, and proves nothing. Tests tools/believe on a small tree made up for it. The last line
is 'N passed, M failed'."""

import base64
import hashlib
import os
import re
import shutil
import subprocess
import sys
import tarfile
import tempfile
import zipfile
from pathlib import Path

TOP = Path(__file__).resolve().parent.parent
PROGRAMS = "ltl2ba", "ltlcheck", "ltlclaim", "ltlcompare", "ltleval", "ltldraw", "ltlreduce"
# What the copy has of the tree beside its code.
COPIED = (
    *("test", "page", "ltlspin", "tutorial", ".gitignore", "COPYRIGHT", "LICENSE-APACHE", "LICENSE-MIT", "docs/*.md", "docs/*.svg", "docs/tutorial/*"),
    *("docs/pictures/*", "examples/c/*", "promela/*", "tests/*.py", "tools/*", "web/*", "python/*", "python/ltl2ba/*"),
)
# The scripts that take words, and their statuses for -h.
SCRIPTS = {
    **{f"./{it}": 0 for it in ("run", "build", "test", "install", "package", "tutorial", "ltlspin")},
    **{f"tools/{it}": 0 for it in ("believe", "dead_theory", "edits_stand", "examples", "fail_each", "pages")},
    **{f"tools/{it}": 2 for it in ("edits", "wrong_bodies")},
    **{f"tests/{it}.py": 0 for it in ("c_library", "debian", "ltlspin", "page", "pictures", "python_module", "run")},
}

RT = r"""#!/usr/bin/env bash
[ "$1" != version ] || { echo "a kit"; exit; }
[ "$1" != doc ] || { echo "$KIT/START-HERE.md"; exit 0; }
name=$(basename "$PWD")
echo "begin $1 $name" >>"$CALLS"
for it in ../*; do
    [ "$it" = "../$name" ] || [ -f "$it/out/rlib/stamp" ] || echo "lacks $name $it" >>"$CALLS"
done
case $1 in
lib)
    echo "checked $name::some::function, 1 of 2"
    echo "room $name $(ls .. | tr '\n' ' ')" >>"$CALLS"
    mkdir -p out/rlib && echo kept >>out/rlib/stamp
    [ "$name" != ltl_c ] || echo "a library" >out/libltl_c.a
    [ "$name" != "${FAILS:-}" ] || { echo "src/lib.rt:1:1: error[open-goal]: not proved"; exit 1; }
    ;;
run)
    echo "asked $name: $*" >>"$CALLS"
    mkdir -p out && if [ -n "${MADE_PROGRAM:-}" ]; then cp "$MADE_PROGRAM" "out/$name"; else printf '#!/bin/sh\necho built\n' >"out/$name"; fi && chmod +x "out/$name"
    exit 2
    ;;
ci)
    echo "kept: $RT_JOBS, $(grep '^ltl2ba' crates.txt), $(find . -path '*must-fail*' | wc -l) wrong bodies, ${CI:-no CI}" >>"$CALLS"
    [ -z "${KEEPS_NOT:-}" ] || { echo "0 passed, 1 failed"; exit 1; }
    for it in crates/*/src/main.rt; do
        name=$(basename "${it%/src/main.rt}")
        mkdir -p "crates/$name/out" && printf '#!/bin/sh\necho kept\n' >"crates/$name/out/$name" && chmod +x "crates/$name/out/$name"
    done
    ;;
try)
    shift
    while [ $# != 0 ] && [ "$1" != -- ]; do
        if [ "$1" = --data ]; then echo "file ${2%%=*}: $(cat "${2#*=}")"; shift; fi
        shift
    done
    shift
    echo "words:$(printf ' <%s>' "$@")"
    echo "input: $(cat)"
    echo "$name: a message" >&2
    [ -n "${STOPS:-}" ] || echo "run=ended status=3" >&2
    exit 3
    ;;
esac
echo "end $1 $name" >>"$CALLS"
"""

# Stand-ins for the tools that make one archive of the library for C: what they are asked to do is in what they make.
AR = r"""#!/usr/bin/env bash
[ -z "${MADE_ARCHIVE:-}" ] || exec cp "$MADE_ARCHIVE" "$2"
echo "$1" >"$2"
cat "${@:3}" >>"$2"
"""

LD = r"""#!/usr/bin/env bash
echo "$1 $4" >"$3"
cat "$5" "$7" >>"$3"
"""

OBJCOPY = r"""#!/usr/bin/env bash
printf '%s\n' "${@:1:$#-1}" >>"${@:$#}"
"""

CC = r"""#!/usr/bin/env bash
[ -z "${MADE_ARCHIVE:-}" ] || exec /usr/bin/cc "$@"
for it in "$@"; do
    case $it in -Wl,--version-script=*) cat "${it#*script=}" ;; *.a) cat "$it" ;; esac
done >"$3"
"""

# Both libraries in one object, in which only the calls of the header are global.
CALLS = "ltl2ba_text", "ltl2ba_names", "ltl2ba_automaton", "ltleval_holds", "ltlcheck_verdict", "ltlcompare_verdict", "ltldraw_dot", "ltlreduce_hoa", "ltlclaim_hoa", "ltlclaim_message", "ltl2ba_message"
ARCHIVE = "".join(f"{it}\n" for it in ("qcs", "-r --whole-archive", "a library", "the allocator", *(f"--keep-global-symbol={it}" for it in CALLS)))

# The shared library, in which these calls alone are seen.
SHARED = "".join(f"{it}\n" for it in ("{ global:", *(f"{it};" for it in CALLS), "local: *; };")) + ARCHIVE

# What ./install puts in place of the library and of the module for Python, and how it describes the library.
SHARED_FILES = "lib/libltl2ba.so.1", "lib/libltl2ba.so"
MODULE = [f"share/ltl2ba/python/ltl2ba/{it.name}" for it in TOP.glob("python/ltl2ba/*") if it.suffix in (".py", ".typed")]
LIBRARY = "include/ltl2ba.h", "lib/libltl2ba.a", "lib/pkgconfig/ltl2ba.pc", "share/man/man3/ltl2ba.3"
DESCRIPTION = "prefix=/{}\nlibdir=${{prefix}}/lib\nincludedir=${{prefix}}/include\nlibrary=-l:libltl2ba.a\n\nName: ltl2ba\n"

NOTICE = "run: {} is not built from these sources; this run is not proved (./build proves and builds), and takes about a minute\n"

# What ./install puts in place beside the library: a manual page for the name of each call, and the programs with what they need.
ALIASES = [f"share/man/man3/{it}.3" for it in re.findall(r"^[a-z]\w* (\w+)\(", (TOP / "include/ltl2ba.h").read_text(encoding="utf-8"), re.M)]
OTHERS = [
    *(f"{folder}{it}{end}" for folder, end in (("bin/", ""), ("share/man/man1/", ".1")) for it in (*PROGRAMS, "ltlspin", "ltl2ba-page", "ltl2ba-tutorial")),
    *(f"share/ltl2ba/{folder}/{it.name}" for folder in ("web", "promela") for it in TOP.glob(f"{folder}/*") if it.is_file()),
    *(f"share/ltl2ba/models/{it.name}" for it in TOP.glob("docs/tutorial/*") if it.suffix in (".pml", ".hoa")),
]


# A check of the gate's wrong bodies: `f` isn't proved with its edit, `g` is, and `h` stops with no verdict.
RATTLE = r"""#!/usr/bin/env bash
echo "check $3 ${*: -2}" >>"$CALLS"
if grep -q wrong src/lib.rt; then echo "note: src/lib.rt:12:5: it is not proved that it holds"; echo "only=1 proved=0"; exit 1; fi
if grep -q right src/lib.rt; then echo "only=1 proved=1"; exit 0; fi
echo "only=1 proved=0"
exit 3
"""

# A crate with three functions, each with a definition.
FUNCTIONS = """ghost use Rattle.least.specs.Sizes.{small, large};

// a comment
fn g(a: u8) -> u8
    ensures { result ≡ small a }
{
    a
}

fn f(a: u8) -> u8
    ensures { result ≡ large a }
{
    g(a)
}

fn h(a: u8) -> u8
{
    a + 1
}
"""
SIZES = "abbrev pub small : ℕ → ℕ\nsmall n = n\n\nabbrev pub large : ℕ → ℕ\nlarge n = n\n\nabbrev pub other : ℕ → ℕ\nother n = n\n"
NUMBER = "import sys; sys.path.insert(0, 'tools'); import rests; print(rests.Ground().numbers('', [('least', 'f')]))"

# A crate of which some is needed by its one public call, `named`, some by tests, and the rest by nothing.
SETS = """use crate::lonely;

pub fn named() -> u8
    ensures { LEAST }
{
    inner(MOST)
}

fn inner(a: u8) -> u8 {
    a
}

const MOST: u8 = b'{';

const LEAST: u8 = 0;

// named and inner are called here: lonely()
fn lonely() -> u8 {
    LEAST + own_test_alone()
}

pub fn for_tests() -> u8 {
    0
}

fn own_test_alone() -> u8 {
    0
}

#[test]
fn test() {
    own_test_alone();
}

pub struct Held {
    a: u8,
}

impl Held {
    pub fn looked(&self) -> u8 {
        self.a
    }
}
"""
UNNEEDED = (15, "LEAST"), (18, "lonely"), (26, "own_test_alone"), (35, "Held"), (40, "Held::looked")

# Two crates for tools/believe. Nothing that the call names rests on the definitions `odd` and `idle`, the statement, and the law.
SMALL = {
    "crates/low/specs/Numbers.antt": """-- Numbers.
use Rattle.std.specs.Prelude.{◌≡◌, ◌+◌, ℕ, List, length}

-- ---- on the way

-- the number and one
abbrev pub next : ℕ → ℕ
next n = n + 1

abbrev pub odd : ℕ → ℕ
odd n = next (next n)

-- a pair of things
pub record Both (A : Type 0) : Type 0 where
  pub size : A
  -- behind it
  pub next : A

module _ (most : ℕ) where
  -- so many
  abbrev pub IsFull : List ℕ → Type 0
  IsFull size = length size ≡ next most

  abbrev pub idle : ℕ
  idle = odd most
""",
    "crates/low/specs/View.antt": """use Rattle.low.specs.Numbers as numbers
use Rattle.low.specs.declared.kind.Kind.{Kind}

-- of these, what is seen

abbrev pub seen : numbers.Both Kind → numbers.Both Kind
seen b = record { size = b.size; next = b.next }
""",
    "crates/low/specs/Meaning.antt": """-- What an answer means.
use Rattle.std.specs.Prelude.{◌≡◌, ℕ}
use Rattle.low.specs.Numbers.{odd}

-- the answer is odd
abbrev pub TellsTruth : ℕ → Type 0
TellsTruth n = n ≡ odd n
""",
    "crates/low/proofs/Laws.antt": """use Rattle.std.specs.Prelude.{ℕ}
use Rattle.low.specs.Numbers.{next}

pub law : ℕ
law = next 1
""",
    "crates/low/src/lib.rt": "pub use kind::Kind;\npub use shelf::{Shelf, Size};\n",
    "crates/low/src/kind.rt": "/// A kind.\npub enum Kind {\n    Empty,\n}\n",
    "crates/low/src/shelf.rt": """use crate::kind::Kind;
use std::marker::Model;

/// Things.
pub struct Shelf {
    kinds: Kind,
}

impl Model for Shelf {
    ghost use Rattle.low.specs.Numbers.{Both};
    ghost use Rattle.low.specs.View.{seen};
    ghost use Rattle.low.specs.declared.kind.Kind as made;

    ghost Value = { Both made.Kind };

    ghost coded = { odd };

    ghost view = { λ s. seen s.kinds };
}

/// What has a size.
pub trait Size {
    ghost use Rattle.std.specs.Prelude.{ℕ};

    ghost size: { Self → ℕ };

    fn size(&self) -> usize
        ensures { result ≡ size self.now };
}
""",
    "crates/high/src/lib.rt": """ghost use Rattle.std.specs.Prelude.{List, ◌<◌};
ghost use Rattle.low.specs.Numbers as numbers;

use low::{Shelf, Size};

/// Fills it.
pub fn fill<T: Size>(shelf: &mut Shelf, most: usize, size: &T) -> usize
    requires { T.size size.now < most }
    ensures full { (next : List ℕ) → numbers.IsFull most next }
    ensures { shelf.new ≡ "odd" }
{
    1
}

pub fn size(shelf: &Shelf) -> usize
    ensures { result < 1 }
{
    0
}
""",
    "docs/LIBRARY.md": """# Calls

## Crate by crate

### high, with low below it

| call | promises |
|---|---|
| `fill(shelf, most)` | all |
| `Size`: `size` | `odd` |
""",
    "README.md": "`ltl_cli::run` rests on 1 definitions, 2 lines in 3 files, `TellsTruth` on 8\nlines, `odd` on 6 lines\n",
    "docs/PROVED.md": "`high::fill` rests on 6 definitions, 26 lines in 3 files, and on `odd`\n| `TellsTruth` rests on 3 definitions, 8 lines in 2 files |\n",
}

STATED = """
==== crates/low/specs/Numbers.antt: Numbers.

-- the number and one
abbrev pub next : ℕ → ℕ
next n = n + 1

abbrev pub odd : ℕ → ℕ
odd n = next (next n)

==== crates/low/specs/Meaning.antt: What an answer means.

-- the answer is odd
abbrev pub TellsTruth : ℕ → Type 0
TellsTruth n = n ≡ odd n

==== declared in the code


==== names of the kit

std.specs.Prelude: ℕ, ◌+◌, ◌≡◌

TellsTruth rests on 3 definitions, 8 lines in 2 files, and on 0 names of the code and 3 of the kit
"""

BELIEVED = """
==== crates/low/specs/Numbers.antt: Numbers.

-- the number and one
abbrev pub next : ℕ → ℕ
next n = n + 1

-- a pair of things
pub record Both (A : Type 0) : Type 0 where
  pub size : A
  -- behind it
  pub next : A

module _ (most : ℕ) where
  -- so many
  abbrev pub IsFull : List ℕ → Type 0
  IsFull size = length size ≡ next most

==== crates/low/specs/View.antt

-- of these, what is seen
abbrev pub seen : numbers.Both Kind → numbers.Both Kind
seen b = record { size = b.size; next = b.next }

==== crates/low/src/shelf.rt

impl Model for Shelf {
    ghost Value = { Both made.Kind };
    ghost view = { λ s. seen s.kinds };
}

pub trait Size {
    ghost use Rattle.std.specs.Prelude.{ℕ};
    ghost size: { Self → ℕ };
    fn size(&self) -> usize
        ensures { result ≡ size self.now };
}

==== crates/high/src/lib.rt: the contract

/// Fills it.
pub fn fill<T: Size>(shelf: &mut Shelf, most: usize, size: &T) -> usize
    requires { T.size size.now < most }
    ensures full { (next : List ℕ) → numbers.IsFull most next }
    ensures { shelf.new ≡ "odd" }

==== declared in the code

crates/low/src/kind.rt: Kind

==== names of the kit

std.specs.Prelude: List, length, ℕ, ◌+◌, ◌<◌, ◌≡◌

high::fill rests on 6 definitions, 25 lines in 3 files, and on 1 names of the code and 6 of the kit
"""


class Tree:
    """The copy, and what its scripts show."""

    def __init__(self, folder):
        self.top = Path(folder) / "a tree"
        self.calls = Path(folder) / "calls"
        self.bin = Path(folder) / "bin"
        self.bin.mkdir()
        (self.bin / "rt").write_text(RT, encoding="ascii")
        (self.bin / "rt").chmod(0o755)
        self.kit = Path(folder) / "kit"
        for tool, text in (self.kit / "toolchain/bin/llvm-ar", AR), (self.kit / "toolchain/bin/ld.lld", LD), (self.bin / "objcopy", OBJCOPY), (self.bin / "cc", CC):
            self.put(tool, text)
            tool.chmod(0o755)
        self.put(self.kit / "c/liblibc_c.a", "the allocator\n")
        self.python = Path(folder) / "python"
        self.python.mkdir()
        (self.python / "python3").symlink_to(sys.executable)
        for head in TOP.glob("crates/*/src/*.rt"):
            if head.name in ("main.rt", "lib.rt"):
                self.put(head.relative_to(TOP), "")
        for place in ("run", "build", "install", "package", "crates.txt", "HANDLES", "README.md", "docs/CHANGES.md", "tools/wrong_bodies", "tools/edits", "tools/edits_gate.py",
                      "tools/edit_checks.py", "tools/edit_files.py", "tools/rests.py", "tools/theory.py", "tools/contracts.py", "tools/dead_code", "tools/c_archive",
                      "include/ltl2ba.h"):
            (self.top / place).parent.mkdir(parents=True, exist_ok=True)
            shutil.copy(TOP / place, self.top / place)
        shutil.copytree(TOP / "docs/man", self.top / "docs/man")
        self.put("formula", "p U q")
        self.passed = self.failed = 0
        for file in (it for pattern in COPIED for it in TOP.glob(pattern) if it.is_file()):
            (self.top / file.relative_to(TOP)).parent.mkdir(parents=True, exist_ok=True)
            shutil.copy(file, self.top / file.relative_to(TOP))

    def put(self, place, text):
        (self.top / place).parent.mkdir(parents=True, exist_ok=True)
        (self.top / place).write_text(text, encoding="utf-8")

    def put_program(self, name, processors="portable"):
        self.put(f"crates/{name}/out/built.txt", f"kit a kit\nprocessors {processors}\n")
        self.put(f"crates/{name}/out/{name}", '#!/bin/sh\necho "$#: $*"\ncat\necho told >&2\nexit 1\n')
        (self.top / f"crates/{name}/out/{name}").chmod(0o755)

    def run(self, *words, text="", has_rt=True, **variables):
        path = f"{self.bin}:{self.python}:/usr/bin:/bin" if has_rt else f"{self.python}:/usr/bin:/bin"
        around = {**os.environ, "PATH": path, "CALLS": str(self.calls), "KIT": str(self.kit), **variables}
        self.calls.write_text("", encoding="ascii")
        ran = subprocess.run(words, cwd=self.top, env=around, input=text, capture_output=True, text=True, timeout=120, check=False)
        return ran.stdout, ran.stderr, ran.returncode

    def expect(self, about, seen, wanted):
        self.passed, self.failed = self.passed + (seen == wanted), self.failed + (seen != wanted)
        if seen != wanted:
            print(f"{about}: {seen}, and not {wanted}")


def try_run(tree):
    usage = tree.run("./run", "nothing")
    tree.expect("no such program", (usage[0], usage[2], "ltl2ba ltlcheck ltlclaim ltlcompare ltldraw ltleval ltlreduce" in usage[1]), ("", 2, True))

    def tried(tool, words, input_text="", handed=""):
        return f"{handed}words:{''.join(f' <{it}>' for it in words)}\ninput: {input_text}\n", NOTICE.format(tool) + f"{tool}: a message\n", 3

    tree.expect("not built", tree.run("./run", "ltl2ba", "-f", "[]<>p"), tried("ltl2ba", ["-f", "[]<>p"]))
    for words, shown in (["-F", "formula"], ["-F", "file0"]), (["-Fformula"], ["-Ffile0"]), (["-lF=formula", "-o"], ["-lFfile0", "-o"]), (["-loF", "formula"], ["-loF", "file0"]):
        tree.expect(f"a file: {words}", tree.run("./run", "ltl2ba", *words), tried("ltl2ba", shown, "", "file file0: p U q\n"))
    for words, shown in (["-F", "formula", "-g", "p"], ["-F", "file0", "-g", "p"]), (["-gF", "-Gformula"], ["-gF", "-Gfile0"]), (["-f", "G", "-G", "formula"], ["-f", "G", "-G", "file0"]):
        tree.expect(f"a file of one of two formulas: {words}", tree.run("./run", "ltlcompare", *words), tried("ltlcompare", shown, "", "file file0: p U q\n"))
    tree.expect("a file that isn't there", tree.run("./run", "ltl2ba", "-F", "main.rt"), tried("ltl2ba", ["-F", "no/file"]))
    tree.expect("a formula that looks so", tree.run("./run", "ltl2ba", "-fF", "formula"), tried("ltl2ba", ["-fF", "formula"]))
    tree.expect("the input as a file", tree.run("./run", "ltl2ba", "-F", "/dev/stdin", text="p"), tried("ltl2ba", ["-F", "file0"], "", "file file0: p\n"))
    tree.expect("the automaton", tree.run("./run", "ltlcheck", "-f", "p", text="HOA: v1"), tried("ltlcheck", ["-f", "p"], "HOA: v1"))
    tree.expect("the automaton's file", tree.run("./run", "ltlcheck", "-A", "formula", "-f", "p", text="x"), tried("ltlcheck", ["-A", "file0", "-f", "p"], "", "file file0: p U q\n"))
    tree.expect("no automaton", tree.run("./run", "ltlcheck", text="x"), tried("ltlcheck", [""]))
    tree.expect("what is drawn", tree.run("./run", "ltldraw", text="HOA: v1"), tried("ltldraw", [""], "HOA: v1"))
    stopped = tree.run("./run", "ltl2ba", "-f", "p", STOPS="yes")
    tree.expect("the sources stop", (stopped[0], stopped[1].split("\n")[-2], stopped[2]), ("", "run: the sources of ltl2ba did not run to their end", 70))
    tree.expect("no kit", tree.run("./run", "ltleval", has_rt=False), ("", "run: ltleval is not built from these sources, and the Rattle kit, whose command rt runs or builds them, is missing\n", 70))

    def put_younger_program():
        for place in tree.top.rglob("*"):
            os.utime(place, (1_000_000_000, 1_000_000_000))
        tree.put_program("ltl2ba")
        os.utime(tree.top / "crates/ltl2ba/out/ltl2ba", (1_500_000_000, 1_500_000_000))

    built = "2: -F formula\ninput", "told\n", 1
    put_younger_program()
    tree.expect("built", tree.run("./run", "ltl2ba", "-F", "formula", text="input", has_rt=False), built)
    for about, place in ("a source is newer", "crates/ltl_sets/src/lib.rt"), ("a definition is newer", "crates/ltl_spec/specs/A/B.antt"), ("the graph is newer", "crates.txt"):
        put_younger_program()
        tree.put(place, (tree.top / place).read_text(encoding="ascii") if (tree.top / place).exists() else "")
        tree.expect(about, tree.run("./run", "ltl2ba")[1], tried("ltl2ba", [""])[1])
    put_younger_program()
    tree.put("crates/ltl_tests/src/lib.rt", "")
    tree.expect("a source of another crate is newer", tree.run("./run", "ltl2ba", "-F", "formula", text="input", has_rt=False), built)
    put_younger_program()
    (tree.top / "crates/ltl_spec/specs/A/B.antt").unlink()
    tree.expect("a source is gone", tree.run("./run", "ltl2ba")[1], tried("ltl2ba", [""])[1])
    shutil.rmtree(tree.top / "crates/ltl2ba/out")


def below(tree):
    lines = (it.partition(":") for it in (tree.top / "crates.txt").read_text(encoding="ascii").split("\n") if not it.startswith("#"))
    stands = {name.split()[0]: rest.split() for name, _, rest in lines if name}
    return {name: [it for it in rest if it in stands] for name, rest in stands.items()}


def try_build(tree):
    tree.expect("no such program", tree.run("./build", "ltl_spec"), ("", "build: ltl_spec is no program of this repository\n", 2))
    tree.expect("no kit", tree.run("./build", has_rt=False)[1:], ("build: the Rattle kit, whose command rt proves and builds, is missing\n", 70))
    shown, told, status = tree.run("./build")
    tree.expect("the last line", (shown.split("\n")[-2].split(" in ")[0], told, status), ("built ltl2ba, ltlcheck, ltlclaim, ltlcompare, ltleval, ltldraw, ltlreduce, ltl_c", "", 0))
    stands, seen, calls = below(tree), set(), tree.calls.read_text(encoding="ascii").split("\n")[:-1]
    for kind, verb, name in (it.split()[:3] for it in calls):
        if kind == "begin":
            tree.expect(f"{name} after what it stands on", [it for it in stands[name] if f"end lib {it}" not in calls[: calls.index(f"begin {verb} {name}")]], [])
            seen.add((verb, name))
    wanted, left = set(), [*PROGRAMS, "ltl_c"]
    while left:
        name = left.pop()
        wanted.add(("run" if name in PROGRAMS else "lib", name))
        left += stands[name]
    tree.expect("what a room lacks", [it for it in calls if it.startswith("lacks ")], [])
    tree.expect("what a room has", [it for it in calls if it.startswith("room ltl_sets ")], ["room ltl_sets ltl_sets ltl_spec "])
    tree.expect("what is kept", (tree.top / "crates/ltl_sets/out/rlib/stamp").read_text(encoding="ascii"), "kept\n")
    tree.expect("what is proved", seen, wanted)
    tree.expect("lines on crates", sorted(it.split()[-3] for it in shown.split("\n") if it.endswith((" is proved", " is built"))), sorted(name for _, name in wanted))
    tree.expect("asked of a program", {it for it in calls if it.startswith("asked ltl2ba: ")} <= {"asked ltl2ba: run --", "asked ltl2ba: run --cpu x86-64-v3 --"}, True)
    tree.expect("the archive", (tree.top / "crates/ltl_c/out/libltl2ba.a").read_text(encoding="ascii"), ARCHIVE)
    shared = tree.top / "crates/ltl_c/out/libltl2ba.so.1"
    tree.expect("the shared library", shared.read_text(encoding="ascii"), SHARED)
    tree.expect("built is run", tree.run("./run", "ltleval", has_rt=False), ("built\n", "", 0))
    archive = tree.top / "crates/ltl_c/out/libltl2ba.a"
    noted = dict(it.split(" ", 1) for it in (archive.parent / "built.txt").read_text(encoding="ascii").splitlines())
    tree.expect("the archive's note", (noted["kit"], noted["processors"], noted["program"]), ("a kit", "portable", hashlib.sha256(archive.read_bytes()).hexdigest()))
    tree.expect("its note on the shared library", noted["shared"], hashlib.sha256(shared.read_bytes()).hexdigest())
    tree.expect("no compiler", (tree.run("./build", "ltl_c", CC="no-compiler")[1:], shared.exists(), archive.exists()), (("", 0), False, True))
    tree.run("./build", "ltl_c")
    shown, told, status = tree.run("./build", FAILS="ltl_alt")
    tree.expect("a proof fails", (shown.split("\n")[-3:-1], status), (["src/lib.rt:1:1: error[open-goal]: not proved", "build: ltl_alt is not proved; rt check in crates/ltl_alt tells more"], 1))
    tree.expect("what is kept again", (tree.top / "crates/ltl_sets/out/rlib/stamp").read_text(encoding="ascii"), "kept\n" * 4)
    tree.expect("nothing above it", "ltl_buchi" in tree.calls.read_text(encoding="ascii"), False)
    tree.run("./build", "--portable", "ltleval")
    tree.expect("asked of a portable one", "asked ltleval: run --\n" in tree.calls.read_text(encoding="ascii"), True)


def try_kept(tree):
    """What ./test passed on is not proved again; everything else is."""

    def built(**variables):
        shown, told, status = tree.run("./build", "ltl2ba", CI="true", **variables)
        calls = tree.calls.read_text(encoding="ascii")
        return shown.split("\n")[-2].partition(" in ")[0], told, status, "begin lib " in calls, [it for it in calls.split("\n") if it.startswith("kept: ")]

    stood, asked = ("built ltl2ba", "", 0), tree.run("./build", "--sums")[0]
    tree.expect("sums", ([it.split()[0] for it in asked.split("\n")[:-1]], len(set(asked.split()))), (sorted(below(tree)), 2 * len(below(tree))))
    tree.put("crates/ltl_sets/must-fail/wrong.edit", "file: src/lib.rt\n")
    tree.put("out/passed", asked)
    kept = built()
    tree.expect("kept", (kept[:4], len(kept[4]), kept[4][0].endswith(", 0 wrong bodies, no CI")), ((*stood, False), 1, True))
    tree.expect("its processors", kept[4][0].split(", ")[1].partition(":")[0] in ("ltl2ba", "ltl2ba cpu=x86-64-v3"), True)
    tree.expect("kept is run", tree.run("./run", "ltl2ba", has_rt=False), ("kept\n", "", 0))
    failing = built(KEEPS_NOT="yes")
    tree.expect("not kept after all", (failing[:4], len(failing[4])), ((*stood, True), 1))
    for about, place in ("another definition", "crates/ltl_spec/specs/A/C.antt"), ("another HANDLES", "HANDLES"):
        before = (tree.top / place).read_text(encoding="ascii") if (tree.top / place).exists() else None
        tree.put(place, "-- changed\n")
        tree.expect(about, built()[3:], (True, []))
        if before is None:
            (tree.top / place).unlink()
        else:
            tree.put(place, before)
    tree.put("crates/ltl_tests/src/lib.rt", "// changed\n")
    tree.expect("another crate of tests", built()[3:4], (False,))
    shutil.rmtree(tree.top / "out")
    shutil.rmtree(tree.top / "crates/ltl_sets/must-fail")


def try_install(tree):
    for name in PROGRAMS:
        shutil.rmtree(tree.top / f"crates/{name}/out", ignore_errors=True)
    root = tree.top.parent / "root"
    tree.expect("not built", tree.run("./install", DESTDIR=str(root)), ("", "install: ltl2ba is not built; ./build proves and builds it\n", 1))
    for name in PROGRAMS:
        tree.put_program(name)
    archive = tree.top / "crates/ltl_c/out/libltl2ba.a"
    archive.unlink()
    tree.expect("no library", tree.run("./install", DESTDIR=str(root)), ("", "install: ltl_c is not built; ./build proves and builds it\n", 1))
    tree.expect("without the library", tree.run("./install", DESTDIR=str(root), WITHOUT_LIBRARY="1")[1:], ("", 0))
    tree.expect("what is there without it", placed(root / "usr/local"), sorted(OTHERS))
    tree.run("./install", "--uninstall", DESTDIR=str(root))
    archive.write_text("an archive\n", encoding="ascii")
    tree.expect("usage", tree.run("./install", "--nothing"), ("", "usage: ./install [--uninstall] [PREFIX]\n", 2))
    for words, prefix in ([], "usr/local"), (["/opt/ltl"], "opt/ltl"):
        tree.expect("installed", tree.run("./install", *words, DESTDIR=str(root))[1:], ("", 0))
        tree.expect("what is there", placed(root / prefix), sorted([*OTHERS, *ALIASES, *LIBRARY, *SHARED_FILES, *MODULE]))
        try_installed(tree, root / prefix, prefix)
        tree.expect("uninstalled", tree.run("./install", "--uninstall", *words, DESTDIR=str(root)), ("", "", 0))
        tree.expect("nothing is left", (placed(root), (root / prefix / "share/ltl2ba").exists()), ([], False))
    shared = tree.top / "crates/ltl_c/out/libltl2ba.so.1"
    content = shared.read_bytes()
    shared.unlink()
    tree.expect("without a shared library", tree.run("./install", DESTDIR=str(root))[1:], ("", 0))
    tree.expect("what is there without it", placed(root / "usr/local"), sorted([*OTHERS, *ALIASES, *LIBRARY]))
    shared.write_bytes(content)
    tree.expect("for all processors", "AVX2" in tree.run("./install", DESTDIR=str(root))[0], False)
    tree.put_program("ltleval", "x86-64-v3")
    shown = tree.run("./install", DESTDIR=str(root))[0].split("\n")[-2]
    tree.expect("for some processors", shown, "These programs run on processors with AVX2 alone (x86-64-v3); ./build --portable builds them for all.")
    tree.run("./install", "--uninstall", DESTDIR=str(root))


def placed(folder):
    return sorted(str(it.relative_to(folder)) for it in folder.rglob("*") if it.is_file())


def try_installed(tree, top, prefix):
    tree.expect("it runs", subprocess.run([top / "bin/ltl2ba", "a"], input="", capture_output=True, text=True, check=False).stdout, "1: a\n")
    described = (top / "lib/pkgconfig/ltl2ba.pc").read_text(encoding="ascii")
    tree.expect("its description", (described.startswith(DESCRIPTION.format(prefix)), "\nVersion: \n" in described), (True, False))
    tree.expect("its archive", (top / "lib/libltl2ba.a").read_text(encoding="ascii"), "an archive\n")
    tree.expect("its shared library", (os.readlink(top / "lib/libltl2ba.so"), (top / "lib/libltl2ba.so").read_text(encoding="ascii")), ("libltl2ba.so.1", SHARED))
    for page in ALIASES:
        tree.expect(page, (top / page).read_text(encoding="ascii"), ".so man3/ltl2ba.3\n")
    tree.expect("the tutorial's name", tree.run(str(top / "bin/ltl2ba-tutorial"), "-h")[0].split("\n")[0], "usage: ltl2ba-tutorial [check]")
    tree.expect("the name of ltlspin", tree.run(str(top / "bin/ltlspin"), "-h")[0].split(" ")[:2], ["usage:", "ltlspin"])
    tree.expect("without a model", tree.run(str(top / "bin/ltlspin"))[1].split(" ")[:2], ["usage:", "ltlspin"])
    shown = tree.run(str(top / "bin/ltl2ba-tutorial"), "check")
    tree.expect("the tutorial's programs", (f"-A {top}/share/ltl2ba/models/anyone.hoa -f" in shown[0], shown[2]), (True, 1))


def git(tree, *words):
    who = {f"GIT_{it}_{kind}": value for it in ("AUTHOR", "COMMITTER") for kind, value in (("NAME", "a name"), ("EMAIL", "a@b"), ("DATE", "1000000000 +0000"))}
    return subprocess.run(["git", *words], cwd=tree.top, env={**os.environ, **who}, capture_output=True, text=True, check=True).stdout.strip()


def packaged(tree):
    """The files that ./package leaves, by name, and what it tells."""
    for it in (tree.top / "out").glob("*ltl2ba*"):
        it.unlink()
    shown, told, status = tree.run("./package", has_rt=False)
    made = {it.name: it.read_bytes() for it in (tree.top / "out").glob("*ltl2ba*")}
    tree.expect("packaged", (status, sorted(shown.split())), (0, sorted(f"out/{it}" for it in made)))
    return made, told


def try_package(tree):
    for words in ["init", "-q"], ["add", "-A"], ["commit", "-qm", "a message"]:
        git(tree, *words)
    for name in *PROGRAMS, "ltl_c":
        shutil.rmtree(tree.top / f"crates/{name}/out", ignore_errors=True)
    not_built = "package: ltl2ba is not built; ./build --portable proves and builds it\n"
    tree.expect("usage", tree.run("./package", "now", has_rt=False), ("", "usage: ./package\n", 2))
    descriptions = re.findall(r'^\w+_DESCRIPTION = """\n(.*?)^"""', (TOP / "package").read_text(encoding="utf-8"), re.DOTALL | re.MULTILINE)
    long = [line for it in descriptions for line in it.splitlines() if len(line) > 79]
    tree.expect("lines of descriptions, which lintian wants to have 80 characters with the blank before them", (len(descriptions) > 1, long), (True, []))
    tree.expect("not built", tree.run("./package", has_rt=False), ("", not_built, 1))
    for name in "claim", "log", "model.pml", "model.pml.trail", "pan", "pan.c", "docs/tutorial/claim", "docs/tutorial/mutex.pml.trail", "docs/tutorial/pan.t":
        tree.put(name, "what an example leaves")
    tree.expect("what examples leave", tree.run("./package", has_rt=False), ("", not_built, 1))
    for name in PROGRAMS:
        (tree.top / f"crates/{name}/out").mkdir()
        tree.put(f"crates/{name}/out/{name}", "")
    tree.expect("built by something else", tree.run("./package", has_rt=False), ("", not_built, 1))
    missing = [it for it in ("cc", "ar", "strip", "objcopy", "objdump") if not shutil.which(it)]
    if missing:
        print(f"skipped: what ./package makes, for want of {missing[0]}")
        return
    made = compiled(tree)
    tree.run("./build", "--portable", **made)
    try_archive(tree)
    try_verdicts(tree)
    try_refusals(tree, made)


def compiled(tree):
    """A program and an archive, which the stand-ins leave as what they have built."""
    source = tree.top.parent / "program.c"
    source.write_text('#include <stdio.h>\nint main(void) { return puts("built") < 0; }\n', encoding="ascii")
    program, part, archive = (str(source.with_suffix(it)) for it in ("", ".o", ".a"))
    for words in ["cc", "-g", "-o", program, source], ["cc", "-g", "-fPIC", "-c", "-o", part, source], ["ar", "qcs", archive, part]:
        subprocess.run(words, check=True)
    return {"MADE_PROGRAM": program, "MADE_ARCHIVE": archive}


def try_archive(tree):
    first, told = packaged(tree)
    tree.expect("a warning", told, "package: WARNING: no run of the gate is noted here; ./test runs it. PROVED.txt says so.\n")
    for place in tree.top.rglob("*"):
        os.utime(place, (1_200_000_000, 1_200_000_000))
    tree.expect("the same bytes again", packaged(tree)[0] == first, True)
    name = next(it for it in first if it.endswith(".tar.gz"))
    version = (tree.top / "docs/CHANGES.md").read_text(encoding="utf-8").partition("\n## ")[2].partition(",")[0]
    names = [f"{it}_{version}_amd64.deb" for it in ("libltl2ba1", "libltl2ba-dev", "ltl2ba-proved")]
    debian = [*names, f"python3-ltl2ba_{version}_all.deb"] if shutil.which("dpkg-deb") else []
    wheel = f"ltl2ba-{version}-py3-none-linux_x86_64.whl"
    tree.expect("what is made", sorted(first), sorted([f"ltl2ba-{version}-x86_64-linux.tar.gz", wheel, *debian]))
    try_wheel(tree, tree.top / "out" / wheel)
    with tarfile.open(tree.top / "out" / name) as tar:
        entries, folder = tar.getmembers(), name.removesuffix(".tar.gz")
        tree.expect("sorted, with one owner and one time", [(it.name, it.uname, it.mtime) for it in entries], sorted((it.name, "root", 1_000_000_000) for it in entries))
        may_run = sorted(f"{folder}/bin/{it}" for it in (*PROGRAMS, "ltlspin", "ltl2ba-page", "ltl2ba-tutorial"))
        tree.expect("what may be run", [it.name for it in entries if it.isfile() and it.mode & 0o111], may_run)
        tar.extractall(tree.top.parent / "unpacked", filter="data")
    there = tree.top.parent / "unpacked" / folder
    tree.expect("what is installed", [it for it in (*OTHERS, *ALIASES, *LIBRARY, *SHARED_FILES, *MODULE, "LICENSE-MIT", "LICENSE-APACHE", "COPYRIGHT") if not (there / it).is_file()], [])
    try_proved(tree, there)
    try_pages(tree, there)
    try_instructions(tree, there)
    for it in debian:
        try_debian(tree, tree.top / "out" / it)


def try_wheel(tree, file):
    """The wheel has the module, the shared library and PROVED.txt, with the right sums."""
    with zipfile.ZipFile(file) as packed:
        contents = {it: packed.read(it) for it in packed.namelist()}
    info = next(it.partition("/")[0] for it in contents if it.endswith("/RECORD"))
    lines = [it.split(",") for it in contents[f"{info}/RECORD"].decode().splitlines()]
    tree.expect("what its record names", sorted(it[0] for it in lines), sorted(contents))
    made = {it[0]: "sha256=" + base64.urlsafe_b64encode(hashlib.sha256(contents[it[0]]).digest()).decode().rstrip("=") for it in lines if it[1]}
    tree.expect("the sums of its record", made, {it[0]: it[1] for it in lines if it[1]})
    wanted = {f"ltl2ba/{Path(it).name}" for it in (*MODULE, "libltl2ba.so.1")} | {f"{info}/{it}" for it in ("METADATA", "WHEEL", "PROVED.txt", "licenses/COPYRIGHT")}
    tree.expect("what it has", sorted(wanted - set(contents)), [])
    tree.expect("its proof", hashlib.sha256(contents["ltl2ba/libltl2ba.so.1"]).hexdigest() in contents[f"{info}/PROVED.txt"].decode(), True)


def shell(command, folder, **variables):
    ran = subprocess.run(["sh", "-c", command], cwd=folder, env={**os.environ, **variables}, capture_output=True, text=True, check=False)
    return ran.stdout, ran.stderr


def try_proved(tree, there):
    """PROVED.txt has the sums of the files beside it, and of what ./build left."""
    proved, files = (there / "PROVED.txt").read_text(encoding="utf-8").splitlines(), [*(f"bin/{it}" for it in PROGRAMS), "lib/libltl2ba.a", "lib/libltl2ba.so.1"]
    tree.expect("commit and kit", proved[:2], [f"commit {git(tree, 'rev-parse', 'HEAD')}", "kit a kit"])
    check = next(it for it in proved if it.startswith("To check")).partition(": ")[2].replace("FILE", "PROVED.txt")
    tree.expect("the check that it names", shell(check, there), ("".join(f"{it}: OK\n" for it in sorted(files)), ""))
    built = [tree.top / f"crates/{it}/out/{it}" for it in PROGRAMS] + [tree.top / f"crates/ltl_c/out/libltl2ba.{it}" for it in ("a", "so.1")]
    tree.expect("what ./build left", [it.name for it in built if f"{hashlib.sha256(it.read_bytes()).hexdigest()}  {it.name}" not in proved], [])
    tree.expect("stripped", [it for it, whole in zip(files, built) if (there / it).stat().st_size >= whole.stat().st_size], [])
    tree.expect("it runs", subprocess.run([there / "bin/ltl2ba"], capture_output=True, text=True, check=False).stdout, "built\n")


def try_pages(tree, there):
    """Pages lead nowhere else, and name no script of the repository in a command."""
    for page in there.rglob("*.md"):
        text = re.sub(r"^```.*?^```$|^    [^\n]*$|`[^`]*`", "", page.read_text(encoding="utf-8"), flags=re.M | re.S)
        links = re.findall(r"\]\(([^)#:\s]+)(?:#[^)]*)?\)", text)
        tree.expect(f"links of {page.name}", [it for it in links if not page.parent.joinpath(it).exists()], [])
        commands = re.findall(r"^ *\$ .*$", page.read_text(encoding="utf-8"), re.M)
        tree.expect(f"commands of {page.name}", [it for it in commands if "/run ltl" in it], [])
    pages = [str(it.relative_to(there)) for it in there.rglob("*.md")]
    tree.expect("pages for developers", [it for it in pages if re.search("PROVING|WORKING|WRONG-BODIES|bench", it)], [])


def try_instructions(tree, there):
    """The commands of INSTALL.txt copy, remove and find."""
    prefix = tree.top.parent / "copied"
    prefix.mkdir()
    text = (there / "INSTALL.txt").read_text(encoding="utf-8").replace("/usr/local", str(prefix))
    copies, removes = (re.search(rf"^{about}.*?:\n\n((?:    .*\n)+)", text, re.M)[1] for about in ("To install", "To remove"))
    tree.expect("copied", (shell(copies, there), [it for it in (*OTHERS, *ALIASES, *LIBRARY, *SHARED_FILES, *MODULE) if not (prefix / it).is_file()]), (("", ""), []))
    if shutil.which("pkg-config"):
        found = shell("pkg-config --cflags --libs ltl2ba", there, PKG_CONFIG_PATH=str(prefix / "lib/pkgconfig"))
        flags = [it[2:] if it.startswith(("-I", "-L")) else it for it in found[0].split()]
        tree.expect("pkg-config", [os.path.realpath(it) if "/" in it else it for it in flags], [str(prefix / "include"), str(prefix / "lib"), "-l:libltl2ba.a"])
    tree.expect("removed", (shell(removes, there), placed(prefix)), (("", ""), []))


def try_debian(tree, file):
    fields = dict(re.findall(r"^(\S+): (.*)$", shell(f"dpkg-deb -f '{file}'", tree.top)[0], re.M))
    room = tree.top.parent / file.stem
    shell(f"dpkg-deb -R '{file}' '{room}'", tree.top)
    name, version = fields["Package"], fields["Version"]
    wanted = {f"share/doc/{name}/{it}" for it in ("copyright", "changelog.gz", *(["PROVED.txt"] if name != "python3-ltl2ba" else []))}
    libraries = [it.replace("lib/", "lib/x86_64-linux-gnu/") if it.startswith("lib/") else it for it in (*ALIASES, *LIBRARY, *SHARED_FILES)]
    if name == "libltl2ba-dev":
        wanted |= {it for it in libraries if not it.endswith((".so", ".so.1"))}
        tree.expect("what the library needs", fields["Depends"], f"libc6-dev, libltl2ba1 (= {version})")
        tree.expect("its link", os.readlink(room / "usr/lib/x86_64-linux-gnu/libltl2ba.so"), "libltl2ba.so.1")
    elif name == "python3-ltl2ba":
        wanted |= {it.replace("share/ltl2ba/python/", "lib/python3/dist-packages/") for it in MODULE}
        tree.expect("what the module needs", (fields["Depends"], fields["Architecture"]), (f"python3 (>= 3.9), libltl2ba1 (>= {version})", "all"))
    else:
        program = "bin/ltl2ba" if name == "ltl2ba-proved" else "lib/x86_64-linux-gnu/libltl2ba.so.1"
        asked = re.findall(r"\(GLIBC_([\d.]+)\)", shell(f"objdump -T '{room}/usr/{program}'", tree.top)[0])
        newest = max(asked, key=lambda it: [int(number) for number in it.split(".")])
        tree.expect(f"what {name} needs", fields["Depends"], f"libc6 (>= {newest})")
        wanted |= set(OTHERS) if name == "ltl2ba-proved" else {program}
    packed = {f"{it}.gz" if it.startswith("share/man/") else it for it in wanted}
    tree.expect(f"files of {file.name}", [it for it in packed if not (room / "usr" / it).is_file()], [])
    sums = shell("md5sum -c --quiet DEBIAN/md5sums", room)
    tree.expect(f"sums of {file.name}", (sums, len((room / "DEBIAN/md5sums").read_text(encoding="utf-8").splitlines())), (("", ""), len(placed(room / "usr"))))


def try_verdicts(tree):
    """PROVED.txt quotes the gate's last run, and a warning tells of one that doesn't count."""
    commit = git(tree, "rev-parse", "HEAD")
    quoted = "From out/gate.log, which ./test left"
    for of, last, about, warning in (
        ("another", "7 passed, 0 failed", f"{quoted}; it ran on another commit, another:", "the gate's last run was on another commit, another; ./test runs it on this one"),
        (commit, "7 passed, 1 failed", f"{quoted}:", "the gate's last run didn't pass; its last line is: 7 passed, 1 failed"),
        (commit, "7 passed, 0 failed", f"{quoted}:", None),
    ):
        tree.put("out/gate.log", f"commit {of}\n== rt ci\nmuch\n{last}\n")
        made, told = packaged(tree)
        tree.expect("the warning", told, f"package: WARNING: {warning}. PROVED.txt says so.\n" if warning else "")
        name = next(it for it in made if it.endswith(".tar.gz"))
        with tarfile.open(tree.top / "out" / name) as tar:
            proved = tar.extractfile(f"{name.removesuffix('.tar.gz')}/PROVED.txt").read().decode().splitlines()
        tree.expect("verdicts", proved[proved.index(about) :][:3] if about in proved else proved, [about, "  == rt ci", f"  {last}"])


def try_refusals(tree, made):
    tree.put("crates/ltl_sets/src/lib.rt", "other\n")
    tree.expect("not committed", tree.run("./package", has_rt=False), ("", "package: 1 file is changed or not in git: crates/ltl_sets/src/lib.rt; commit or remove it\n", 1))
    tree.put("a file", "")
    told = "package: 2 files are changed or not in git, e.g. crates/ltl_sets/src/lib.rt; commit or remove them\n"
    tree.expect("not in git", tree.run("./package", has_rt=False), ("", told, 1))
    (tree.top / "a file").unlink()
    git(tree, "commit", "-qam", "other")
    refused = "package: {} is not built from these sources; ./build --portable proves and builds it\n"
    tree.expect("other sources", tree.run("./package", has_rt=False), ("", refused.format("ltl2ba"), 1))
    tree.run("./build", "--portable", **made)
    for name in "ltl2ba", "ltl_c":
        note = tree.top / f"crates/{name}/out/built.txt"
        whole = note.read_text(encoding="ascii")
        note.write_text("kit", encoding="ascii")
        tree.expect("half a note", tree.run("./package", has_rt=False), ("", refused.format(name), 1))
        note.write_text(whole.replace("portable", "x86-64-v3"), encoding="ascii")
        told = f"package: {name} is built for x86-64-v3 alone; ./build --portable builds it for all processors\n"
        tree.expect("for some processors", tree.run("./package", has_rt=False), ("", told, 1))
        note.write_text(whole, encoding="ascii")


def try_edits(tree):
    tree.put("docs/edits/least/one.edit", "file: a\nold: b\nnew: c\n")
    tree.expect("usage", tree.run("tools/edits", "--help"), ("", "usage: tools/edits [--anew | --left] [CRATE | CRATE/EDIT ..], or tools/edits --gate\n", 2))
    for word in "two", "least/two", "docs/edits/least/two.edit":
        tree.expect("no such edit", tree.run("tools/edits", "least/one", word), ("", f"edits: {word} is neither a crate with edits nor an edit\n", 1))
    shutil.rmtree(tree.top / "docs/edits")


def try_rests(tree):
    """What the note on a wrong body of `f` rests on: `f`, what it names, and the contract of `g`, which it calls."""

    def number(code=FUNCTIONS, sizes=SIZES):
        tree.put("crates/least/src/lib.rt", code)
        tree.put("crates/least/specs/Sizes.antt", sizes)
        return tree.run("python3", "-c", NUMBER)

    tree.put("docs/edits/least/f.edit", "file: src/lib.rt\nold:     g(a)\nnew:     a\n")
    first = number()
    for about, code, sizes in (
        ("a comment", FUNCTIONS.replace("// a comment", "// another one"), SIZES),
        ("a body that it calls", FUNCTIONS.replace("    a\n", "    a + 0\n"), SIZES),
        ("a function that it doesn't call", FUNCTIONS.replace("fn h", "fn k"), SIZES),
        ("a definition that nothing names", FUNCTIONS, SIZES.replace("other n = n", "other n = 0")),
    ):
        tree.expect(about, number(code, sizes), first)
    for about, code, sizes in (
        ("its body", FUNCTIONS.replace("    g(a)", "    g(a) + 0\n    g(a)"), SIZES),
        ("its contract", FUNCTIONS.replace("≡ large", "≡ small"), SIZES),
        ("the contract of what it calls", FUNCTIONS.replace("≡ small", "≡ large"), SIZES),
        ("a definition that it names", FUNCTIONS, SIZES.replace("large n = n", "large n = 0")),
        ("a definition that its callee names", FUNCTIONS, SIZES.replace("small n = n", "small n = 0")),
    ):
        tree.expect(about, (number(code, sizes)[2], number(code, sizes) != first), (0, True))
    shutil.rmtree(tree.top / "docs/edits")


def try_gate(tree):
    """Wrong bodies in the gate: `f` is refused; `g` isn't, so that it fails; nothing is known of `h`, nor of a type."""
    tree.put("crates/least/src/lib.rt", FUNCTIONS)
    tree.put(tree.kit / "bin/rattle", RATTLE)
    (tree.kit / "bin/rattle").chmod(0o755)
    for name, old, new in ("f", "    g(a)", "wrong"), ("h", "    a + 1", "a"):
        tree.put(f"docs/edits/least/{name}.edit", f"file: src/lib.rt\nold: {old}\nnew: {new}\n")
    due = " wrong bodies that are due"
    left = due + " are left untried; tools/edits tries them, and notes what is refused\n"
    refused = "least/f: refused: note: src/lib.rt:12:5: it is not proved that it holds\nleast/h: not tried: only=1 proved=0\n"
    skipped = "0 wrong bodies that each run tries, and 2 that are due, "
    tree.expect("without", tree.run("tools/edits", "--gate", WITHOUT_EDITS="1"), (f"skipped: {skipped}as WITHOUT_EDITS=1 asks\n0 passed, 0 failed\n", "", 0))
    tree.expect("refused and unknown", tree.run("tools/edits", "--gate"), (f"{refused}1{left}1 passed, 0 failed\n", "", 0))
    called = [it for it in tree.calls.read_text(encoding="ascii").splitlines() if it.startswith("check ")]
    tree.expect("together, then alone", called, ["check least --only h", "check least --only h"])
    tree.put("docs/edits/least/h.edit", "file: src/lib.rt\nold:     a + 1\nnew: right\n")
    tree.expect("proved", tree.run("tools/edits", "--gate")[::2], (f"{refused[: refused.index('least/h')]}least/h: NOT REFUSED: all is proved with it: only=1 proved=1\n0{left}1 passed, 1 failed\n", 1))
    none = "aren't tried, since `rt ci` keeps no libraries of this tree here\n0 passed, "
    tree.expect("no libraries", tree.run("tools/edits", "--gate", KEEPS_NOT="1"), (f"skipped: {skipped}{none}0 failed\n", "", 0))
    tried = "# tried: in each run of the gate\n"
    tree.put("docs/edits/least/f.edit", f"{tried}file: src/lib.rt\nold:     g(a)\nnew: wrong\n")
    tree.put("docs/edits/least/h.edit", "file: src/lib.rt\nold:     a + 1\nnew: a\n")
    tree.expect("each run's and a due one", tree.run("tools/edits", "--gate"), (f"{refused}1{left}1 passed, 0 failed\n", "", 0))
    tree.expect("no libraries for each run's", tree.run("tools/edits", "--gate", KEEPS_NOT="1"), (f"1{skipped[1:].replace('2', '1')}{none}1 failed\n", "", 1))
    for new in "right", "a":
        tree.put("docs/edits/least/h.edit", f"{tried}file: src/lib.rt\nold:     a + 1\nnew: {new}\n")
        told = "least/h: each run has to see it refused, and this one doesn't\n"
        tree.expect("each run's is proved, or unknown", told in tree.run("tools/edits", "--gate")[0], True)
        tree.expect("then the gate fails", tree.run("tools/edits", "--gate")[2], 1)
    shutil.rmtree(tree.top / "docs/edits")
    tree.expect("nothing", tree.run("tools/edits", "--gate"), ("no wrong body is due\n0 passed, 0 failed\n", "", 0))


def try_dead_code(tree):
    tree.put("docs/LIBRARY.md", "held\n## Crate by crate\n| `named` | Held |\n")
    tree.put("crates/ltl_sets/src/lib.rt", SETS)
    tree.put("crates/sets_tests/src/lib.rt", "#[test]\nfn test() {\n    for_tests();\n}\n")
    said, _, status = tree.run("tools/dead_code", "ltl_sets")
    found = {it.split(" is needed")[0] for it in said.splitlines()[:-1]}
    tree.expect("dead code", (found, status), ({f"crates/ltl_sets/src/lib.rt:{line} {name}" for line, name in UNNEEDED}, 1))
    tree.put("crates/ltl_sets/src/lib.rt", SETS.replace("    inner(MOST)", "    inner(MOST) + lonely() + Held { a: 0 }.looked()"))
    tree.expect("all is needed", tree.run("tools/dead_code", "ltl_sets"), ("9 passed, 0 failed\n", "", 0))


def try_wrong_bodies(tree):
    change, head = "file: a\nold: b\nnew: c\n", "| call | wrong body | what refuses it | edit |\n|---|---|---|---|\n"
    tree.put("docs/edits/least/one.edit", f"# call: `f`, `g`\n# what: `a | b`\n# refused by: the loop of `f`\n{change}")
    tree.put("crates/least/must-fail/two.edit", f"# call: `g`\n# what: a\n# refused by: a clause, by what `f` requires\n{change}")
    tree.put("docs/WRONG-BODIES.md", "# By hand\n")
    tree.expect("the table is written", tree.run("tools/wrong_bodies", "write"), ("", "", 0))
    page = (tree.top / "docs/WRONG-BODIES.md").read_text(encoding="utf-8")
    tree.expect("by hand, and made", (page.startswith("# By hand\n\n<!--"), "2 wrong bodies, of which each run of the gate tries 1." in page), (True, True))
    tree.expect("its rows", [it for it in page.split("\n") if it.startswith("| `")], ["| `least` | 2 | 1 |  | 1 | 1 |  |"])
    tree.expect("the page stays", tree.run("tools/wrong_bodies")[0], page[page.index("<!--") :])
    rows = ["| `f`, `g` | `a \\| b` | the loop of `f` | one |", "| `g` | a | a clause, by what `f` requires | two (gate) |"]
    shown = "### `least`\n\n" + head + "\n".join(rows) + "\n\n"
    tree.expect("each edit", (tree.run("tools/wrong_bodies", "show"), tree.run("tools/wrong_bodies", "show", "least")), ((shown, "", 0), (shown, "", 0)))
    tree.expect("usage", (tree.run("tools/wrong_bodies", "-h")[2], tree.run("tools/wrong_bodies", "show", "ltl_sets")[2]), (2, 2))


def try_believe(tree):
    small = "small/tools/believe"
    for place, text in SMALL.items():
        tree.put(f"small/{place}", text)
    for name in "believe", "theory.py", "contracts.py":
        tree.put(f"small/tools/{name}", (TOP / "tools" / name).read_text(encoding="utf-8"))
    (tree.top / small).chmod(0o755)
    tree.expect("a call", tree.run(small, "high::fill"), (BELIEVED, "", 0))
    tree.expect("without its crate", tree.run(small, "fill"), (BELIEVED, "", 0))
    rows = "| `high::fill` | 6 | 3 | 25 |", "| `low::Size::size` | 1 | 1 | 6 |", "| `TellsTruth` | 3 | 2 | 8 |"
    tree.expect("all calls, and a meaning", tree.run(small), ("\n".join(["| call | definitions | files | lines |", "|---|---|---|---|", *rows, ""]), "", 0))
    for name in "TellsTruth", "Meaning.TellsTruth", "low.specs.Meaning.TellsTruth":
        tree.expect(f"the definition {name}", tree.run(small, name), (STATED, "", 0))
    for name in "nowhere", "Numbers.TellsTruth", "next.odd":
        tree.expect(f"nothing by the name {name}", tree.run(small, name), ("", f"believe: {name} is neither a public call nor a definition\n", 2))
    tree.expect("several calls", tree.run(small, "size"), ("", "believe: size is one of high::size, low::Size::size\n", 2))
    shown, told, status = tree.run(small, "--check")
    wrong = [
        "README.md doesn't say what `IsReadAsModels` rests on",
        "README.md doesn't say what `IsTextOfModels` rests on",
        "README.md doesn't say what `TellsVerdict` rests on",
        "README.md says that `ltl_cli::run` rests on 1 definitions, 2 lines in 3 files, and not that there is no such call or definition",
        "README.md says that `odd` on 6 lines, and not that `odd` rests on 2 definitions, 5 lines in 1 files",
        "docs/PROVED.md doesn't say what `ltl_cli::run` rests on",
        "docs/PROVED.md doesn't say what `IsReadAsModels` rests on",
        "docs/PROVED.md doesn't say what `IsTextOfModels` rests on",
        "docs/PROVED.md doesn't say what `TellsVerdict` rests on",
        "docs/PROVED.md says that `high::fill` rests on 6 definitions, 26 lines in 3 files, and not that `high::fill` rests on 6 definitions, 25 lines in 3 files",
    ]
    tree.expect("what pages say", (shown.split("\n")[:-2], told, status), (wrong, "", 1))
    tree.put("small/crates/low/specs/Meaning.antt", SMALL["crates/low/specs/Meaning.antt"].replace("-- the answer", "-- the number\n-- of the answer") + "\nabbrev pub idle : ℕ\nidle = 1\n")
    shown = tree.run(small, "--check")[0].split("\n")
    grown = "`TellsTruth` on 8 lines", "`TellsTruth` rests on 3 definitions, 8 lines in 2 files"
    wrong = [f"{page} says that {it}, and not that `TellsTruth` rests on 3 definitions, 9 lines in 2 files" for page, it in zip(("README.md", "docs/PROVED.md"), grown)]
    tree.expect("a definition that has grown", [it for it in shown if "TellsTruth" in it], wrong)
    tree.expect("two definitions", tree.run(small, "idle"), ("", "believe: idle is one of Meaning.idle, Numbers.idle\n", 2))
    tree.put("small/crates/high/src/lib.rt", SMALL["crates/high/src/lib.rt"].replace("low.specs.Numbers as numbers", "low.proofs.Laws as numbers").replace("IsFull", "law"))
    tree.put("small/docs/LIBRARY.md", SMALL["docs/LIBRARY.md"].replace("`fill(shelf, most)`", "`fill(shelf)`, `empty(shelf)`"))
    shown = tree.run(small, "--check")[0].split("\n")
    tree.expect("a proof, and no call", shown[:2], ["docs/LIBRARY.md names empty, which is no public call there", "crates/high/src/lib.rt high::fill rests on crates/low/proofs/Laws.antt"])


def try_usages(tree):
    """Each script prints its usage for -h, and does nothing else."""
    before = {it: it.stat().st_mtime_ns for it in tree.top.rglob("*")}
    for name, wanted in SCRIPTS.items():
        for word in "-h", "--help":
            shown, told, status = tree.run(name, word)
            named = re.search(r"\busage: +(\S+)", told if wanted else shown, re.I)
            tree.expect(f"{name} {word}", (named and named[1].rstrip(".;"), shown if wanted else told, status), (name, "", wanted))
            tree.expect(f"what {name} {word} asks the prover", tree.calls.read_text(encoding="ascii"), "")
    tree.expect("what else was done", [str(it) for it in tree.top.rglob("*") if before.get(it) != it.stat().st_mtime_ns], [])
    tree.expect("./test with a word", tree.run("./test", "now"), ("", "usage: ./test\n", 2))


def main():
    with tempfile.TemporaryDirectory() as folder:
        tree = Tree(folder)
        for part in try_run, try_build, try_kept, try_install, try_package, try_edits, try_rests, try_gate, try_dead_code, try_wrong_bodies, try_believe:
            part(tree)
        try_usages(tree)
    print(f"{tree.passed} passed, {tree.failed} failed")
    return 1 if tree.failed or not tree.passed else 0


sys.exit(main())
