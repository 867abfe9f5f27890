"""What `pip install ./python` runs, in a copy of the repository: it packs the module, and the shared library that `./build` made, into a wheel. It needs no other
package, so pip needs no network. See PEP 517."""

import re
import sys
import time
from pathlib import Path

PYTHON = Path(__file__).resolve().parent.parent
TOP = PYTHON.parent
sys.path.insert(0, str(TOP / "tools"))
from wheel import file_name, wheel

LICENCES = "LICENSE-APACHE", "LICENSE-MIT"


def _version():
    return re.search(r'^__version__ = "(.*)"$', (PYTHON / "ltl2ba/__init__.py").read_text(encoding="utf-8"), re.M)[1]


def _put(files, folder):
    """Writes a wheel of these files into the folder, and returns its name."""
    version, description = _version(), (PYTHON / "README.md").read_text(encoding="utf-8")
    licences = {f"info/licenses/{it}": (TOP / it).read_bytes() for it in LICENCES}
    Path(folder, file_name(version)).write_bytes(wheel({**files, **licences}, version, description, int(time.time())))
    return file_name(version)


def _shared():
    """The shared library."""
    found = list((TOP / "crates/ltl_c/out").glob("libltl2ba.so.*"))
    if not found:
        sys.exit("ltl2ba: the shared library isn't there; ./build ltl_c makes it where there is a C compiler")
    return found[0]


def build_wheel(wheel_directory, config_settings=None, metadata_directory=None):
    places = [_shared(), *(it for it in (PYTHON / "ltl2ba").iterdir() if it.suffix in (".py", ".typed"))]
    return _put({f"ltl2ba/{it.name}": it.read_bytes() for it in places}, wheel_directory)


def build_editable(wheel_directory, config_settings=None, metadata_directory=None):
    """With `pip install -e` the module stays where it is, and finds the library in the repository."""
    return _put({"ltl2ba.pth": f"{PYTHON}\n".encode()}, wheel_directory)


def build_sdist(sdist_directory, config_settings=None):
    sys.exit("ltl2ba: the sources of the module are a part of the repository, and aren't packed alone")
