"""Makes a wheel, the package that pip installs, of the module for Python and the shared library."""

import base64
import hashlib
import io
import time
import zipfile

TAG = "py3-none-linux_x86_64"
METADATA = """Metadata-Version: 2.1
Name: ltl2ba
Version: {version}
Summary: {summary}
License: MIT OR Apache-2.0
Requires-Python: >=3.9
Provides-Extra: networkx
Requires-Dist: networkx; extra == 'networkx'
Description-Content-Type: text/markdown

{description}"""
WHEEL = f"Wheel-Version: 1.0\nGenerator: ltl2ba\nRoot-Is-Purelib: false\nTag: {TAG}\n"
SUMMARY = "Linear temporal logic over a proved library: automata of formulas, checks, and words"


def file_name(version):
    return f"ltl2ba-{version}-{TAG}.whl"


def sum_of(content):
    return "sha256=" + base64.urlsafe_b64encode(hashlib.sha256(content).digest()).rstrip(b"=").decode()


def wheel(files, version, description, seconds):
    """The bytes of a wheel. `files` are those of the package and those beside its metadata, whose places begin with `info/`. All times are the given one."""
    folder = f"ltl2ba-{version}.dist-info"
    found = {place.replace("info/", f"{folder}/", 1) if place.startswith("info/") else place: content for place, content in files.items()}
    found[f"{folder}/METADATA"] = METADATA.format(version=version, summary=SUMMARY, description=description).encode()
    found[f"{folder}/WHEEL"] = WHEEL.encode()
    lines = [f"{place},{sum_of(content)},{len(content)}" for place, content in sorted(found.items())]
    found[f"{folder}/RECORD"] = "".join(f"{it}\n" for it in [*lines, f"{folder}/RECORD,,"]).encode()
    made = io.BytesIO()
    with zipfile.ZipFile(made, "w", zipfile.ZIP_DEFLATED) as packed:
        for place, content in sorted(found.items()):
            entry = zipfile.ZipInfo(place, time.gmtime(max(seconds, 315_532_800))[:6])
            entry.create_system, entry.external_attr, entry.compress_type = 3, 0o100644 << 16, zipfile.ZIP_DEFLATED
            packed.writestr(entry, content)
    return made.getvalue()
