"""Makes Debian packages of files below /usr. A package is described by its name, its fields and its description."""

import gzip
import hashlib
import os
import stat
import tempfile
from dataclasses import dataclass, field
from datetime import datetime, timezone
from email.utils import format_datetime
from pathlib import Path

from binaries import run

# Of Debian's architectures this is the one of the programs, and the folder in lib of its libraries.
ARCHITECTURE, LIBRARIES = "amd64", "x86_64-linux-gnu"
# The authors have no common address; `invalid` is the domain of addresses that nobody has.
MAINTAINER = "The ltl2ba authors <authors@ltl2ba.invalid>"


@dataclass(frozen=True)
class Package:
    """What is said of a package: its name, the fields of its control file but for those that are the same in all packages, and its description; and the
    files beside its control file."""

    name: str
    fields: dict
    summary: str
    description: str
    scripts: dict = field(default_factory=dict)

    def file_name(self, version):
        return f"{self.name}_{version}_{self.fields.get('Architecture', ARCHITECTURE)}.deb"

    def control(self, version, kilobytes):
        fields = {"Package": self.name, "Version": version, "Architecture": ARCHITECTURE, "Maintainer": MAINTAINER}
        fields |= {"Installed-Size": kilobytes, "Priority": "optional", **self.fields, "Description": self.summary}
        return "".join(f"{name}: {value}\n" for name, value in fields.items()) + "".join(f" {it or '.'}\n" for it in self.description.strip().split("\n"))

    def changelog(self, versions):
        """The changelog: an entry for each pair of a version and its date."""
        for version, date in versions:
            at = format_datetime(datetime.fromisoformat(date).replace(tzinfo=timezone.utc))
            yield f"{self.name} ({version}) unstable; urgency=medium\n\n  * What changed is in docs/CHANGES.md of ltl2ba-proved.\n\n -- {MAINTAINER}  {at}\n"


def packed(content):
    return gzip.compress(content, compresslevel=9, mtime=0)


def placed(package, files, versions, copyright_text):
    """The files of a package by their places, with all that Debian wants in it."""
    doc = f"usr/share/doc/{package.name}"
    found = {f"usr/{place}": file for place, file in files.items()}
    found[f"{doc}/copyright"] = copyright_text.encode(), 0o644
    found[f"{doc}/changelog.gz"] = packed("\n".join(package.changelog(versions)).encode()), 0o644
    for place in [it for it in found if it.startswith("usr/share/man/")]:
        content, mode = found.pop(place)
        found[f"{place}.gz"] = packed(content), mode
    return dict(sorted(found.items()))


def put(package, files, versions, copyright_text, to, seconds):
    """Has dpkg-deb put a package of files below /usr into a folder, and returns its file. All times are the given one."""
    found = placed(package, files, versions, copyright_text)
    kilobytes = sum((len(content) + 1023) // 1024 for content, _ in found.values())
    whole = {place: content for place, (content, mode) in found.items() if not stat.S_ISLNK(mode)}
    sums = "".join(f"{hashlib.md5(content, usedforsecurity=False).hexdigest()}  {place}\n" for place, content in whole.items())
    version = versions[0][0]
    with tempfile.TemporaryDirectory() as room:
        found["DEBIAN/control"] = package.control(version, kilobytes).encode(), 0o644
        found["DEBIAN/md5sums"] = sums.encode(), 0o644
        found |= {f"DEBIAN/{name}": (content.encode(), 0o755 if content.startswith("#!") else 0o644) for name, content in package.scripts.items()}
        for place, (content, mode) in found.items():
            file = Path(room, place)
            file.parent.mkdir(parents=True, exist_ok=True)
            if stat.S_ISLNK(mode):
                file.symlink_to(content.decode())
                continue
            file.write_bytes(content)
            file.chmod(mode)
        for it in (Path(room), *Path(room).rglob("*")):
            if it.is_dir():
                it.chmod(0o755)
            os.utime(it, (seconds, seconds), follow_symlinks=False)
        file = Path(to, package.file_name(version))
        run(["dpkg-deb", "--root-owner-group", "-Zgzip", "--build", room, file], env={**os.environ, "SOURCE_DATE_EPOCH": str(seconds)})
    return file
