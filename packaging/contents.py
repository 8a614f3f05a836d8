"""What a package has: each file by its name below the folder that it is installed in, and where it comes from.

The tarball has these files under one folder, and is unpacked into /opt; the Debian package has them under /usr,
as that system wants them: the manual compressed, the licence by its name there, and a changelog in its form.
"""

from __future__ import annotations

import hashlib
import os
import re
from dataclasses import dataclass

from completions import bash, zsh
from tools import Missing, bytes_of, output, without_names

PROGRAM = "bin/parish"
MANUAL = "share/man/man1/parish.1"
DOCUMENTS = "share/doc/parish"
BASH = "share/bash-completion/completions/parish"
ZSH = "share/zsh/site-functions/_parish"
ZSH_OF_DEBIAN = "share/zsh/vendor-completions/_parish"
MANIFEST = f"{DOCUMENTS}/MANIFEST"
MAINTAINER = "Jorwethan maintainers <maintainers@users.noreply.jorwethan.example>"

# What users of the program read; the other documents are for those who change it, and are in the source.
FOR_USERS = (
    "README.md", "CHANGELOG.md", "docs/BENCH.md", "docs/FORMATS.md", "docs/INTERCHANGE.md", "docs/KEEPING.md",
    "docs/LIVING.md", "docs/PROVED.md", "docs/READING-ROOM.md", "docs/REFUSALS.md", "docs/SHEETS.md",
    "docs/VERSIONS.md", "docs/WALK.md", "docs/room-family.png", "docs/room-person.png",
)

LIBRARIES = """\
parish is built on libraries of the Rattle kit. Those named below are ports of other people's work, or contain tables of
theirs; the text of each licence follows the names of the libraries that have it.
"""


@dataclass(frozen=True)
class Release:
    """What a package is made of, when everything that it needs is there."""

    root: str
    version: str
    kit: str
    note: str
    """What ./test left after the gate passed."""
    seconds: int
    """The time of the commit, given to all files."""
    kit_folder: str
    uses: tuple[str, ...]
    """The libraries of the kit that the crates name."""
    program: bytes
    """The executable that the gate made, stripped."""


def sum_of(data):
    return hashlib.sha256(data).hexdigest()


def mode_of(name):
    return 0o755 if "/bin/" in f"/{name}" else 0o644


def manifest(release, files):
    """Which release this is, as comments, and the sum of each file, as `sha256sum -c` reads them."""
    head = f"parish {release.version}\nkit {release.kit}\n{release.note}"
    comments = "".join(f"# {line}\n" for line in head.splitlines())
    return (comments + "".join(f"{sum_of(files[name])}  {name}\n" for name in sorted(files))).encode()


def with_manifest(release, files):
    return {**files, MANIFEST: manifest(release, files)}


def libraries_below(release):
    """The kit's libraries that the crates name and those that these stand on, as the kit notes them."""
    found, open_names = set(), list(release.uses)
    while open_names:
        name = open_names.pop()
        if name not in found:
            found.add(name)
            below = bytes_of(os.path.join(release.kit_folder, "rlibs", f"{name}.rlib", "format"))
            open_names += [it.decode() for it in re.findall(rb"^dep (\w+)$", below, re.MULTILINE)]
    return sorted(found)


def licences(release):
    """Each text of a licence of a library in the program, once, below the names of all libraries that it is of."""
    names_of = {}
    for library in libraries_below(release):
        folder = os.path.join(release.kit_folder, "rattle", library)
        for name in sorted(os.listdir(folder)):
            if name.startswith("LICENSE"):
                names_of.setdefault(bytes_of(os.path.join(folder, name)), []).append(library)
    rule = b"\n" + b"-" * 80 + b"\n"
    return LIBRARIES.encode() + b"".join(
        rule + ", ".join(names).encode() + b":\n\n" + text for text, names in names_of.items()
    )


def documents(release):
    """What lies in the folder of documents of both packages, by its name there."""
    samples = output("git", "-C", release.root, "ls-files", "-z", "samples").split("\0")[:-1]
    found = {name: bytes_of(os.path.join(release.root, name)) for name in (*FOR_USERS, *samples)}
    return {**found, "LIBRARIES": licences(release)}


def for_tarball(release):
    files = {f"{DOCUMENTS}/{name}": data for name, data in documents(release).items()}
    files[f"{DOCUMENTS}/LICENSE"] = bytes_of(os.path.join(release.root, "LICENSE"))
    files[MANUAL] = bytes_of(os.path.join(release.root, "docs", "parish.1"))
    files[BASH], files[ZSH] = bash(release.root).encode(), zsh(release.root).encode()
    files[PROGRAM] = release.program
    return with_manifest(release, files)


def debian_changelog(release):
    day = output("date", "--utc", "--rfc-email", f"--date=@{release.seconds}").strip()
    change = "  * CHANGELOG.md beside this file says what is new."
    return f"parish ({release.version}) unstable; urgency=medium\n\n{change}\n\n -- {MAINTAINER}  {day}\n".encode()


def for_debian(release):
    files = {f"{DOCUMENTS}/{name}": data for name, data in documents(release).items()}
    files[f"{DOCUMENTS}/copyright"] = bytes_of(os.path.join(release.root, "LICENSE"))
    files[f"{DOCUMENTS}/changelog.gz"] = without_names(debian_changelog(release))
    files[f"{MANUAL}.gz"] = without_names(bytes_of(os.path.join(release.root, "docs", "parish.1")))
    files[BASH], files[ZSH_OF_DEBIAN] = bash(release.root).encode(), zsh(release.root).encode()
    files[PROGRAM] = release.program
    return with_manifest(release, files)


def version_of(program, root):
    """The version that the program prints, of which the changelog and the manual have to speak too."""
    said = output(program, "--version")
    found = re.fullmatch(r"parish (\d+\.\d+\.\d+)\n", said)
    if not found:
        raise Missing(f"the program prints no version: {said!r}")
    version = found[1]
    if f"\n## {version}\n".encode() not in bytes_of(os.path.join(root, "CHANGELOG.md")):
        raise Missing(f"CHANGELOG.md has no heading ## {version}")
    if f'"parish {version}"'.encode() not in bytes_of(os.path.join(root, "docs", "parish.1")).partition(b".SH")[0]:
        raise Missing(f"docs/parish.1 is not the manual of version {version}")
    return version
