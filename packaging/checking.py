"""Whether a package has just what this release has: the same files, and so the executable that the gate made.

A package is read by Python's tarfile, not unpacked. What it has to contain is made again, so a manifest that fits its
files is not enough: it has to be the manifest of this release.
"""

from __future__ import annotations

import io
import os
import re
import tarfile
import tempfile
import zlib

from contents import MANIFEST, PROGRAM, for_tarball, mode_of, sum_of
from packages import debian_files, tarball_name
from tools import Missing, bytes_of, called

EXECUTABLE = re.compile(rb"^# executable (\w+)$", re.MULTILINE)


def members(data, under):
    """The files of an archive of tar by their names below a folder: all are root's, with the modes of their kinds."""
    files = {}
    with tarfile.open(fileobj=io.BytesIO(data)) as archive:
        for it in archive:
            name = os.path.normpath(it.name)
            if (it.uid, it.gid, it.mode) != (0, 0, mode_of(name) if it.isfile() else 0o755):
                raise Missing(f"{name} is not root's, or has another mode")
            below = name.removeprefix(under)
            if it.isfile() and name.startswith(under) and below not in files:
                files[below] = archive.extractfile(it).read()
            elif not it.isdir():
                raise Missing(f"{name} is no file of a package, or is there twice")
    return files


def of_tarball(release, path):
    top = tarball_name(release).removesuffix(".tar.gz")
    return members(bytes_of(path), f"{top}/"), for_tarball(release)


def of_deb(release, path):
    files = members(called(("dpkg-deb", "--fsys-tarfile", path)), "")
    told = members(called(("dpkg-deb", "--ctrl-tarfile", path)), "")
    with tempfile.TemporaryDirectory() as room:
        wanted = debian_files(release, room)
    return {**files, **{f"DEBIAN/{name}": data for name, data in told.items()}}, wanted


def file_at(files, end):
    return next((data for name, data in files.items() if name.endswith(end)), b"")


def other_executable(files, wanted):
    """What has to be said first: whose executable it is, by the manifest and by its bytes."""
    ours, theirs = (EXECUTABLE.findall(file_at(it, MANIFEST)) for it in (wanted, files))
    if ours != theirs:
        yield "its manifest names another executable than the gate made"
    program = file_at(files, PROGRAM)
    if program != file_at(wanted, PROGRAM):
        yield f"its executable, of sum {sum_of(program)}, is not the one that the gate made"


def others(files, wanted):
    yield from (f"{name} is missing" for name in sorted(wanted.keys() - files.keys()))
    yield from (f"{name} does not belong there" for name in sorted(files.keys() - wanted.keys()))
    yield from (f"{name} is another" for name in sorted(wanted.keys() & files.keys()) if files[name] != wanted[name])


def check(release, path):
    try:
        files, wanted = (of_deb if path.endswith(".deb") else of_tarball)(release, path)
    except (tarfile.TarError, zlib.error, EOFError) as error:
        raise Missing(f"{path} cannot be read: {error}") from None
    except Missing as missing:
        raise Missing(f"{path}: {missing}") from None
    for why in (*other_executable(files, wanted), *others(files, wanted)):
        raise Missing(f"{path}: {why}")
