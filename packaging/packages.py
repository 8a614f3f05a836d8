"""The two packages, made by tar, gzip and dpkg-deb.

The same release makes the same bytes: each file and folder has the time of the commit, a mode by its kind, and root as
its owner, and names are sorted.
"""

from __future__ import annotations

import hashlib
import os

from contents import MAINTAINER, for_debian, for_tarball, mode_of
from tools import called, output

BLOCK = 1_024  # bytes in which Debian counts what is installed

DESCRIPTION = """\
archive of a family history society
 Keeps register entries, persons, families, events, places and sources in one
 file, with a reason for each link from an entry to a person. Reads and writes
 GEDCOM 5.5.1, and hides the living from visitors.
 .
 Each function of the program is proved to meet its contract.
"""


def tarball_name(release):
    return f"parish-{release.version}-x86_64-linux.tar.gz"


def deb_name(release):
    return f"parish_{release.version}_amd64.deb"


def put(files, folder):
    for name, data in files.items():
        path = os.path.join(folder, name)
        os.makedirs(os.path.dirname(path), exist_ok=True)
        with open(path, "wb") as file:
            file.write(data)


def settle(folder, seconds):
    """Gives each file and folder its mode and its time, whatever the umask and the clock are."""
    for at, _, names in os.walk(folder, topdown=False):
        for name in names:
            path = os.path.join(at, name)
            os.chmod(path, mode_of(os.path.relpath(path, folder)))
            os.utime(path, (seconds, seconds))
        os.chmod(at, 0o755)
        os.utime(at, (seconds, seconds))


def tarball(release, room):
    """Makes the tarball in a folder, and returns its path."""
    path = os.path.join(room, tarball_name(release))
    top = os.path.basename(path).removesuffix(".tar.gz")
    put(for_tarball(release), os.path.join(room, top))
    settle(os.path.join(room, top), release.seconds)
    how = ("--sort=name", "--format=ustar", "--owner=root:0", "--group=root:0", "--use-compress-program=gzip -n -9")
    called(("tar", "--create", f"--directory={room}", f"--file={path}", *how, top))
    return path


def depends(release, room):
    """What the executable needs, as `dpkg-shlibdeps` finds it by its symbols."""
    source = b"Source: parish\n\nPackage: parish\nArchitecture: amd64\n"  # what dpkg-shlibdeps asks to find
    put({"debian/control": source, "parish": release.program}, room)
    os.chmod(os.path.join(room, "parish"), 0o755)
    said = output("dpkg-shlibdeps", "-O", "parish", cwd=room)
    return said.strip().removeprefix("shlibs:Depends=")


def folders_of(files):
    """Each folder above a file."""
    parts = {tuple(name.split("/")[:-1]) for name in files}
    return {it[:count] for it in parts for count in range(1, len(it) + 1)}


def installed_size(files):
    """In units of 1,024 bytes, each file rounded up and each folder one, as Debian's own tools count."""
    return sum(-(-len(data) // BLOCK) for data in files.values()) + len(folders_of(files))


def control(release, files, needs):
    lines = {
        "Package": "parish",
        "Version": release.version,
        "Architecture": "amd64",
        "Maintainer": MAINTAINER,
        "Installed-Size": installed_size(files),
        "Depends": needs,
        "Section": "misc",
        "Priority": "optional",
        "Description": DESCRIPTION.rstrip("\n"),
    }
    return "".join(f"{name}: {value}\n" for name, value in lines.items() if value != "").encode()


def debian_files(release, room):
    """Everything in the Debian package: its files, and what dpkg needs to know about them."""
    files = {f"usr/{name}": data for name, data in for_debian(release).items()}
    sums = "".join(f"{hashlib.md5(files[name]).hexdigest()}  {name}\n" for name in sorted(files))
    told = {"DEBIAN/control": control(release, files, depends(release, room)), "DEBIAN/md5sums": sums.encode()}
    return {**files, **told}


def deb(release, room):
    """Makes the Debian package in a folder, and returns its path."""
    path, tree = os.path.join(room, deb_name(release)), os.path.join(room, "tree")
    put(debian_files(release, os.path.join(room, "needs")), tree)
    settle(tree, release.seconds)
    env = {**os.environ, "SOURCE_DATE_EPOCH": str(release.seconds)}
    # one thread, since more of them may cut what is compressed elsewhere
    how = ("--root-owner-group", "--threads-max=1", "-Zxz")
    called(("dpkg-deb", *how, "--build", tree, path), env=env)
    return path
